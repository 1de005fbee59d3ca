// The head of the page: how much there is, of which files, and what a reader has to know of the numbers.

const REASONS = {
  NotObject: "the element isn't an object",
  NoPhase: "it has no phase, or one that isn't a text",
  NoTime: "it has no time",
  get NotWhole() { return `its time or length isn't ${unit.read}, or is out of range`; },
  NoDuration: "it has no length",
  BadField: "its process, thread, name, category, id or scope is of the wrong kind",
  NoId: "it has no id",
  BadReach: "it is an instant that is neither global nor of a process or thread",
  BadSeries: "it has a counter whose value isn't a whole number",
  NoOpenSpan: "it ends a span where none is open",
  TimeGoesBack: "its time lies before that of an event before it",
  NoOpenAsync: "it ends an async span that isn't open",
  EndBeforeBegin: "it ends an async span before its begin",
  FlowOpen: "it starts a flow that is open",
  NoFlow: "it goes on with a flow that isn't open",
  NameDiffers: "it ends a span of another name than the open one",
};

const ONE = { files: "file", events: "event", queries: "query", seals: "seal", processes: "process", threads: "thread" };

function countItem([what, count]) {
  return element("span", {}, element("b", {}, grouped(count)), ` ${count === 1 ? ONE[what] ?? what : what}`);
}

/** The counts of all runs, and the name of a file that is the only one. Processes and threads are known where the page has its runs. */
function showCounts() {
  const { files, seals } = spans.counts;
  const told = ["events", "refused", "skipped", "queries", ...(seals > 0 ? ["seals"] : [])].map((what) => [what, spans.counts[what]]);
  const known = [["processes", report.processes.length], ["threads", report.threads.length]];
  const counts = [...told, ...(runs.length > 0 ? known : [])];
  const first = files === 1 ? element("span", {}, "file ", fileElement("b", report.files[0])) : countItem(["files", files]);
  byId("counts").replaceChildren(first, ...counts.map(countItem));
}

/** A file, and how it ended where it wasn't read whole. */
function fileElement(tag, { name, end }) {
  return element(tag, {}, nameElement(name), end === null ? "" : `: ${end}`);
}

function fileItem(file) {
  return fileElement("li", file);
}

function showFiles() {
  byId("files").hidden = report.files.length < 2;
  byId("files").append(element("ul", {}, ...report.files.map(fileItem)));
}

function refusalItem({ count, code, word, first, file }) {
  const reason = REASONS[word] ? `: ${REASONS[word]}` : "";
  const text = `${grouped(count)} \u00d7 ${code} ${word}${reason}; first at element ${grouped(first)} of `;
  return element("li", {}, text, nameElement(file));
}

/** A warning and its items, of which the last stand closed where there are very many. */
function warning(text, items) {
  if (items.length === 0) return element("p", { className: "warning" }, text);
  const [first, more] = [items.slice(0, FIRST_ROWS), items.slice(FIRST_ROWS)].map((part) => element("ul", {}, ...part));
  const closed = element("details", {}, element("summary", {}, `${grouped(more.children.length)} more`), more);
  return element("div", { className: "warning" }, element("p", {}, text), first, ...(more.children.length > 0 ? [closed] : []));
}

function warnings() {
  const { unread, refused } = spans.counts;
  const open = add(report.threads.map((thread) => thread.open));
  const found = [];
  if (unread > 0) {
    const noTraces = report.files.filter(({ end }) => end !== null);
    const text = `Files that are no traces as a whole, of which nothing is here: ${grouped(unread)}.`;
    found.push(warning(noTraces.length > 0 ? text : `${text} Standard error said why.`, noTraces.map(fileItem)));
  }
  if (refused > 0) {
    const text = "Events were refused. Times on their threads can be wrong: where a begin is refused, its end closes another span. "
      + "Elements are counted from 0.";
    const refusals = runs.flatMap((run) => readRefusals(run.refused));
    found.push(warning(text, refusals.map(refusalItem)));
  }
  if (open > 0n) {
    const text = `Spans that are still open: ${grouped(open)}. They have no time; --seal closes them where the trace was cut off.`;
    found.push(warning(text, []));
  }
  return found;
}

function showWarnings() {
  const found = warnings();
  byId("warnings").replaceChildren(...found);
  byId("warnings").hidden = found.length === 0;
}
