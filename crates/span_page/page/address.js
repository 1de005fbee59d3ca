// Keeps what is narrowed to, sorted by and zoomed into behind the # of the address, so that a view can be sent along with the page. What
// stands there is taken like what a person types and chooses, and left out where the page has nothing of that name.

const MOST_ZOOMS = 20;
const WHOLE = "all";

/** A file that is a run of its own, as it stands in an address: by its place from 1, since names may be long, or the same. */
function fileNumberOf({ at }) {
  return String(at + 1);
}

/** A process or a thread as it stands there, behind its file where there are several runs; and what stands for the graph of all files. */
function placeOf(place) {
  if (place === whole) return WHOLE;
  const { file, process, number } = place;
  if (process) return `${placeOf(process)}.${number}`;
  return isApart ? `${fileNumberOf(file)}.${number}` : number;
}

/** The view as a text; what is as it was at first isn't in it. */
function viewText() {
  const { table } = tables[0];
  const members = [
    ["words", byId("words").value],
    ["file", narrowed.file && fileNumberOf(narrowed.file)],
    ["process", narrowed.process && placeOf(narrowed.process)],
    ["thread", narrowed.thread && placeOf(narrowed.thread)],
    ["sort", table.order === table.firstOrder ? null : table.order],
    ["order", graphs.isWidestFirst ? null : byId("order").value],
    ...graphs.zooms().map(({ thread, frame }) => ["zoom", `${placeOf(thread)}.${frame.at}`]),
  ];
  return new URLSearchParams(members.filter(([, text]) => text)).toString();
}

function keepView() {
  const text = viewText();
  const address = location.href.replace(/#.*$/, "") + (text === "" ? "" : `#${text}`);
  if (address === location.href) return;
  try {
    history.replaceState(null, "", address);
  } catch {
    // Some browsers don't let a page change its address where it stands in a frame, or so often; then the view isn't kept.
  }
}

function showKeptView() {
  const view = new URLSearchParams(location.hash.slice(1));
  const file = filesToChoose().find((one) => fileNumberOf(one) === view.get("file")) ?? null;
  const process = report.processes.find((one) => placeOf(one) === view.get("process") && isOf(file, one.file)) ?? null;
  const isThread = (one) => placeOf(one) === view.get("thread") && isOf(file, one.file) && isOf(process, one.process);
  const thread = report.threads.find(isThread) ?? null;
  byId("words").value = (view.get("words") ?? "").slice(0, byId("words").maxLength);
  byId("order").value = view.get("order") === "name" ? "name" : "widest";
  tables[0].table.order = view.get("sort");
  narrowTo(file, process, thread);
  graphs.order();
  graphs.showZooms(view.getAll("zoom").slice(0, MOST_ZOOMS).map(zoomOf).filter((zoom) => zoom !== null));
}

/** The thread and the place of a frame that an address names, or null where there is no such graph. */
function zoomOf(text) {
  const [, place, at] = /^(.+)\.(\d{1,9})$/.exec(text) ?? [];
  const thread = place === WHOLE ? whole : report.threads.find((one) => placeOf(one) === place);
  return thread && hasGraph(thread) ? { thread, at: Number(at) } : null;
}
