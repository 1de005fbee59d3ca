// Puts the page together: its head, what narrows, the table of spans, the flame graphs, and what else was traced.

const FIRST_GRAPHS = 50;
const MORE_GRAPHS = 200;
const MOST_FRAMES = 4194304;
const NO_RUNS = "A page of more than 64 files that are runs of their own has their counts, the table of their spans and the flame graph of "
  + "all: none of a thread is here, and nothing else that was traced.";

const byId = (id) => document.getElementById(id);
const data = JSON.parse(byId("data").textContent);
const runs = data.runs ?? [data];
// Whether there are several files, each a run of its own, so that numbers and names of processes can be those of several.
const isApart = runs.length > 1;
const report = readRuns(runs);
const stacks = runs.flatMap((run) => run.stacks);
// What stands for a thread in the graph of all files, whose stacks begin with the names of process and thread; null where there is none,
// or where one file has no others.
const whole = data.graph === undefined || runs.length === 1 ? null : { at: "whole", label: "all files", stacks: data.graph };
const spans = new SpanTable(data.table, report);
// All runs of a page have one unit. A page without its runs has no report that says it.
const unit = runs.length > 0 ? report.unit : spans.unit;

// What is narrowed to: rows of a file, a process and a thread, whose names have all of some words and none of others, and threads with
// frames that are labelled so. What rows have of parents counts for them alone, since a frame can be of spans with several parents.

const narrowed = { file: null, process: null, thread: null, wanted: [], unwanted: [], places: new Set() };

function isNamed(name, wanted = narrowed.wanted) {
  if (wanted.length === 0 && narrowed.unwanted.length === 0) return true;
  const low = name.toLowerCase();
  return wanted.every((word) => low.includes(word)) && !narrowed.unwanted.some((word) => low.includes(word));
}

/** Tests whether frames of a thread that have a label are named so. Where rows have files, words can be those of the thread's file. */
function labelTestOf({ file }) {
  const own = spans.columns.includes("file") ? (file?.inTable ?? "").toLowerCase() : "";
  const wanted = narrowed.wanted.filter((word) => !own.includes(word));
  const isUnwanted = narrowed.unwanted.some((word) => own.includes(word));
  return (label) => !isUnwanted && isNamed(label, wanted);
}

/** Whether something is what was chosen; where nothing was, anything is. */
function isOf(chosen, own) {
  return chosen === null || chosen === own;
}

/** Whether a row is of the file, the process and the thread that are narrowed to; one that belongs to none is of each in its file. */
function isOfPlace({ file, process = narrowed.process, thread = narrowed.thread }) {
  const owner = narrowed.file ?? narrowed.process?.file ?? narrowed.thread?.file ?? null;
  return isOf(owner, file) && isOf(narrowed.process, process) && isOf(narrowed.thread, thread);
}

function isThreadOfPlace(thread) {
  return isOfPlace({ file: thread.file, process: thread.process, thread });
}

function isNarrowedTo(row) {
  return isOfPlace(row) && isNamed(row.name);
}

/** The places of rows of spans that have a thread which is narrowed to. Many rows have one place, and a place may have many threads. */
function placesNarrowedTo() {
  const hasOne = ({ threads }) => threads.some(isThreadOfPlace);
  return new Set([...spans.places.values()].filter(hasOne));
}

/** A row of spans can be of any thread of its place. */
function isSpanNarrowedTo({ place, words }) {
  const isAnywhere = narrowed.file === null && narrowed.process === null && narrowed.thread === null;
  return isNamed(words) && (isAnywhere || narrowed.places.has(place));
}

/** Whether a thread has a frame that is narrowed to; of a graph that is left out nothing is known. */
function isThreadNarrowedTo(thread) {
  if (!isThreadOfPlace(thread)) return false;
  const isAnyName = narrowed.wanted.length === 0 && narrowed.unwanted.length === 0;
  return isAnyName || isLeftOut(thread) || labelsOf(thread).some(labelTestOf(thread));
}

function narrow() {
  const words = byId("words").value.toLowerCase().split(/\s+/).filter((word) => word !== "" && word !== "-");
  narrowed.wanted = words.filter((word) => !word.startsWith("-"));
  narrowed.unwanted = words.filter((word) => word.startsWith("-")).map((word) => word.slice(1));
  showRows();
  graphs.found.clear();
  graphs.show();
  graphs.mark(narrowed.wanted.length > 0 ? labelTestOf : () => null);
}

function filesToChoose() {
  return isApart ? report.files : [];
}

/** A process or a thread as a choice: of several runs with its file, where marks keep the direction of each name to itself. */
function choiceText({ label, file }) {
  const text = brief(label, LONGEST_LABEL);
  return isApart ? `\u2068${text}\u2069 in \u2068${brief(file.name, LONGEST_LABEL)}\u2069` : text;
}

/** Fills a choice. Options are put in one by one, since there may be more threads than a call can have arguments. */
function fillChoice(select, all, items, textOf) {
  const options = new DocumentFragment();
  options.append(element("option", { value: "" }, all));
  for (const item of items) options.append(element("option", { value: item.at }, textOf(item)));
  select.replaceChildren(options);
}

/** The processes to choose from are those of the file that is narrowed to, and the threads those of it and of the process. */
function fillChoices() {
  const { file, process } = narrowed;
  const threads = report.threads.filter((one) => isOf(file, one.file) && isOf(process, one.process));
  fillChoice(byId("process"), "all processes", report.processes.filter((one) => isOf(file, one.file)), choiceText);
  fillChoice(byId("thread"), "all threads", byBusyTime(threads), choiceText);
}

/** Narrows to a file, a process and a thread, or to all where they are null, and shows that they are chosen. */
function narrowTo(file, process, thread) {
  Object.assign(narrowed, { file, process, thread });
  fillChoices();
  byId("file").value = file?.at ?? "";
  byId("process").value = process?.at ?? "";
  byId("thread").value = thread?.at ?? "";
  narrow();
  calls.showAgain();
}

// The tables

const processColumn = listedColumn("process", (row) => row.process);
const threadColumn = listedColumn("thread", (row) => row.thread);
const fileColumns = isApart ? [listedColumn("file", (row) => row.file)] : [];
const plainName = nameColumn((row) => row.name);
const total = timeColumn("total", (row) => row.total);
const open = numberColumn("open", (row) => row.open);
const id = { ...textColumn("id", (row) => row.id), isNone: (row) => row.id === NO_ID };
const category = textColumn("category", (row) => row.category);

// What rows have together of a number. Of total and outer times nothing is told, since spans stand within others.
const TOGETHER = {
  self: { title: "sum of self", over: add, text: timeText },
  longest: { title: "longest", over: greatest, text: timeText },
  count: { title: "sum of count", over: add, text: grouped },
};

function spanTable() {
  const [first, ...others] = keyColumns();
  const isWide = ({ kind }) => kind !== undefined;
  const columns = [{ ...first, fill: (row) => rowButton(row, first) }, ...others.filter(isWide)];
  const numbers = spans.numbers.flatMap(columnsOfNumber);
  const told = spans.numbers.filter((name) => Object.hasOwn(TOGETHER, name));
  const table = new Table("rows", [...columns, ...numbers, ...others.filter((column) => !isWide(column))],
    told.map((name) => ({ ...TOGETHER[name], value: spans.numberIn(name) })));
  table.onchoose = (row) => {
    chooseRow(row);
    graphs.find(row);
  };
  return { table, rows: spans.rows, home: byId("names"), isShown: isSpanNarrowedTo };
}

/** Shows the calls of a row, which may be just a label at a place, and makes it the current one of the table. */
function chooseRow(row) {
  tables[0].table.setCurrent(row);
  calls.show(row);
}

/** The column of a number; that of self time has a bar, and beside it, where the page has the runs, the share of busy time. */
function columnsOfNumber(name) {
  const value = spans.numberIn(name);
  if (name === "count") return [numberColumn(name, value)];
  if (name !== "self") return [timeColumn(name, value)];
  const self = timeColumn(name, value, { bar: (row, most) => fraction(value(row), most) });
  const share = numberColumn("of busy", (row) => fraction(value(row), busyOf(row)), { fill: (row) => shareText(value(row), busyOf(row)) });
  return runs.length > 0 ? [self, share] : [self];
}

// The columns of numbers whose names have columns too. If both are there, they share one.
const NUMBERS = { process: "pid", thread: "tid" };

/** A column for each of a key, those of labels first; these are wide. */
function keyColumns() {
  const named = spans.columns.map((title) => NUMBERS[title]);
  const all = spans.columns.filter((title) => !named.includes(title)).map(columnOfKey);
  const told = columnsWithValues(all, spans.rows);
  const columns = told.length > 0 ? told : all.slice(0, 1);
  return [...columns.filter(({ kind }) => kind), ...columns.filter(({ kind }) => !kind)];
}

function columnOfKey(title) {
  const at = spans.columns.indexOf(title);
  const number = spans.columns.indexOf(NUMBERS[title]);
  if (number >= 0) {
    const fill = ({ values }) => document.createTextNode(namesOf(values[number].word, values[at].word).label);
    return keyColumn(title, (row) => row.values[number], { fill });
  }
  const shorts = spans.shortsOf(title);
  const fill = (row) => valueElement(row.values[at], isOfLabel(title) ? LONGEST_NAME : LONGEST_LABEL, shorts.get(row.values[at].word));
  const kind = title === "name" ? "name" : isOfLabel(title) ? "detail" : undefined;
  return keyColumn(title, (row) => row.values[at], { kind, fill, isNone: (row) => row.values[at] === NOTHING });
}

/** What a row has in a column, for keys: the row gets the click. */
function rowButton(row, column) {
  return element("button", { type: "button", className: "name" }, column.fill(row));
}

function otherTable(title, rows, columns) {
  const table = new Table(title.toLowerCase(), columnsWithValues([...columns, ...fileColumns], rows));
  const home = element("details", {}, element("summary", {}, `${title} (${grouped(rows.length)})`), table.element);
  return { table, rows, home, isShown: isNarrowedTo };
}

function otherTables() {
  const counts = (...names) => names.map((title) => numberColumn(title, (row) => row[title]));
  return [
    otherTable("Async spans", report.asyncs, [
      plainName, total, ...counts("closed"), open, ...counts("points"), category, textColumn("scope", (row) => row.scope), id]),
    otherTable("Flows", report.flows, [plainName, total, ...counts("ended"), open, category, id]),
    otherTable("Counters", report.counters, [
      plainName, textColumn("series", (row) => row.series), ...counts("samples", "least", "greatest", "last"), processColumn, id]),
    otherTable("Instants", report.instants, [
      plainName, ...counts("count"), processColumn, threadColumn, textColumn("reach", (row) => row.reach)]),
  ].filter(({ rows }) => rows.length > 0);
}

function showRows() {
  narrowed.places = placesNarrowedTo();
  for (const { table, rows, isShown } of tables) table.show(rows.filter(isShown), rows);
}

// The flame graphs, of which the busiest threads' are listed, the busiest first

/** Threads by busy time; equal ones keep the order of the report. */
function byBusyTime(threads) {
  return threads.toSorted((one, other) => compare(other.busy, one.busy));
}

function stacksOf(thread) {
  return thread === whole ? whole.stacks : stacks[thread.at];
}

/** Whether the graph of a thread is left out, since with it the page would have too many frames. */
function isLeftOut(thread) {
  return stacksOf(thread) === null;
}

function hasGraph(thread) {
  return !isLeftOut(thread) && stacksOf(thread).length > 0;
}

const knownLabels = new Map();

/** The labels of a thread's frames, each once. */
function labelsOf(thread) {
  if (!knownLabels.has(thread)) knownLabels.set(thread, [...labelsIn(stacks[thread.at])]);
  return knownLabels.get(thread);
}

function labelsIn(stacks) {
  const labels = new Set();
  for (const [, own] of stacks) for (const label of own) labels.add(label);
  return labels;
}

const threadsOfLabels = new Map();

/** The threads whose frames have a label. */
function threadsOf(label) {
  if (threadsOfLabels.size === 0) {
    for (const thread of report.threads.filter(hasGraph)) {
      for (const own of labelsOf(thread)) {
        if (!threadsOfLabels.has(own)) threadsOfLabels.set(own, []);
        threadsOfLabels.get(own).push(thread);
      }
    }
  }
  return threadsOfLabels.get(label) ?? [];
}

/** The busy time of the threads that a row is of: those of its place that have a frame with its label, or whose graph is left out, so that
 * it isn't known; of a row without such a thread, that of its place. */
function busyOf(row) {
  row.busy ??= busyTimeOf(threadsOf(row.label).filter((thread) => row.place.has.has(thread))) + leftOutTimeOf(row.place);
  return row.busy === 0n ? row.place.busy : row.busy;
}

function leftOutTimeOf(place) {
  place.leftOut ??= busyTimeOf(place.threads.filter(isLeftOut));
  return place.leftOut;
}

class Graphs {
  constructor() {
    this.threads = byBusyTime(report.threads.filter((thread) => isLeftOut(thread) || hasGraph(thread)));
    Object.assign(this, { sections: new Map(), graphs: new Map(), most: FIRST_GRAPHS, testOf: () => null });
    // Threads that are listed however many are busier, and those of rows that were clicked, which are listed whatever the words are.
    Object.assign(this, { sought: new Set(), found: new Set() });
    byId("more-graphs").onclick = () => this.show(this.most + MORE_GRAPHS);
    byId("order").onchange = () => this.order();
  }

  order() {
    this.graphs.forEach((graph) => graph.order(this.isWidestFirst));
  }

  get isWidestFirst() {
    return byId("order").value === "widest";
  }

  show(most = FIRST_GRAPHS) {
    this.most = most;
    const threads = this.threads.filter((thread) => isThreadNarrowedTo(thread) || this.found.has(thread));
    const listed = threads.filter((thread, at) => at < most || this.sought.has(thread));
    byId("graphs").replaceChildren(...listed.map((thread) => this.sectionOf(thread)));
    for (const thread of listed) setBar(this.sectionOf(thread).querySelector(".busy"), fraction(thread.busy, threads[0].busy));
    byId("more-graphs").hidden = listed.length === threads.length;
    byId("graphs-shown").textContent = this.told(listed.length, threads.length);
    return listed;
  }

  told(listed, narrowedTo) {
    if (runs.length === 0) return NO_RUNS;
    const all = this.threads.length;
    const idle = report.threads.length - all;
    return `${grouped(listed)} of ${grouped(narrowedTo)} threads shown`
      + (narrowedTo < all ? `, narrowed from ${grouped(all)}` : "")
      + (idle > 0 ? `; in ${grouped(idle)} more no span covers a ${unit.word}` : "");
  }

  showLeftOut() {
    const count = this.threads.filter(isLeftOut).length;
    byId("left-out").hidden = count === 0;
    byId("left-out").textContent = `${count === 1 ? "1 graph is" : `${grouped(count)} graphs are`} left out: the graphs of a page have `
      + `at most ${grouped(MOST_FRAMES)} frames in all, and a graph that has more than those before it leave is left out.`;
  }

  sectionOf(thread) {
    if (!this.sections.has(thread)) this.sections.set(thread, this.makeSection(thread));
    return this.sections.get(thread);
  }

  /** Shows the graph of all files, or that it is left out, above those of threads. */
  showWhole() {
    if (whole === null) return;
    byId("whole").replaceChildren(this.sectionOf(whole));
    if (hasGraph(whole)) this.sectionOf(whole).open = true;
  }

  makeWhole() {
    const id = `thread-${whole.at}`;
    const parts = [element("strong", {}, whole.label), ", each thread under its name"];
    if (hasGraph(whole)) return element("details", { id, ontoggle: () => this.graphOf(whole) }, element("summary", {}, ...parts));
    const why = isLeftOut(whole) ? "left out: too many frames" : `no span covers a ${unit.word}`;
    return element("p", { id, className: "left-out" }, ...parts, element("span", { className: "hint" }, `, ${why}`));
  }

  makeSection(thread) {
    if (thread === whole) return this.makeWhole();
    const id = `thread-${thread.at}`;
    const numbers = element("span", { className: "busy" }, `busy ${timeText(thread.busy)}`);
    const open = thread.open > 0n ? `, ${grouped(thread.open)} open` : "";
    const parts = [numbers, "thread ", nameElement(thread.label), " of process ", nameElement(thread.process.label)];
    if (isApart) parts.push(" in ", nameElement(thread.file.name));
    if (isLeftOut(thread)) {
      return element("p", { id, className: "left-out" }, ...parts, element("span", { className: "hint" }, `${open}, left out: too many frames`));
    }
    const summary = element("summary", {}, ...parts, element("span", { className: "hint" }, open));
    return element("details", { id, ontoggle: () => this.graphOf(thread) }, summary);
  }

  graphOf(thread) {
    if (!this.graphs.has(thread)) {
      const graph = new Graph(thread, stacksOf(thread), this.isWidestFirst);
      this.graphs.set(thread, graph);
      this.sectionOf(thread).append(graph.element);
      graph.mark(this.testOf(thread));
    }
    return this.graphs.get(thread);
  }

  /** Marks the frames whose labels pass the test of their thread, now and in graphs that are opened later. */
  mark(testOf) {
    this.testOf = testOf;
    this.graphs.forEach((graph, thread) => graph.mark(testOf(thread)));
  }

  /** Opens the graph of a thread, which is listed from now on, however many are busier. */
  open(thread) {
    this.sought.add(thread);
    if (!this.sectionOf(thread).isConnected && thread !== whole) this.show(this.most);
    this.sectionOf(thread).open = true;
    return this.graphOf(thread);
  }

  /** Opens and gives the graph of the busiest thread that has frames of a row, with these marked; one that is narrowed to comes first.
   * Where the words are those of the row's parents alone, none may be; then it is listed nevertheless, until something else is narrowed
   * to. A page without its runs has the graph of all files. */
  markRow({ place, label }) {
    const threads = this.threads.filter((thread) => hasGraph(thread) && place.has.has(thread) && isThreadOfPlace(thread));
    const having = threads.filter((thread) => labelsOf(thread).includes(label));
    const other = runs.length === 0 && whole !== null && hasGraph(whole) ? whole : undefined;
    const thread = having.find(isThreadNarrowedTo) ?? having[0] ?? threads[0] ?? other;
    if (thread === undefined) return null;
    this.found.add(thread);
    const graph = this.open(thread);
    graph.mark((own) => own === label);
    graph.reveal();
    return graph;
  }

  /** The same, and leads there. */
  find(row) {
    const graph = this.markRow(row);
    if (graph === null) return;
    graph.view.focus({ preventScroll: true });
    this.sectionOf(graph.thread).scrollIntoView({ block: "start" });
    graph.showFocused();
  }

  leaveZooms() {
    this.graphs.forEach((graph) => graph.leaveZoom());
  }

  /** The frames that are zoomed into, each with its thread. */
  zooms() {
    return [...this.graphs].map(([thread, { zoomed: frame }]) => ({ thread, frame })).filter(({ frame }) => frame.parent !== null);
  }

  /** Zooms into these frames, by their places, and out of all others. */
  showZooms(zooms) {
    this.graphs.forEach((graph) => graph.start(graph.root));
    for (const { thread, at } of zooms) {
      const graph = this.open(thread);
      graph.start(graph.frames[at] ?? graph.root);
    }
  }
}

const tables = [spanTable(), ...otherTables()];
const graphs = new Graphs();
const calls = new CallsPanel();

function showUnit() {
  byId("times").textContent = `Times are whole ${unit.word}s.`;
}

/** Offers files to choose where there are several runs, and nothing that a page without its runs lacks. */
function showChoices() {
  fillChoice(byId("file"), "all files", filesToChoose(), ({ name }) => brief(name, LONGEST_NAME));
  byId("file").parentElement.hidden = !isApart;
  byId("over-files").hidden = !isApart || spans.columns.includes("file");
  for (const part of document.querySelectorAll(".of-runs")) part.hidden = runs.length === 0;
  byId("of-graphs").hidden = runs.length === 0 && (whole === null || !hasGraph(whole));
}

function start() {
  showCounts();
  showFiles();
  showWarnings();
  showUnit();
  showChoices();
  byId("names").replaceChildren(tables[0].table.element);
  byId("others").replaceChildren(...tables.slice(1).map(({ home }) => home));
  byId("unstacked").hidden = tables.length === 1;
  byId("words").addEventListener("input", narrow);
  byId("file").addEventListener("change", () => narrowTo(report.files[byId("file").value] ?? null, null, null));
  byId("process").addEventListener("change", () => narrowTo(narrowed.file, report.processes[byId("process").value] ?? null, null));
  byId("thread").addEventListener("change", () => narrowTo(narrowed.file, narrowed.process, report.threads[byId("thread").value] ?? null));
  graphs.showLeftOut();
  graphs.showWhole();
  showKeptView();
  const busiest = graphs.show().find(hasGraph);
  if (busiest) graphs.sectionOf(busiest).open = true;
  listenForViews();
  addEventListener("keydown", pressKey);
  document.querySelector("main").ariaBusy = "false";
  performance.mark("ready");
}

// What keys do wherever nothing is written or chosen.
const KEYS = {
  "/": () => byId("words").select(),
  0: () => graphs.leaveZooms(),
};

function pressKey(event) {
  if (event.defaultPrevented || event.ctrlKey || event.altKey || event.metaKey || event.target.matches("input, select")) return;
  if (!Object.hasOwn(KEYS, event.key)) return;
  KEYS[event.key]();
  event.preventDefault();
}

function listenForViews() {
  const main = document.querySelector("main");
  for (const change of ["input", "change", "viewchange"]) main.addEventListener(change, keepView);
  addEventListener("hashchange", showKeptView);
}

start();
