// The panel that a click on a row of spans opens: what is right around the row's frames, and right under them, by time. It stays where it
// is while its own rows are followed.

const NO_LABELS = "The table has no column of names or arguments, and stacks have nothing else: which frames a row has can't be told.";
const NO_STACK = "No stack has it: its spans have no length, or are of other threads than those that are chosen.";

function threadsText(threads) {
  return threads.length === 1 ? `thread ${brief(threads[0].label, LONGEST_LABEL)}` : `${grouped(threads.length)} threads`;
}

/** How far down in the window the page is seen: to the panel, if it is open. */
function lowestSeen() {
  return byId("calls").hidden ? innerHeight : byId("calls").getBoundingClientRect().top;
}

class CallsPanel {
  constructor() {
    this.row = null;
    this.calls = new Calls("");
    this.thread = null;
    this.callers = this.listOf("callers", "nothing: outermost");
    this.callees = this.listOf("callees", "itself");
    byId("calls-lists").replaceChildren(this.callers.element, this.callees.element);
    byId("calls-close").onclick = () => this.close();
    byId("calls").addEventListener("keydown", ({ key }) => {
      if (key === "Escape") this.close();
    });
  }

  /** A list of calls by time; `lacking` stands for what has no label. */
  listOf(what, lacking) {
    const share = ({ time }) => fraction(time, this.calls.time);
    return new Table(what, [
      nameColumn(({ key }) => key ?? "", { title: what, fill: ({ key }) => (key === null ? lacking : this.linkOf(key)) }),
      timeColumn("time", ({ time }) => time, { bar: share }),
      numberColumn("share", share, { fill: ({ time }) => shareText(time, this.calls.time) }),
    ]);
  }

  linkOf(label) {
    return element("button", { type: "button", className: "name", onclick: () => this.goOn(label) }, ...this.partsOf(label));
  }

  /** The parts of a label as elements, with blanks between them. */
  partsOf(label) {
    const parts = spans.framePartsOf(label, this.thread);
    return parts.flatMap(({ column, value }) => [valueElement(value, LONGEST_NAME, spans.shortsOf(column).get(value.word)), " "]);
  }

  /** Shows the calls of a row, or of a label at the place of one. */
  show(row) {
    this.row = row;
    byId("calls").hidden = false;
    const threads = row.place.threads.filter(isThreadOfPlace);
    const having = threadsOf(row.label).filter((thread) => row.place.has.has(thread) && isThreadOfPlace(thread));
    this.thread = having[0] ?? null;
    this.calls = callsOf(row.label, having);
    this.tell(having, this.notesOf(threads));
    const { callers, callees, self } = this.calls;
    this.callers.show(callers.all);
    this.callees.show(self > 0n ? [...callees.all, { key: null, time: self }] : callees.all);
  }

  tell(having, notes) {
    const { time } = this.calls;
    const told = ` in stacks for ${timeText(time)}, ${shareText(time, busyTimeOf(having))} of the busy time of ${threadsText(having)}`;
    byId("calls-of").replaceChildren(...(time > 0n ? [...this.partsOf(this.row.label), told] : []));
    byId("calls-notes").replaceChildren(...notes.map((note) => element("p", {}, note)));
    byId("calls-lists").hidden = time === 0n;
  }

  /** What has to be known of these times, which are of some threads. */
  notesOf(threads) {
    if (runs.length === 0) return [NO_RUNS];
    if (spans.inLabel.length === 0) return [NO_LABELS];
    const leftOut = threads.filter(isLeftOut);
    const rows = spans.rowsOf(this.row.label, this.row.place);
    const notes = [];
    if (leftOut.length > 0) notes.push(`The stacks of ${threadsText(leftOut)} are left out of the page, and so of these times.`);
    else if (this.calls.time === 0n) notes.push(NO_STACK);
    if (rows.length > 1) {
      notes.push(`${grouped(rows.length)} rows have these frames, since stacks tell no more of a span than ${spans.labelTitle}; `
        + "the times are of all these rows together.");
    }
    if (rows.length === 0) notes.push("The table has no row of it, since options left it out.");
    return notes;
  }

  /** Goes on to the row of a label, and marks its frames. */
  goOn(label) {
    const { place } = this.row;
    const row = spans.rowsOf(label, place)[0] ?? { label, place };
    chooseRow(row);
    graphs.markRow(row);
    byId("calls-title").focus();
  }

  /** Shows the same anew where other threads are chosen. */
  showAgain() {
    if (!byId("calls").hidden) this.show(this.row);
  }

  close() {
    byId("calls").hidden = true;
    tables[0].table.setCurrent(null);
  }
}
