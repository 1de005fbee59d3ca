// A flame graph: the frames of a thread, the thread itself on top, drawn and moved through by pointer or keys.

const LEVEL = 20; // the height of a level in CSS pixels
const MOST_SEEN = 32; // levels; what lies below them is reached by scrolling
const LETTER = 6.7; // the width of a letter of the frames' font
const GAP = 14; // between the pointer and what is told beside it
const DOUBLING = 120; // the pixels of a turn of the wheel that shows frames twice as wide
const MOST_SCALE = 2 ** 30;
const TREE_KEYS = { ArrowUp: "above", ArrowDown: "below", ArrowLeft: "before", ArrowRight: "after", Home: "zoomed" };

/** A hue for a name, the same wherever the name stands. */
function hueOf(name) {
  let hash = 7;
  for (const letter of name.slice(0, 60)) hash = (31 * hash + letter.codePointAt(0)) % 9973;
  return (hash * 137) % 360;
}

function framesText(count) {
  return count === 1 ? "1 frame" : `${grouped(count)} frames`;
}

/** The frame with the most time, the first of several; of none it is undefined. */
function widestOf(frames) {
  return frames.reduce((widest, frame) => (frame.total > (widest?.total ?? -1n) ? frame : widest), undefined);
}

/** A part of a label as a line: a name stands alone, and a detail behind its column. */
function partElement({ column, value }, most) {
  const line = valueElement(value, most);
  if (column === "name") return element("strong", {}, line);
  return element("span", {}, element("span", { className: "quiet" }, `${brief(column, LONGEST_LABEL)} `), line);
}

/** What a graph is of. */
function titleOf(thread) {
  return thread === whole ? thread.label : `thread ${thread.label}`;
}

class Graph {
  constructor(thread, stacks, isWidestFirst) {
    this.thread = thread;
    this.frames = framesOf(titleOf(thread), stacks);
    this.root = this.zoomed = this.focused = this.frames[0];
    // `scale` and `from` say which part of the zoomed frame is seen: one that is so many times smaller, from this fraction on.
    Object.assign(this, { isWidestFirst, pointed: null, marks: null, marked: [], history: [], levels: [], width: 0, scale: 1, from: 0 });
    this.makeElements(thread);
    this.listen();
    this.showUnder();
  }

  makeElements(thread) {
    this.told = element("p", { className: "told", ariaLive: "polite" });
    this.markedStatus = element("p", { className: "status", role: "status" });
    this.backButton = element("button", { type: "button", onclick: () => this.back() }, "Back");
    this.wholeButton = element("button", { type: "button", onclick: () => this.zoom(this.root) }, thread === whole ? "Whole graph" : "Whole thread");
    this.canvas = element("canvas", { ariaHidden: "true" });
    this.item = element("div", { role: "treeitem", id: `focused-${thread.at}`, className: "unseen" });
    this.spacer = element("div", { className: "spacer", role: "none" }, this.canvas);
    this.tip = element("div", { className: "tip", ariaHidden: "true", hidden: true });
    const inFile = isApart && thread !== whole ? ` in ${brief(thread.file.name, LONGEST_NAME)}` : "";
    const label = `Flame graph of ${brief(titleOf(thread), LONGEST_NAME)}${inFile}`;
    this.view = element("div", { className: "view", role: "tree", tabIndex: 0, ariaLabel: label }, this.spacer, this.item);
    this.view.setAttribute("aria-activedescendant", this.item.id);
    this.under = new Table("names", [
      nameColumn((frame) => frame.name, { title: spans.labelTitle, fill: (frame) => this.zoomButton(frame) }),
      timeColumn("total", (frame) => frame.total, { bar: (frame) => fraction(frame.total, frame.parent.total) }),
      timeColumn("self", (frame) => frame.self),
    ]);
    this.underTitle = element("summary");
    this.element = element("div", { className: "graph" },
      element("div", { className: "steps" }, this.backButton, this.wholeButton, this.told), this.markedStatus,
      element("div", { className: "stage" }, this.view, this.tip),
      element("details", { className: "under" }, this.underTitle, this.under.element));
  }

  zoomButton(frame) {
    return element("button", { type: "button", className: "name", onclick: () => this.zoom(frame) }, nameElement(frame.name));
  }

  listen() {
    const redraw = () => this.draw();
    this.view.addEventListener("scroll", () => this.scroll());
    this.view.addEventListener("focus", () => this.meetFocus());
    this.view.addEventListener("blur", () => this.showTip(null));
    this.view.addEventListener("keydown", (event) => this.press(event));
    this.canvas.addEventListener("pointermove", (event) => this.point(this.frameAt(event), event));
    this.canvas.addEventListener("pointerleave", () => this.point(null));
    this.canvas.addEventListener("click", (event) => this.zoom(this.frameAt(event) ?? this.zoomed));
    this.canvas.addEventListener("wheel", (event) => event.ctrlKey && this.turn(event), { passive: false });
    matchMedia("(prefers-color-scheme: dark)").addEventListener("change", redraw);
    new ResizeObserver(() => this.view.clientWidth !== this.width && this.layOut()).observe(this.view);
  }

  layOut() {
    const width = this.view.clientWidth;
    if (width === 0) return;
    this.width = width;
    this.showTip(null); // Frames lie elsewhere now.
    const whole = width * this.scale;
    this.levels = levelsOf(this.zoomed, { x: -this.from * whole, width: whole }, width, this.isWidestFirst);
    if (!this.levels[this.focused.level]?.some((box) => box.frame === this.focused)) this.focused = this.zoomed;
    this.canvas.boxes = this.levels; // for scripts that look at the page: what is drawn, level by level, in CSS pixels
    const seen = LEVEL * Math.min(this.levels.length, MOST_SEEN);
    this.spacer.style.height = `${LEVEL * this.levels.length}px`;
    this.view.style.maxHeight = `${LEVEL * MOST_SEEN}px`;
    this.canvas.style.height = `${seen}px`;
    this.canvas.width = Math.round(width * devicePixelRatio);
    this.canvas.height = Math.round(seen * devicePixelRatio);
    this.draw();
    this.tell();
  }

  draw() {
    const ink = this.canvas.getContext("2d");
    const style = getComputedStyle(this.view);
    const look = ["--text", "--ground", "--lightness", "--focus"].map((property) => style.getPropertyValue(property));
    const top = this.view.scrollTop;
    ink.setTransform(devicePixelRatio, 0, 0, devicePixelRatio, 0, -top * devicePixelRatio);
    ink.clearRect(0, top, this.canvas.width, this.canvas.height);
    ink.font = "11px ui-monospace, 'DejaVu Sans Mono', Menlo, Consolas, monospace";
    ink.textBaseline = "middle";
    const first = Math.floor(top / LEVEL);
    for (const box of this.levels.slice(first, first + MOST_SEEN + 1).flat()) this.drawBox(ink, box, look);
  }

  drawBox(ink, { frame, x: left, width: whole }, [text, ground, lightness, focus]) {
    const x = Math.max(0, left);
    const width = Math.min(this.width, left + whole) - x;
    const y = LEVEL * frame.level;
    const isDim = this.marks !== null && !this.marks(frame.name);
    ink.fillStyle = frame === this.root || isDim ? ground : `hsl(${hueOf(frame.name)} 55% ${lightness})`;
    ink.fillRect(x, y, width > 3 ? width - 1 : width, LEVEL - 1);
    ink.fillStyle = text;
    if (this.marks !== null && !isDim) ink.fillRect(x, y + LEVEL - 3, Math.max(1, width - 1), 2);
    const letters = Math.floor((width - 8) / LETTER);
    if (letters >= 2) this.drawName(ink, brief(frame.name, letters), x, y, width);
    if (frame !== this.focused && frame !== this.pointed) return;
    ink.strokeStyle = focus;
    ink.lineWidth = frame === this.focused ? 2 : 1;
    ink.strokeRect(x + 1, y + 1, Math.max(1, width - 3), LEVEL - 3);
  }

  drawName(ink, name, x, y, width) {
    ink.save();
    ink.beginPath();
    ink.rect(x, y, width - 2, LEVEL);
    ink.clip();
    ink.fillText(name, x + 4, y + LEVEL / 2);
    ink.restore();
  }

  frameAt(event) {
    const level = Math.floor((event.offsetY + this.view.scrollTop) / LEVEL);
    return this.levels[level]?.find(({ x, width }) => x <= event.offsetX && event.offsetX < x + width)?.frame ?? null;
  }

  /** Points at the frame under the pointer, or at none, and tells of it beside the pointer. */
  point(frame, { offsetX, offsetY } = {}) {
    if (frame !== this.pointed) {
      this.pointed = frame;
      this.canvas.style.cursor = frame ? "pointer" : "";
      this.draw();
      this.tell();
    }
    this.showTip(frame, { left: offsetX + GAP, top: offsetY - GAP, bottom: offsetY + GAP });
  }

  /** Tells of a frame beside a part of the view: below it, or above where there is no room. Of no frame nothing is told. */
  showTip(frame, { left, top, bottom } = {}) {
    this.tip.hidden = frame === null;
    if (frame === null) return;
    this.tip.replaceChildren(...this.detailsOf(frame, LONGEST_NAME));
    const { width, height } = this.tip.getBoundingClientRect();
    const view = this.view.getBoundingClientRect();
    const isBelow = view.top + bottom + height <= lowestSeen();
    this.tip.style.left = `${Math.max(0, Math.min(left, view.width - width))}px`;
    this.tip.style.top = `${isBelow ? bottom : top - height}px`;
  }

  /** Tells of the focused frame beside it. */
  showFocused() {
    const box = this.levels[this.focused.level]?.find(({ frame }) => frame === this.focused);
    const top = LEVEL * this.focused.level - this.view.scrollTop;
    this.showTip(box ? this.focused : null, { left: Math.max(0, box?.x), top: top - 2, bottom: top + LEVEL + 2 });
  }

  meetFocus() {
    this.tell();
    if (this.view.matches(":focus-visible")) this.showFocused();
  }

  /** What is told beside a frame goes with it; the pointer stays where it is, above another frame. */
  scroll() {
    this.draw();
    if (this.pointed) this.point(null);
    else if (!this.tip.hidden) this.showFocused();
  }

  /** Tells of the frame under the pointer, or else of the focused one. */
  tell() {
    this.told.replaceChildren(...this.detailsOf(this.pointed ?? this.focused, LONGEST_WHOLE));
    this.describe(this.focused);
    this.backButton.disabled = this.history.length === 0 && this.scale === 1;
    this.wholeButton.disabled = this.zoomed === this.root && this.scale === 1;
  }

  /** The focused frame as an item of a tree, for those who hear the page. */
  describe(frame) {
    const siblings = this.levels[frame.level]?.filter((box) => box.frame.parent === frame.parent) ?? [];
    this.item.ariaLevel = String(frame.level + 1);
    this.item.ariaSetSize = String(siblings.length);
    this.item.ariaPosInSet = String(1 + siblings.findIndex((box) => box.frame === frame));
    this.item.ariaExpanded = frame.children.length > 0 ? "true" : null;
    this.item.textContent = `${brief(frame.name, LONGEST_NAME)}: ${this.numbersOf(frame)}, ${frame.children.length} under it`;
  }

  /** The name of a frame, its details apart from it, each cut to so many letters, and its numbers. */
  detailsOf(frame, most) {
    const isPlain = frame === this.root || this.thread === whole;
    const parts = isPlain ? plainParts(frame.name) : spans.framePartsOf(frame.name, this.thread);
    const lines = parts.map((part) => partElement(part, most));
    return [element("span", { className: "label" }, ...lines), element("span", {}, `${this.numbersOf(frame)} ${this.ofWhat}`)];
  }

  get ofWhat() {
    return this.thread === whole ? "of all busy time" : "of the thread's busy time";
  }

  numbersOf({ self, total }) {
    return `self ${timeText(self)}, total ${timeText(total)}, ${shareText(total, this.root.total)}`;
  }

  press(event) {
    if (event.ctrlKey || event.altKey || event.metaKey) return;
    if (event.key === "Enter" || event.key === " ") this.zoom(this.focused);
    else if (event.key === "Escape" || event.key === "Backspace") this.back();
    else if (event.key in TREE_KEYS) this.focus(this.neighbour(TREE_KEYS[event.key]));
    else return;
    this.showFocused();
    event.preventDefault();
  }

  /** The frame that lies so beside the focused one, or that one itself where there is none. */
  neighbour(side) {
    const frame = this.focused;
    const level = this.levels[frame.level];
    const at = level.findIndex((box) => box.frame === frame);
    const found = {
      above: () => frame.parent,
      below: () => this.levels[frame.level + 1]?.find((box) => box.frame.parent === frame)?.frame,
      before: () => level[at - 1]?.frame,
      after: () => level[at + 1]?.frame,
      zoomed: () => this.zoomed,
    };
    return found[side]() ?? frame;
  }

  focus(frame) {
    this.focused = frame;
    this.pointed = null;
    const top = LEVEL * frame.level;
    const { scrollTop, clientHeight } = this.view;
    if (top < scrollTop) this.view.scrollTop = top;
    if (top + LEVEL > scrollTop + clientHeight) this.view.scrollTop = top + LEVEL - clientHeight;
    this.draw();
    this.tell();
  }

  zoom(frame) {
    if (frame !== this.zoomed) this.history.push(this.zoomed);
    this.open(frame);
    tellOfChange(this.element);
  }

  leaveZoom() {
    if (this.zoomed !== this.root || this.scale > 1) this.zoom(this.root);
  }

  back() {
    if (this.scale > 1) this.open(this.zoomed);
    else if (this.history.length > 0) this.open(this.history.pop());
    tellOfChange(this.element);
  }

  /** Shows frames wider or narrower by a turn of the wheel, in pixels or in lines; what is at the pointer stays there. */
  turn(event) {
    const pixels = event.deltaMode === WheelEvent.DOM_DELTA_LINE ? LEVEL * event.deltaY : event.deltaY;
    const scale = Math.min(MOST_SCALE, Math.max(1, this.scale * 2 ** (-pixels / DOUBLING)));
    const from = this.from + event.offsetX / this.width * (1 / this.scale - 1 / scale);
    Object.assign(this, { scale, from: Math.max(0, Math.min(from, 1 - 1 / scale)) });
    this.layOut();
    this.point(this.frameAt(event), event);
    event.preventDefault();
  }

  /** Opens a frame as if it had been zoomed into from the whole thread. */
  start(frame) {
    this.history = frame === this.root ? [] : [this.root];
    this.open(frame);
  }

  open(frame) {
    Object.assign(this, { zoomed: frame, focused: frame, pointed: null, scale: 1, from: 0 });
    this.layOut();
    this.view.scrollTop = LEVEL * Math.max(0, frame.level - 3);
    this.focus(frame);
    this.showUnder();
    this.tellMarked();
  }

  showUnder() {
    const { name, children } = this.zoomed;
    this.underTitle.replaceChildren("Directly under ", nameElement(name), `: ${framesText(children.length)}`);
    this.under.show(children);
  }

  order(isWidestFirst) {
    this.isWidestFirst = isWidestFirst;
    this.layOut();
  }

  /** Marks the frames whose names pass a test, and tells of them. Null marks none. */
  mark(marks) {
    this.marks = marks;
    this.marked = marks === null ? [] : this.frames.slice(1).filter((frame) => marks(frame.name));
    this.tellMarked();
    this.draw();
  }

  /** Tells of the marked frames, and how many of them lie where they aren't drawn. */
  tellMarked() {
    const outside = this.marked.filter((frame) => !frame.isWithin(this.zoomed) && !this.zoomed.isWithin(frame)).length;
    const told = outside === 0 ? "" : `; ${framesText(outside)} outside of what is zoomed into`;
    this.markedStatus.textContent = this.marks === null ? "" : `${this.markedText()}${told}`;
  }

  /** The time of the marked frames, of which those under one another count once. */
  markedText() {
    let [time, outermost] = [0n, null];
    for (const frame of this.marked) {
      if (outermost !== null && frame.isWithin(outermost)) continue;
      time += frame.total;
      outermost = frame;
    }
    const count = this.marked.length;
    const marked = count === 1 ? "1 frame marked," : `${framesText(count)} marked, together`;
    return `${marked} ${timeText(time)}, ${shareText(time, this.root.total)} ${this.ofWhat}`;
  }

  /** Shows a marked frame: leaves the zoom where none is drawn in it, and zooms into the widest where all are narrower than a pixel. */
  reveal() {
    this.layOut();
    if (this.marked.length === 0) return;
    if (!this.drawnMark()) this.zoom(this.root);
    if (!this.drawnMark()) this.zoom(widestOf(this.marked));
    this.focus(this.drawnMark() ?? this.zoomed);
  }

  /** The widest of the marked frames that are drawn. */
  drawnMark() {
    const drawn = this.levels.flat().map((box) => box.frame);
    return widestOf(drawn.filter((frame) => frame !== this.root && this.marks(frame.name)));
  }
}
