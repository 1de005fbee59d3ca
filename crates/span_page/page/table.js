// Tables that are sorted by a click on a column, and show a bounded number of rows.

const FIRST_ROWS = 10;
const MORE_ROWS = 200;

/** Draws a bar behind what an element says, as wide as a fraction of it. */
function setBar(element, width) {
  element.classList.add("barred");
  element.style.setProperty("--bar", `${100 * width}%`);
}

function compare(one, other) {
  return one < other ? -1 : one > other ? 1 : 0;
}

/** Tells what is around an element that a person has changed the view. */
function tellOfChange(element) {
  element.dispatchEvent(new Event("viewchange", { bubbles: true }));
}

// The kinds of columns: `value` orders the rows, by `order` if it says how, and `fill` makes what stands in a cell. Processes and threads
// keep the report's order. Names are the first column, so that what a row is about is seen on any screen. `bar` is how wide a bar is
// behind a number, as a fraction; it is told the greatest number of all rows that are narrowed to. `isNone` says of a row that it has
// nothing in the column.

const numberColumn = (title, value, more) => ({ title, value, kind: "number", fill: (row) => grouped(value(row)), ...more });
const timeColumn = (title, value, more) => numberColumn(`${title}, ${unit.sign}`, value, more);
const textColumn = (title, value) => ({ title, value, fill: (row) => nameElement(value(row), LONGEST_LABEL) });
const nameColumn = (value, more) => ({ title: "name", value, kind: "name", fill: (row) => nameElement(value(row)), ...more });
const keyColumn = (title, value, more) => ({ title, value, order: compareValues, fill: (row) => valueElement(value(row), LONGEST_LABEL), ...more });
const listedColumn = (title, item) => ({ ...textColumn(title, (row) => item(row).label), value: (row) => item(row).at });

/** The columns in which some row has a value. Without rows all are. */
function columnsWithValues(columns, rows) {
  return columns.filter(({ isNone }) => isNone === undefined || rows.length === 0 || !rows.every(isNone));
}

/** A column as an order names it: its title without the unit. */
function wordOf(column) {
  return column.title.split(",")[0];
}

class Table {
  /** `what` is what the rows are, as "names"; `together` is what is told of all rows. The greatest of the first number lead. */
  constructor(what, columns, together = []) {
    Object.assign(this, { what, columns, together, given: [], rows: [], all: 0 });
    this.order = this.current = null;
    this.firstOrder = this.order;
    this.status = element("p", { className: "status", role: "status" });
    this.head = element("tr", { role: "row" }, ...columns.map((column) => this.headOf(column)));
    this.body = element("tbody", { role: "rowgroup" });
    this.more = element("button", { type: "button", className: "more", onclick: () => this.showMore() });
    // The roles are said, since the style takes rows apart on a narrow screen.
    const table = element("table", { role: "table", ariaLabel: what }, element("thead", { role: "rowgroup" }, this.head), this.body);
    this.element = element("div", { className: "table" }, this.status, element("div", { className: "wide" }, table), this.more);
  }

  headOf(column) {
    const button = element("button", { type: "button", onclick: () => this.sortBy(column) }, brief(column.title, LONGEST_LABEL));
    return element("th", { role: "columnheader", scope: "col", ariaSort: "none", className: column.kind ?? "" }, button);
  }

  /** Shows these of all rows, in the order that was chosen; where that leaves a choice, in the order in which they are given. */
  show(rows, all = rows) {
    this.given = rows;
    this.all = all.length;
    this.greatest = new Map(this.columns.filter(({ bar }) => bar).map((column) => [column, greatest(rows.map(column.value))]));
    this.sort();
  }

  sortBy(column) {
    this.isDescending = this.sorted === column ? !this.isDescending : column.kind === "number";
    this.sorted = column;
    this.sort();
    tellOfChange(this.element);
  }

  /** The order as a text, with a hyphen where what is greatest leads. */
  get order() {
    return `${this.isDescending ? "-" : ""}${wordOf(this.sorted)}`;
  }

  /** Takes an order for the rows that are shown next; any other text, or null, is the order at first. */
  set order(text) {
    const column = this.columns.find((one) => text === wordOf(one) || text === `-${wordOf(one)}`);
    this.sorted = column ?? this.columns.find(({ kind }) => kind === "number");
    this.isDescending = column === undefined || text.startsWith("-");
  }

  sort() {
    const { sorted, isDescending } = this;
    const order = sorted.order ?? compare;
    this.rows = this.given.toSorted((one, other) => (isDescending ? -1 : 1) * order(sorted.value(one), sorted.value(other)));
    this.columns.forEach((column, at) => {
      this.head.cells[at].ariaSort = column !== sorted ? "none" : isDescending ? "descending" : "ascending";
    });
    this.body.replaceChildren();
    this.showRows(FIRST_ROWS);
  }

  showMore() {
    const next = this.body.rows.length;
    this.showRows(MORE_ROWS);
    if (this.more.hidden) this.body.rows[next].querySelector("button")?.focus();
  }

  showRows(count) {
    const seen = this.body.rows.length;
    this.body.append(...this.rows.slice(seen, seen + count).map((row) => this.rowOf(row)));
    this.more.hidden = this.body.rows.length === this.rows.length;
    this.more.textContent = `Show ${Math.min(MORE_ROWS, this.rows.length - this.body.rows.length)} more`;
    this.tell();
  }

  rowOf(row) {
    return element("tr", { role: "row", ariaCurrent: this.currentOf(row), onclick: () => this.choose(row) }, ...this.columns.map((column) => {
      const cell = element("td", { role: "cell", className: column.kind ?? "" }, column.fill(row));
      cell.dataset.title = brief(column.title, LONGEST_LABEL);
      if (column.bar) setBar(cell, column.bar(row, this.greatest.get(column)));
      return cell;
    }));
  }

  currentOf(row) {
    return row === this.current ? "true" : null;
  }

  /** Makes a row the current one, which is seen where it is shown, now or later. */
  setCurrent(row) {
    this.current = row;
    [...this.body.rows].forEach((shown, at) => { shown.ariaCurrent = this.currentOf(this.rows[at]); });
  }

  /** A click on a row chooses it, but for one that ends a selection of text. */
  choose(row) {
    if (getSelection().isCollapsed) this.onchoose?.(row);
  }

  /** Tells how many rows are shown, and what all that are narrowed to have together, shown or not. */
  tell() {
    const narrowed = this.rows.length < this.all ? `, narrowed from ${grouped(this.all)}` : "";
    const together = this.together.map(({ title, over, value, text }) => `; ${title} ${text(over(this.rows.map(value)))}`);
    this.status.textContent =
      `${grouped(this.body.rows.length)} of ${grouped(this.rows.length)} ${this.what} shown${narrowed}${together.join("")}`;
  }
}
