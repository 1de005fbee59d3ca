// Reads the table of closed spans, which is JSON Lines: its columns and numbers, and rows with a key, whose values stand in the order of
// the columns, and with these numbers. A key says of which threads a row can be; the frames of a row are those of these threads that have
// its label.

// The numbers of a table whose head names none, as they are shown.
const USUAL_NUMBERS = ["self", "total", "count"];

// Values, each with its kind, which is its place among the kinds as they are ordered, what orders it among those of its kind, and the word
// that stands for it in a label.
const KINDS = { missing: 0, null: 1, false: 2, true: 3, whole: 4, text: 5, other: 6 };
const NOTHING = { kind: KINDS.missing, order: 0, word: null };

/** What a column of a place has of a thread. */
const PLACES = {
  pid: (thread) => thread.process.number,
  tid: (thread) => thread.number,
  process: (thread) => thread.process.name,
  thread: (thread) => thread.name,
  file: (thread) => thread.file?.inTable ?? null,
};

const isPlace = (column) => Object.hasOwn(PLACES, column);
const isOfLabel = (column) => column === "name" || column.startsWith("args.");
// The names and arguments of parents are no part of a label, since frames are labelled by what their own spans have.
const isOfParent = (column) => column.startsWith("parent.");
const isOfWords = (column) => column === "file" || isOfLabel(column) || isOfParent(column);

const textValue = (word) => ({ kind: KINDS.text, order: word, word });

/** The value of a JSON text. */
function valueOf(text) {
  if (text.startsWith('"')) return textValue(JSON.parse(text));
  if (/^-?\d/.test(text)) return { kind: KINDS.whole, order: BigInt(text), word: text };
  return text === "{}" ? { kind: KINDS.other, order: 0, word: "..." } : { kind: KINDS[text], order: 0, word: text };
}

function compareValues(one, other) {
  return compare(one.kind, other.kind) || compare(one.order, other.order);
}

/** The members of the object on a line, with their JSON texts. The last of them are numbers. */
function membersOf(line) {
  const members = new Map();
  for (let at = 1; at < line.length;) {
    const colon = endOfText(line, at);
    const comma = line[colon + 1] === '"' ? endOfText(line, colon + 1) : line.indexOf(",", colon);
    const end = comma < 0 ? line.length - 1 : comma;
    members.set(JSON.parse(line.slice(at, colon)), line.slice(colon + 1, end));
    at = end + 1;
  }
  return members;
}

/** Lists of the items with a key, for each. */
function byKey(items, keyOf) {
  const lists = new Map();
  for (const item of items) {
    const key = keyOf(item);
    if (!lists.has(key)) lists.set(key, []);
    lists.get(key).push(item);
  }
  return lists;
}

/** The threads for each list of what these columns have of them, with their busy time. */
function placesOf(columns, threads) {
  const keyOf = (thread) => JSON.stringify(columns.map((column) => PLACES[column](thread)));
  return new Map([...byKey(threads, keyOf)].map(([key, own]) => [key, { threads: own, has: new Set(own), busy: busyTimeOf(own) }]));
}

/** Puts to each file the name that the table has it by: its own, or its path below the folder that all files are of. */
function nameInTable(files, names) {
  const own = files.filter(({ hasSpans }) => hasSpans).map(({ name }) => name);
  const cuts = [0, ...[...(own[0] ?? "").matchAll(/\//g)].map(({ index }) => index + 1)];
  const isOfNames = (cut) => names.isSubsetOf(new Set(own.map((name) => name.slice(cut))));
  const cut = cuts.find(isOfNames) ?? 0;
  for (const file of files) file.inTable = file.name.slice(cut);
}

function busyTimeOf(threads) {
  return add(threads.map(({ busy }) => busy));
}

const NOWHERE = { threads: [], has: new Set(), busy: 0n };

class SpanTable {
  /** The table of a text, of the spans of what was traced. */
  constructor(text, { files, threads }) {
    const [head, ...lines] = text.split("\n").slice(0, -1);
    const counts = JSON.parse(head);
    const { columns, numbers = USUAL_NUMBERS } = counts;
    const indexesOf = (isAsked) => columns.flatMap((column, at) => (isAsked(column) ? [at] : []));
    this.inPlace = indexesOf(isPlace);
    this.inLabel = indexesOf(isOfLabel);
    this.inWords = indexesOf(isOfWords);
    this.labelTitle = this.inLabel.map((at) => columns[at]).join(" ") || "label";
    // Values are known by their texts, since most stand in many rows.
    Object.assign(this, { columns, numbers, counts, values: new Map(), labelled: null, shorts: new Map() });
    this.unit = counts.unit === NANOSECONDS.sign ? NANOSECONDS : MICROSECONDS;
    this.rows = lines.map((line) => this.rowOf(membersOf(line)));
    const fileAt = columns.indexOf("file");
    if (fileAt >= 0) nameInTable(files, new Set(this.rows.map(({ values }) => values[fileAt].word)));
    this.places = placesOf(columns.filter(isPlace), threads);
    for (const row of this.rows) row.place = this.placeOf(row);
  }

  /** A row: the values of its key, its numbers, its label, which is null where no column is of labels, and the words that are looked through
   * for it. */
  rowOf(members) {
    const values = this.columns.map((column) => this.valueOf(members.get(column)));
    const textOf = (indexes) => indexes.map((at) => values[at].word).filter((word) => word !== null).join(" ");
    const numbers = this.numbers.map((name) => BigInt(members.get(name)));
    const label = this.inLabel.length > 0 ? textOf(this.inLabel) : null;
    return { values, numbers, place: NOWHERE, label, words: textOf(this.inWords) };
  }

  /** What gives a row's number of this name, which the table has. */
  numberIn(name) {
    const at = this.numbers.indexOf(name);
    return ({ numbers }) => numbers[at];
  }

  /** The threads that a row can be of. */
  placeOf({ values }) {
    return this.places.get(JSON.stringify(this.inPlace.map((at) => values[at].word))) ?? NOWHERE;
  }

  valueOf(text) {
    if (text === undefined) return NOTHING;
    if (!this.values.has(text)) this.values.set(text, valueOf(text));
    return this.values.get(text);
  }

  /** The values that make a row's label, each with its column. */
  partsOf({ values }) {
    const parts = this.inLabel.map((at) => ({ column: this.columns[at], value: values[at] }));
    return parts.filter(({ value }) => value !== NOTHING);
  }

  rowsWithLabel(label) {
    this.labelled ??= byKey(this.rows, (row) => row.label);
    return this.labelled.get(label) ?? [];
  }

  /** The rows with a label at a place, which have the same frames. */
  rowsOf(label, place) {
    return this.rowsWithLabel(label).filter((row) => row.place === place);
  }

  /** The shorter texts of the paths in a column. */
  shortsOf(column) {
    if (!this.shorts.has(column)) this.shorts.set(column, shortPaths(this.textsIn(this.columns.indexOf(column))));
    return this.shorts.get(column);
  }

  /** The texts in the column at an index, each once. A label that is its only part may stand for a column that isn't there. */
  textsIn(at) {
    const values = new Set(at < 0 ? [] : this.rows.map(({ values }) => values[at]));
    return [...values].filter(({ kind }) => kind === KINDS.text).map(({ word }) => word);
  }

  /** The same of a frame, by its label and its thread. If several rows have that label by other values, the label is the only part. */
  framePartsOf(label, thread) {
    const rows = this.rowsWithLabel(label).filter(({ place }) => place.has.has(thread));
    const [first, ...others] = rows.map((row) => this.partsOf(row));
    return first?.length > 0 && others.every((parts) => areAlike(parts, first)) ? first : plainParts(label);
  }
}

/** A label that is its only part. */
function plainParts(label) {
  return [{ column: "name", value: textValue(label) }];
}

function areAlike(parts, others) {
  return parts.length === others.length && parts.every(({ column, value }, at) => column === others[at].column && value === others[at].value);
}
