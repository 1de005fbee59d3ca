// Reads the text of a report and that of refusals, and writes numbers and names for people. Times and counts are BigInts, since
// they may need more digits than a number has.

/** Where the JSON text ends that begins at a place of a line. */
function endOfText(line, start) {
  const quote = line.indexOf('"', start + 1);
  if (line[quote - 1] !== "\\") return quote + 1;
  let at = start + 1;
  while (line[at] !== '"') at += line[at] === "\\" ? 2 : 1;
  return at + 1;
}

/** Where the word ends that begins at a place of a line. Blanks within a JSON text are its own. */
function endOfWord(line, start) {
  let at = start;
  while (at < line.length && line[at] !== " ") at = line[at] === '"' ? endOfText(line, at) : at + 1;
  return at;
}

function wordsOf(line) {
  const words = [];
  let at = 0;
  while (at < line.length) {
    const end = endOfWord(line, at);
    if (end > at) words.push(line.slice(at, end));
    at = end + 1;
  }
  return words;
}

/** The name of a process or thread, or null where it has none. */
function nameOf(word) {
  return word === "-" ? null : JSON.parse(word);
}

const NO_ID = "-";

/** An id as it is shown: a local one with its process. */
function idOf(word) {
  const quote = word.indexOf('"');
  if (quote < 0) return NO_ID;
  const text = shown(JSON.parse(word.slice(quote)));
  return quote === 0 ? text : `${text} (process ${word.slice(0, quote - 1)})`;
}

/** A name, or null, and the number with the name, as it stands in tables and choices. */
function namesOf(number, name) {
  return { name, label: name === null ? number : `${shown(name)} (${number})` };
}

// The units in which runs count time: their words, their nanoseconds, and what a time in a trace has to be.
const MICROSECONDS = { word: "microsecond", sign: "\u00b5s", length: 1000n, read: "a whole number of microseconds" };
const NANOSECONDS = { word: "nanosecond", sign: "ns", length: 1n, read: "a number" };

/** How each line of a report is read, by its first word; a line stands under the file, the process and the thread that were read last. */
const READERS = {
  unit: (report) => { report.unit = NANOSECONDS; },
  process: (report, [, number, name]) => report.processes.push({
    number, at: report.processes.length, ...namesOf(number, nameOf(name)), file: report.file }),
  thread: (report, [, , number, name, , open, , busy]) => report.threads.push({
    number, at: report.threads.length, ...namesOf(number, nameOf(name)),
    file: report.file, process: report.processes.at(-1), open: BigInt(open), busy: BigInt(busy) }),
  instant: (report, [, reach, count, name]) => report.instants.push({
    file: report.file, process: report.processes.at(-1), thread: report.threads.at(-1),
    name: JSON.parse(name), reach: REACHES[reach], count: BigInt(count) }),
  counter: (report, [, , name, id, series, , samples, , least, , greatest, , last]) => report.counters.push({
    file: report.file, process: report.processes.at(-1), name: JSON.parse(name), id: idOf(id), series: JSON.parse(series),
    samples: BigInt(samples), least: BigInt(least), greatest: BigInt(greatest), last: BigInt(last) }),
  async: (report, [, category, scope, id, name, , closed, , total, , open, , points]) => report.asyncs.push({
    file: report.file, category: JSON.parse(category), scope: JSON.parse(scope), id: idOf(id), name: JSON.parse(name),
    closed: BigInt(closed), total: BigInt(total), open: BigInt(open), points: BigInt(points) }),
  flow: (report, [, category, name, id, , ended, , total, , open]) => report.flows.push({
    file: report.file, category: JSON.parse(category), name: JSON.parse(name), id: idOf(id),
    ended: BigInt(ended), total: BigInt(total), open: BigInt(open) }),
};

const REACHES = { g: "global", p: "process", t: "thread" };

/** Puts what the text of a report says to what was read before it. Its counts and the spans are left out: these stand in the table. */
function readReport(report, text) {
  for (const line of text.split("\n").filter((one) => !one.startsWith("span "))) {
    const words = wordsOf(line);
    READERS[words[0]]?.(report, words);
  }
}

/** The lines that say why events of a file were refused. */
function readRefusals(text) {
  const lines = text.split("\n").map(wordsOf).filter(([word]) => word === "refused");
  return lines.map(([, count, code, word, , first, file]) => ({
    count: BigInt(count), code, word, first: BigInt(first), file: JSON.parse(file) }));
}

/** A number with its digits in groups of three. */
function grouped(number) {
  return number.toString().replace(/\B(?=(\d{3})+$)/g, ",");
}

// Longer units, the longest first, with their nanoseconds.
const UNITS = [["d", 86400000000000n], ["h", 3600000000000n], ["min", 60000000000n], ["s", 1000000000n], ["ms", 1000000n], ["\u00b5s", 1000n]];

/** A time in the unit of the page, and beside it three digits in the longer one that suits it. */
function timeText(time) {
  const exact = `${grouped(time)} ${unit.sign}`;
  const own = time * unit.length;
  const [sign, length] = UNITS.find(([, least]) => least > unit.length && own >= least) ?? [];
  if (sign === undefined) return exact;
  const places = own >= 100n * length ? 0 : own >= 10n * length ? 1 : 2;
  const rounded = (2n * own * 10n ** BigInt(places) + length) / (2n * length);
  const digits = rounded.toString();
  const whole = grouped(digits.slice(0, digits.length - places));
  return `${exact} (${whole}${places > 0 ? "." : ""}${digits.slice(digits.length - places)} ${sign})`;
}

/** How many hundredths a part is of a whole, to one place. */
function shareText(part, whole) {
  if (whole === 0n) return "";
  const tenths = (2000n * part + whole) / (2n * whole);
  return part > 0n && tenths === 0n ? "< 0.1 %" : `${grouped(tenths / 10n)}.${tenths % 10n} %`;
}

function add(numbers) {
  return numbers.reduce((sum, number) => sum + number, 0n);
}

function greatest(numbers) {
  return numbers.reduce((most, number) => (number > most ? number : most), 0n);
}

/** A part of a whole as a fraction, for what is drawn. */
function fraction(part, whole) {
  return whole === 0n ? 0 : Number(part) / Number(whole);
}

const UNSEEN = /[\u0000-\u001f\u007f-\u009f\u00ad\u061c\u180e\u200b\u200e\u200f\u2028-\u202e\u2060-\u206f\ufeff\ufff9-\ufffb]/g;

/** A name with what would not be seen, or would turn the text around it, as escapes. */
function shown(name) {
  return name === "" ? '""' : name.replace(UNSEEN, (letter) => "\\u" + letter.charCodeAt(0).toString(16).padStart(4, "0"));
}

/** A text with an ellipsis for its middle where it is longer; no letter of two code units is divided. */
function cut(text, most) {
  if (text.length <= most) return text;
  const end = Math.floor((most - 1) / 2);
  const first = text.slice(0, most - 1 - end).replace(/[\ud800-\udbff]$/, "");
  return `${first}\u2026${text.slice(text.length - end).replace(/^[\udc00-\udfff]/, "")}`;
}

/** A name as it is shown, cut to so many letters. It is cut before too, so that no long name is looked through each time it is drawn. */
function brief(name, most) {
  return cut(shown(cut(name, most)), most);
}
