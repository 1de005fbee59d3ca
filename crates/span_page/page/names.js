// Names as they stand on the page: as text alone, cut where they are long, and divided where a line may end.

// The most letters of a name, of what stands beside names, of a name that is shown as a whole, of one that is divided, and of a part of it
// that stays on one line.
const LONGEST_NAME = 160;
const LONGEST_LABEL = 40;
const LONGEST_WHOLE = 65536;
const LONGEST_DIVIDED = 1024;
const LONGEST_PART = 20;

// Where a line may end: behind `::`, `/` and `_`, but for an `_` that begins a word, and before a capital that begins one.
const ENDS = /(?<=::|\/)|(?<=[\p{L}\p{N}]_+)(?!_)|(?<=[^\p{Lu}_])(?=\p{Lu})|(?<=\p{Lu})(?=\p{Lu}\p{Ll})/u;

function element(tag, properties = {}, ...children) {
  const made = Object.assign(document.createElement(tag), properties);
  made.append(...children);
  return made;
}

/** A part of a name. A long one may be divided as other texts are, but just where a whole line has no room for it. */
function partOf(text) {
  return text.length > LONGEST_PART ? element("span", { className: "long" }, text) : text;
}

/** A text, with an element between the parts of which each may stand on a line of its own. */
function divided(text) {
  return text.split(ENDS).flatMap((part, at) => (at === 0 ? [partOf(part)] : [element("wbr"), partOf(part)]));
}

/** A name as an element that keeps the direction of its letters to itself, by a shorter text if it has one. The whole is its title. */
function nameElement(name, most = LONGEST_NAME, short = name) {
  const text = brief(short, most);
  return element("bdi", { title: brief(name, LONGEST_WHOLE) }, ...(text.length > LONGEST_DIVIDED ? [partOf(text)] : divided(text)));
}

/** A value of a key. What is neither a text nor a number stands back, so that null is another thing than the text "null". */
function valueElement({ kind, word }, most = LONGEST_NAME, short = word) {
  if (kind === KINDS.text) return nameElement(word, most, short);
  return element("span", { className: kind === KINDS.whole ? "" : "quiet" }, word ?? "-");
}
