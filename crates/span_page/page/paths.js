// Paths as a column shows them: without the folder that nearly all of them lie in, which is found once for the column. Since a trace has
// paths of several trees, as a system's headers and a project's, each tree has such a folder.

const NEARLY_ALL = 0.95;
const LONGEST_PATH = 4096; // letters, more than which no system opens

const isPath = (text) => text.length <= LONGEST_PATH && /^\.{0,2}\//.test(text);

/** The steps of a path where those that lead up are taken: `/a/b/../c` has those of `/a/c`. */
function stepsOf(path) {
  const steps = [];
  for (const step of path.split("/")) {
    if (step === ".." && steps.length > 1 && steps.at(-1) !== "..") steps.pop();
    else if (step !== "." && (step !== "" || steps.length === 0)) steps.push(step);
  }
  return steps;
}

/** How many steps lead to the deepest folder that has nearly all of some paths below it, and which of them those are. */
function deepestOf(paths) {
  let below = paths;
  for (let depth = 0; ; depth += 1) {
    const folders = byKey(below.filter(({ steps }) => steps.length > depth + 1), ({ steps }) => steps[depth]);
    const next = [...folders.values()].find(({ length }) => length >= NEARLY_ALL * paths.length);
    if (next === undefined) return { depth, below };
    below = next;
  }
}

/** The shorter texts of the paths among some different ones. Of two paths with one shorter text neither has it. */
function shortPaths(texts) {
  const paths = texts.filter(isPath).map((text) => ({ text, steps: stepsOf(text) }));
  const owners = new Map();
  for (const tree of byKey(paths, ({ steps }) => steps.slice(0, 2).join("/")).values()) {
    const { depth, below } = tree.length > 1 ? deepestOf(tree) : { below: [] };
    for (const { text, steps } of below) {
      const short = `\u2026/${steps.slice(depth).join("/")}`;
      owners.set(short, owners.has(short) ? null : text);
    }
  }
  return new Map([...owners].filter(([, text]) => text !== null).map(([short, text]) => [text, short]));
}
