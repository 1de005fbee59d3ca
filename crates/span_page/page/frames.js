// The frames of a thread's stacks, and the boxes as which they are drawn: a frame is as wide as its time.

// What most frames have under them: one list for all of them, since a page may have millions.
const NO_FRAMES = Object.freeze([]);

/** A frame, which stands at a place among those of its thread; those under it are the next ones, and `size` counts it and them. */
class Frame {
  constructor(name, parent, at) {
    this.name = name;
    this.parent = parent;
    this.at = at;
    this.size = 1;
    this.level = parent === null ? 0 : parent.level + 1;
    this.self = 0n;
    this.total = 0n;
    this.children = NO_FRAMES;
  }

  /** Takes a frame under it. */
  take(frame) {
    if (this.children === NO_FRAMES) this.children = [frame];
    else this.children.push(frame);
  }

  /** Whether it is another frame or stands under it. */
  isWithin({ at, size }) {
    return at <= this.at && this.at < at + size;
  }
}

/** The frames of a thread, parents before their children. Each of its stacks says how many frames it shares with the one before. */
function framesOf(label, stacks) {
  const frames = [new Frame(label, null, 0)];
  const stack = [frames[0]];
  for (const [shared, names, time] of stacks) {
    stack.length = shared + 1;
    for (const name of names) {
      const frame = new Frame(name, stack.at(-1), frames.length);
      frame.parent.take(frame);
      frames.push(frame);
      stack.push(frame);
    }
    stack.at(-1).self += BigInt(time);
  }
  addUp(frames);
  return frames;
}

/** Gives each frame the time of those under it, and their number. */
function addUp(frames) {
  for (let at = frames.length - 1; at >= 0; at -= 1) {
    const frame = frames[at];
    frame.total += frame.self;
    if (frame.parent) {
      frame.parent.total += frame.total;
      frame.parent.size += frame.size;
    }
  }
}

/** The boxes of the children of a box, side by side; what is narrower than a pixel, or lies outside of so many pixels, has none. */
function boxesUnder({ frame, x, width }, room, isWidestFirst) {
  const children = isWidestFirst ? frame.children.toSorted((one, other) => compare(other.total, one.total)) : frame.children;
  const boxes = [];
  let before = 0n;
  for (const child of children) {
    const own = width * fraction(child.total, frame.total);
    const left = x + width * fraction(before, frame.total);
    if (own >= 1 && left < room && left + own > 0) boxes.push({ frame: child, x: left, width: own });
    before += child.total;
  }
  return boxes;
}

/** The boxes of a frame, which begins at a place and is so wide, of those around it and of all under it that lie in so many pixels, level
 * by level. */
function levelsOf(zoomed, { x, width }, room, isWidestFirst) {
  const levels = [];
  for (let frame = zoomed; frame; frame = frame.parent) levels.push([{ frame, x, width }]);
  levels.reverse();
  for (;;) {
    const next = levels.at(-1).flatMap((box) => boxesUnder(box, room, isWidestFirst));
    if (next.length === 0) return levels;
    levels.push(next);
  }
}
