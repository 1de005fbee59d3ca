// The callers and callees of frames with a label: those right around them and right under them in the stacks of threads. Stacks are walked
// as they stand in the page, without making their frames, and a clock has the time of those that were walked.

/** The time of the stacks that have each of some keys. A stack that has a key more than once counts once for it: its time runs from where
 * the first goes in to where the last goes out. */
class Times {
  constructor() {
    this.entries = new Map();
  }

  goIn(key, now) {
    if (!this.entries.has(key)) this.entries.set(key, { key, open: 0, since: 0n, time: 0n });
    const entry = this.entries.get(key);
    if (entry.open === 0) entry.since = now;
    entry.open += 1;
  }

  goOut(key, now) {
    const entry = this.entries.get(key);
    entry.open -= 1;
    if (entry.open === 0) entry.time += now - entry.since;
  }

  /** The keys, each with its time. */
  get all() {
    return [...this.entries.values()];
  }
}

/** The calls of a label in stacks that are walked one after another. Null is the caller of what stands outermost. */
class Calls {
  constructor(label) {
    Object.assign(this, { label, own: new Times(), callers: new Times(), callees: new Times(), self: 0n, stack: [], now: 0n });
  }

  /** A frame goes in or out, right under another one. */
  tell(turn, label, caller) {
    if (label === this.label) {
      this.own[turn](label, this.now);
      this.callers[turn](caller, this.now);
    }
    if (caller === this.label) this.callees[turn](label, this.now);
  }

  leaveTo(length) {
    while (this.stack.length > length) {
      const label = this.stack.pop();
      this.tell("goOut", label, this.stack.at(-1) ?? null);
    }
  }

  /** Walks the stacks of a thread, each of which says how many frames it shares with the one before. */
  walk(stacks) {
    for (const [shared, labels, time] of stacks) {
      this.leaveTo(shared);
      for (const label of labels) {
        this.tell("goIn", label, this.stack.at(-1) ?? null);
        this.stack.push(label);
      }
      this.now += BigInt(time);
      if (this.stack.at(-1) === this.label) this.self += BigInt(time);
    }
    this.leaveTo(0);
  }

  /** The time of all stacks that have the label. */
  get time() {
    return this.own.entries.get(this.label)?.time ?? 0n;
  }
}

function callsOf(label, threads) {
  const calls = new Calls(label);
  for (const thread of threads) calls.walk(stacks[thread.at]);
  return calls;
}
