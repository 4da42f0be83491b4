/**
 * The steps of a region's undo, for region.js, with what was selected before and after each. A step has
 * an entry of the engine's history, and several if something was marked between its commands.
 */

/** @typedef {import("./hedit.js").Selection} Selection */

/**
 * A step: how many entries of the engine's history it has, and what was selected before and after it.
 * @typedef {{ entries: number, before: Selection | null, after: Selection | null }} Step
 */

/**
 * A step that isn't known, as one that the host made by the editor itself.
 * @type {Readonly<Step>}
 */
const ONE_ENTRY = Object.freeze({ entries: 1, before: null, after: null });

/** The steps that undo and redo would take. */
export class Steps {
  /**
   * The one that undo takes next at the end.
   * @type {Step[]}
   */
  #done = [];

  /**
   * The one that redo takes next at the end.
   * @type {Step[]}
   */
  #undone = [];

  /** How many entries of the history those that are done have. */
  #entries = 0;

  /** How many entries at the start of the history are the rest of a step that isn't whole any more. */
  #rest = 0;

  /** How many steps the history has lost. */
  #lost = 0;

  /** How many steps there are or were to undo, for `join`. */
  get length() {
    return this.#lost + this.#done.length;
  }

  /**
   * Notes what was done. What made no entry and changed something went on with the last step.
   * @param {Step} step
   * @param {boolean} isChanged
   */
  note(step, isChanged) {
    const last = this.#done.at(-1);
    if (step.entries > 0) {
      this.#done.push(step);
      this.#entries += step.entries;
      this.#undone = [];
    } else if (isChanged && last) {
      last.after = step.after;
    }
  }

  /**
   * Forgets the steps of which the history has lost entries: no step is taken back in part.
   * @param {number} entries how many entries there are to undo
   */
  fit(entries) {
    const isCut = this.#entries > entries;
    while (this.#entries > entries) {
      this.#entries -= /** @type {Step} */ (this.#done.shift()).entries;
      this.#lost += 1;
    }
    const others = entries - this.#entries;
    this.#rest = isCut ? others : Math.min(this.#rest, others);
  }

  /**
   * Whether there is a step to undo.
   * @param {number} entries how many entries there are to undo
   */
  canUndo(entries) {
    return this.#done.length > 0 || entries > this.#rest;
  }

  /**
   * Makes one step of those from one on. If the history has lost the first of these, all go.
   * @param {number} from
   */
  join(from) {
    if (from < this.#lost) {
      this.#lose();
      return;
    }
    const [first, ...others] = this.#done.splice(from - this.#lost);
    if (first) {
      const entries = others.reduce((sum, step) => sum + step.entries, first.entries);
      this.#done.push({ entries, before: first.before, after: (others.at(-1) ?? first).after });
    }
  }

  #lose() {
    this.#rest += this.#entries;
    this.#lost += this.#done.length;
    this.#entries = 0;
    this.#done = [];
  }

  /**
   * Takes a step back, by what takes up to a number of entries back and says how many. It gives what
   * was selected before the step, and undefined where there was none.
   * @param {(entries: number) => number} take
   */
  undo(take) {
    const step = this.#done.pop() ?? ONE_ENTRY;
    const entries = take(step.entries);
    if (entries === 0) {
      return undefined;
    }
    this.#entries = Math.max(this.#entries - step.entries, 0);
    this.#undone.push({ ...step, entries });
    return entries === step.entries ? step.before : null;
  }

  /**
   * Takes a step forth again, and gives what was selected after it.
   * @param {(entries: number) => number} take
   */
  redo(take) {
    const step = this.#undone.pop() ?? ONE_ENTRY;
    const entries = take(step.entries);
    if (entries === 0) {
      return undefined;
    }
    this.#done.push({ ...step, entries });
    this.#entries += entries;
    return entries === step.entries ? step.after : null;
  }
}
