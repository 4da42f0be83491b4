/** Makes the blocks of lines that were typed, for rich paste. */
import { leafAfter, leafBefore } from "./region_places.js";
import { MOST_LINES, runsOf } from "./paste_target.js";

/** @typedef {import("./paste_lines.js").Line} Line */
/** @typedef {import("./paste_target.js").PasteTarget} PasteTarget */
/** @typedef {import("./paste_target.js").Placed} Placed */
/** @typedef {import("./paste_target.js").Run} Run */

/** @type {Readonly<Record<string, string>>} */
const ALIGNMENTS = { center: "justifyCenter", right: "justifyRight", justify: "justifyFull" };

const LISTS = { ul: "insertUnorderedList", ol: "insertOrderedList" };

/** Makes the blocks of the lines of a paste. */
export class LineBlocks {
  #target;

  /** @param {PasteTarget} target */
  constructor(target) {
    this.#target = target;
  }

  /** Makes the rules before lines. */
  *makeRules() {
    for (const { line, spot } of this.#target.placed) {
      for (const _ of line.rules) {
        this.#target.exec("insertHorizontalRule", "", spot);
        yield;
      }
    }
  }

  /**
   * Executes a command on a run of lines, on some of them at once.
   * @param {Run} run
   * @param {string} name
   * @param {string} value
   */
  *#onLines({ from, to }, name, value = "") {
    for (let first = from; first < to; first += MOST_LINES) {
      const last = this.#target.placed[Math.min(first + MOST_LINES, to) - 1];
      this.#target.exec(name, value, this.#target.placed[first].spot, this.#target.endOf(last));
      yield;
    }
  }

  /**
   * The runs of lines in a run for which a function gives the same.
   * @param {Run} run
   * @param {(line: Line) => unknown} keyOf
   * @param {(line: Line) => boolean} [begins]
   */
  #runsIn({ from, to }, keyOf, begins = () => false) {
    const lineAt = (/** @type {number} */ index) => this.#target.placed[from + index].line;
    const runs = runsOf(
      to - from,
      (index) => keyOf(lineAt(index)),
      (index) => begins(lineAt(index)),
    );
    return runs.map((run) => ({ from: run.from + from, to: run.to + from }));
  }

  /**
   * Makes the blocks of lines.
   * @param {Run} run
   */
  *makeBlocks(run) {
    for (const each of this.#runsIn(run, ({ align }) => align || undefined)) {
      yield* this.#onLines(each, ALIGNMENTS[this.#target.placed[each.from].line.align]);
    }
    if (!this.#target.isInItem) {
      yield* this.#makeQuotes(run);
    }
    yield* this.#makeLists(run, 0);
    yield* this.#makeNames(run);
  }

  /** @param {Run} run */
  *#makeQuotes(run) {
    const most = Math.max(0, ...this.#target.placed.map(({ line }) => line.quotes));
    for (let level = 1; level <= most; level += 1) {
      const isWithin = (/** @type {Line} */ { quotes }) => quotes >= level || undefined;
      const begins = (/** @type {Line} */ { rules }) => rules.some((quotes) => quotes < level);
      for (const each of this.#runsIn(run, isWithin, begins)) {
        yield* this.#onLines(each, "indent");
      }
    }
  }

  /**
   * Makes lists of the lines in a run, from one level on.
   * @param {Run} run
   * @param {number} level
   * @returns {Generator<undefined, void>}
   */
  *#makeLists(run, level) {
    const hasRule = (/** @type {Line} */ { rules }) => rules.length > 0;
    const key = (/** @type {Line} */ { lists, quotes }) =>
      lists[level] && (level > 0 ? lists[level] : `${lists[level]} ${quotes}`);
    for (const each of this.#runsIn(run, key, hasRule)) {
      const command = LISTS[this.#target.placed[each.from].line.lists[level]];
      if (level > 0) {
        yield* this.#onLines(each, "indent");
      }
      if (level === 0 ? !this.#target.isInItem : !this.#target.editor.state(command)) {
        yield* this.#onLines(each, command);
      }
      yield* this.#makeLists(each, level + 1);
    }
  }

  /**
   * Makes headings and the like of lines, and paragraphs of those that got into one.
   * @param {Run} run
   */
  *#makeNames({ from, to }) {
    for (const placed of this.#target.placed.slice(from, to)) {
      const { line, spot } = placed;
      const name = this.#target.view.nameOf(this.#target.view.blockOf(spot.leaf));
      const isOther = /^(?:address|h[1-6]|pre)$/.test(name);
      if (line.block === "p" ? isOther : line.block !== name) {
        this.#target.exec("formatBlock", line.block, spot, this.#target.endOf(placed));
        yield;
        yield* this.#partFromSame(placed);
      }
    }
  }

  /**
   * `formatBlock` joins a heading with one beside it of the same name, by a break: parts them again.
   * @param {Placed} placed
   */
  *#partFromSame(placed) {
    if (/^(?:p|pre)$/.test(placed.line.block)) {
      return;
    }
    const before = leafBefore(placed.spot.leaf, this.#target.root);
    if (this.#isBreakBeside(before, placed.spot.leaf)) {
      this.#target.exec("insertParagraph", "", { leaf: before, offset: 0 }, placed.spot);
      placed.spot = this.#target.caretSpot();
      yield;
    }
    const end = this.#target.endOf(placed);
    const after = leafAfter(end.leaf, this.#target.root);
    if (this.#isBreakBeside(after, end.leaf)) {
      this.#target.exec("insertParagraph", "", end, { leaf: after, offset: 1 });
      yield;
    }
  }

  /**
   * Whether a leaf is a break in the block of another one.
   * @param {Node | null} leaf
   * @param {Node} other
   * @returns {leaf is Element}
   */
  #isBreakBeside(leaf, other) {
    return this.#target.isBreak(leaf) && this.#target.view.blockOf(leaf) === this.#target.view.blockOf(other);
  }
}
