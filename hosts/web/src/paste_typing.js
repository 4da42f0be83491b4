/**
 * Types lines, for rich paste. Each is typed at the end of the one before, and then parted from it, so
 * that no blank is at an end of a block meanwhile.
 */
import { isText } from "./region_nodes.js";
import { firstLeaf, leafBefore } from "./region_places.js";
import { nextLeaf, placeOf, spotOf } from "./paste_spots.js";

/** @typedef {import("./paste_lines.js").Line} Line */
/** @typedef {import("./paste_lines.js").Piece} Piece */
/** @typedef {import("./paste_spots.js").Spot} Spot */
/** @typedef {import("./paste_target.js").PasteTarget} PasteTarget */
/** @typedef {import("./paste_target.js").Placed} Placed */
/** @typedef {import("./region_places.js").NodePlace} NodePlace */

/** The most units that one command types, so that none takes long. */
const MOST_UNITS = 1000;

const NO_BREAK_SPACE = "\u00a0";

/** A blank at the start of a line. */
const BLANK = /^[ \u00a0]/;

/** @param {readonly Piece[]} pieces */
export const textOf = (pieces) =>
  pieces.map((piece) => (piece.type === "text" ? piece.text : "")).join("");

/**
 * The parts of a text that one command types each, of whole characters.
 * @param {string} text
 */
function partsOf(text) {
  const parts = [];
  for (let from = 0; from < text.length; ) {
    const to = from + MOST_UNITS;
    const end = to + Number(/[\ud800-\udbff]/.test(text.charAt(to - 1)));
    parts.push(text.slice(from, end));
    from = end;
  }
  return parts;
}

/** Types the lines of a paste. */
export class LineTyping {
  #target;

  /** @param {PasteTarget} target */
  constructor(target) {
    this.#target = target;
  }

  /**
   * What of a line is typed before its block is made. Blanks of code stay as they are in its block
   * alone.
   * @param {Line} line
   */
  #typed(line) {
    return line.block === "pre" && !this.#target.isInItem ? "" : textOf(line.pieces);
  }

  /**
   * Types a text in a place, and gives the spot where it begins; null where that isn't possible.
   * @param {string} text
   * @param {NodePlace} at
   * @returns {Generator<undefined, Spot | null>}
   */
  *type(text, at) {
    for (const [index, part] of partsOf(text).entries()) {
      const isDone =
        index === 0
          ? this.#target.execAt("insertText", part, at)
          : this.#target.commands.exec("insertText", part);
      yield;
      if (!isDone) {
        return null;
      }
    }
    const { leaf, offset } = this.#target.caretSpot();
    return { leaf, offset: offset - text.length };
  }

  /**
   * Types the first line, and parts it from what stands before it, unless it joins that.
   * @param {Line} line
   * @param {NodePlace} at
   * @param {boolean} isJoined
   */
  *typeFirst(line, at, isJoined) {
    const text = this.#typed(line);
    const there = text === "" ? spotOf(at) : null;
    const spot = there ?? (yield* text === "" ? this.#makeEmpty(at) : this.type(text, at));
    if (!spot || !this.#target.editor.enabled("insertText")) {
      return false;
    }
    this.#place(line, spot, text);
    return isJoined || (yield* this.#part(spot, text));
  }

  /**
   * Makes an empty line where there is nothing at all.
   * @param {NodePlace} at
   */
  *#makeEmpty(at) {
    if (!(yield* this.type("x", at))) {
      return null;
    }
    const { leaf, offset } = this.#target.caretSpot();
    this.#target.exec("delete", "", { leaf, offset: offset - 1 }, { leaf, offset });
    yield;
    return this.#target.caretSpot();
  }

  /**
   * @param {Line} line
   * @param {Spot} spot
   * @param {string} text
   */
  #place(line, spot, text) {
    this.#target.placed.push({ line, spot, length: text.length });
  }

  /**
   * Types a further line at the end of the last one, and parts the two.
   * @param {Line} line
   */
  *typeNext(line) {
    const text = this.#typed(line);
    const last = /** @type {Placed} */ (this.#target.placed.at(-1));
    const isEmpty = text === "" && line.pieces.length === 0 && line.rules.length === 0;
    if (isEmpty && this.#target.isInItem && last.length === 0) {
      // A second empty item would end the list.
      return;
    }
    const end = this.#target.endOf(last);
    const spot = text === "" ? end : yield* this.type(text, placeOf(end));
    if (spot) {
      this.#place(line, spot, text);
      yield* this.#part(spot, text);
    }
  }

  /**
   * Parts the last line, which begins at a spot, from what stands before it, and finds both again.
   * @param {Spot} spot
   * @param {string} text
   */
  *#part(spot, text) {
    const leaf = yield* this.#split(spot);
    const [before, last] = [this.#target.placed.at(-2), /** @type {Placed} */ (this.#target.placed.at(-1))];
    if (!leaf) {
      return false;
    }
    last.spot = { leaf, offset: 0 };
    if (before?.length === 0) {
      this.#findEmpty(before, leaf);
    }
    if (BLANK.test(text)) {
      yield* this.keepBlank(leaf);
    }
    return true;
  }

  /**
   * Parts a block at a spot, and gives the first leaf behind. The caret isn't always before that: where a
   * list follows in the block, it is in the list.
   * @param {Spot} spot
   * @returns {Generator<undefined, Node | null>}
   */
  *#split({ leaf, offset }) {
    const staying = offset > 0 ? leaf : leafBefore(leaf, this.#target.root);
    const before = staying && leafBefore(staying, this.#target.root);
    const isBreak = this.#target.isBreak(leaf);
    const isDone = this.#target.exec("insertParagraph", "", { leaf, offset });
    yield;
    if (!isDone) {
      return null;
    }
    // A break that stood before the spot goes, and one shows the line before where that is empty.
    const last = staying?.isConnected ? staying : before;
    let next = last ? nextLeaf(last, this.#target.root) : firstLeaf(this.#target.root);
    for (let most = offset > 0 ? 0 : isBreak ? 1 : Infinity; most > 0; most -= 1) {
      if (!this.#target.isBreak(next)) {
        break;
      }
      next = nextLeaf(next, this.#target.root);
    }
    return next;
  }

  /**
   * Has a blank at the start of a line show.
   * @param {Node | null} leaf
   */
  *keepBlank(leaf) {
    if (isText(leaf) && leaf.data.startsWith(" ")) {
      this.#target.exec("insertText", NO_BREAK_SPACE, { leaf, offset: 0 }, { leaf, offset: 1 });
      yield;
    }
  }

  /**
   * Finds an empty line again, which stands before a leaf.
   * @param {Placed} placed
   * @param {Node} next
   */
  #findEmpty(placed, next) {
    const { leaf } = placed.spot;
    const isThere =
      leaf.isConnected && leaf !== next && this.#target.view.blockOf(leaf) !== this.#target.view.blockOf(next);
    const before = isThere ? null : leafBefore(next, this.#target.root);
    if (before) {
      placed.spot = { leaf: before, offset: isText(before) ? before.length : 0 };
    }
  }

  /** Parts what stands behind the last line from it. */
  *partTail() {
    const last = /** @type {Placed} */ (this.#target.placed.at(-1));
    const leaf = yield* this.#split(this.#target.endOf(last));
    if (leaf && last.length === 0) {
      this.#findEmpty(last, leaf);
    }
  }
}
