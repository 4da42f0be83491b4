/**
 * Pastes lines by commands of the engine alone, for region.js: so all that holds for commands holds for
 * what is pasted, and it is one step of undo. First the text is typed, and then the blocks, the images
 * and the formats are made by commands that work on ranges of it.
 */
import { LineBlocks } from "./paste_blocks.js";
import { LineInlines } from "./paste_inlines.js";
import { placeOf } from "./paste_spots.js";
import { PasteTarget } from "./paste_target.js";
import { LineTyping, textOf } from "./paste_typing.js";
import { isCaret } from "./region_nodes.js";
import { indexOf, isEnd, isStart } from "./region_places.js";

/** @typedef {import("./hedit.js").Editor} Editor */
/** @typedef {import("./hedit.js").Selection} Selection */
/** @typedef {import("./paste_lines.js").Line} Line */
/** @typedef {import("./paste_lines.js").Piece} Piece */
/** @typedef {import("./region_commands.js").Commands} Commands */
/** @typedef {import("./region_places.js").NodePlace} NodePlace */
/** @typedef {import("./region_view.js").View} View */

/** Blocks in which there are no other ones. */
const CODE = /^(?:pre|address)$/;

/**
 * Whether a line is only text, so that it may become a part of another one.
 * @param {Line} line
 */
const isPlain = ({ block, quotes, lists, align }) =>
  block === "p" && quotes === 0 && lists.length === 0 && align === "";

/**
 * A place at an edge of an element, put out of it; null where it isn't at that edge.
 * @param {NodePlace} place
 * @param {Element} element
 * @param {boolean} isAtEnd
 * @returns {NodePlace | null}
 */
function outOf({ node, offset }, element, isAtEnd) {
  let [at, index] = [node, offset];
  const isEdge = isAtEnd ? isEnd : isStart;
  while (at !== element.parentNode && isEdge({ node: at, offset: index })) {
    index = indexOf(at) + Number(isAtEnd);
    at = /** @type {Node} */ (at.parentNode);
  }
  return at === element.parentNode ? { node: at, offset: index } : null;
}

/** Pastes lines at the selection. */
export class LinePaste {
  #lines;

  #leavesLinks;

  #target;

  #typing;

  #blocks;

  #inlines;

  /**
   * @param {{ editor: Editor, view: View, commands: Commands }} session
   * @param {readonly Line[]} lines
   * @param {{ leavesLinks: boolean }} habits
   */
  constructor(session, lines, { leavesLinks }) {
    this.#lines = lines;
    this.#leavesLinks = leavesLinks;
    this.#target = new PasteTarget(session);
    this.#typing = new LineTyping(this.#target);
    this.#blocks = new LineBlocks(this.#target);
    this.#inlines = new LineInlines(this.#target, this.#typing);
  }

  /**
   * Pastes, and pauses after each command. Says whether that was possible.
   * @returns {Generator<undefined, boolean>}
   */
  *run() {
    const at = this.#begin();
    if (!at || this.#lines.length === 0) {
      return false;
    }
    this.#target.isInItem = this.#target.isIn(at.node, /^li$/);
    const isInCode = this.#target.isIn(at.node, CODE);
    const isDone = isInCode ? yield* this.#pasteCode(at) : yield* this.#pasteLines(at);
    if (isDone) {
      yield* this.#inlines.makeFormats();
      this.#finish();
    }
    return isDone;
  }

  /** Deletes what is selected, and gives the place where the text goes; null where there is none. */
  #begin() {
    const { commands, editor, view } = this.#target;
    const selection = editor.selection();
    if (!selection) {
      return null;
    }
    commands.beginEntry();
    if (!isCaret(selection)) {
      commands.exec("delete");
    }
    const caret = /** @type {Selection} */ (editor.selection());
    const place = view.place(view.inBlock(caret).focus);
    const link = this.#leavesLinks ? view.around(place.node, (node) => view.isLink(node)) : null;
    return (link && (outOf(place, link, true) ?? outOf(place, link, false))) ?? place;
  }

  /**
   * Pastes a line into one that is there, or lines with their blocks.
   * @param {NodePlace} at
   */
  *#pasteLines(at) {
    const [isBehind, isBefore] = [true, false].map((side) => this.#target.isBeside(at, side));
    const [first, last] = [this.#lines[0], /** @type {Line} */ (this.#lines.at(-1))];
    const isOne = this.#lines.length === 1 && first.rules.length === 0;
    const isWithin = isOne && (isPlain(first) || isBehind || isBefore);
    const isJoined = isWithin || (isBehind && isPlain(first) && first.rules.length === 0);
    if (!(yield* this.#typing.typeFirst(first, at, isJoined || !isBehind))) {
      return false;
    }
    if (!isWithin) {
      for (const line of this.#lines.slice(1)) {
        yield* this.#typing.typeNext(line);
      }
      const isLastJoined = isBefore && isPlain(last);
      if (isBefore && !isLastJoined) {
        yield* this.#typing.partTail();
      }
      const to = this.#target.placed.length - Number(isLastJoined);
      yield* this.#blocks.makeRules();
      yield* this.#blocks.makeBlocks({ from: Number(isJoined), to });
      yield* this.#typeCode();
    }
    yield* this.#inlines.makeObjects();
    return true;
  }

  /** Types code into its blocks. */
  *#typeCode() {
    for (const placed of this.#target.placed) {
      const text = textOf(placed.line.pieces);
      if (placed.line.block === "pre" && placed.length === 0 && text !== "") {
        const spot = yield* this.#typing.type(text, placeOf(placed.spot));
        placed.spot = spot ?? placed.spot;
        placed.length = spot ? text.length : 0;
      }
    }
  }

  /**
   * Pastes all lines as lines of the code that a place is in: their texts alone.
   * @param {NodePlace} at
   */
  *#pasteCode(at) {
    const formats = new Map();
    const pieces = this.#lines.flatMap((line, index) => [
      ...(index > 0 ? [/** @type {Piece} */ ({ type: "break", formats })] : []),
      ...line.pieces.filter(({ type }) => type !== "image").map((piece) => ({ ...piece, formats })),
    ]);
    const line = { ...this.#lines[0], block: "p", pieces };
    const isDone = yield* this.#typing.typeFirst(line, at, true);
    yield* this.#inlines.makeObjects();
    return isDone;
  }

  /** Puts the caret behind what was pasted. */
  #finish() {
    const { commands, placed, view } = this.#target;
    const last = placed.at(-1);
    const { node, offset } = placeOf(last ? this.#target.endOf(last) : this.#target.caretSpot());
    const point = view.point(node, offset);
    if (point) {
      commands.select({ anchor: point, focus: point });
    }
  }
}
