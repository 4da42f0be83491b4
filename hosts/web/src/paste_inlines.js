/** Makes the images, the line breaks and the formats of lines that were typed, for rich paste. */
import { isText } from "./region_nodes.js";
import { leafAfter, leafBefore } from "./region_places.js";
import { endAfter, spotOf, startAt } from "./paste_spots.js";
import { MOST_LINES, runsOf } from "./paste_target.js";

/** @typedef {import("./paste_lines.js").Piece} Piece */
/** @typedef {import("./paste_spots.js").Spot} Spot */
/** @typedef {import("./paste_target.js").PasteTarget} PasteTarget */
/** @typedef {import("./paste_target.js").Placed} Placed */
/** @typedef {import("./paste_target.js").Run} Run */
/** @typedef {import("./paste_typing.js").LineTyping} LineTyping */

/**
 * A piece that is in the page, from one unit of its line on and before another. `index` is the number of
 * the line.
 * @typedef {{ piece: Piece, placed: Placed, index: number, from: number, to: number }} Part
 */

/** Formats, from the one whose element is the innermost. */
const FORMATS = [
  "bold",
  "italic",
  "strikethrough",
  "underline",
  "subscript",
  "superscript",
  "fontName",
  "fontSize",
  "foreColor",
  "hiliteColor",
  "createLink",
];

/** Those of them that a second time takes away again. */
const TOGGLES = new Set(FORMATS.slice(0, FORMATS.indexOf("fontName")));

/** @param {Piece} piece */
const sizeOf = (piece) => (piece.type === "text" ? piece.text.length : 1);

/** Makes what is in the lines of a paste beside plain text. */
export class LineInlines {
  #target;

  #typing;

  /**
   * @param {PasteTarget} target
   * @param {LineTyping} typing
   */
  constructor(target, typing) {
    this.#target = target;
    this.#typing = typing;
  }

  /** Inserts images and line breaks, of each line the last one first, as text stands behind breaks then. */
  *makeObjects() {
    for (const placed of this.#target.placed) {
      let units = placed.length;
      for (const piece of [...placed.line.pieces].reverse()) {
        if (piece.type === "text") {
          units -= piece.text.length;
        } else {
          yield* this.#makeObject(placed, piece, units);
        }
      }
      placed.length = placed.line.pieces.reduce((sum, piece) => sum + sizeOf(piece), 0);
    }
  }

  /**
   * @param {Placed} placed
   * @param {Piece} piece
   * @param {number} units
   */
  *#makeObject(placed, piece, units) {
    const { leaf, offset } = placed.spot;
    const isImage = piece.type === "image";
    const [name, value] = isImage ? ["insertImage", piece.src] : ["insertLineBreak", ""];
    const spot = { leaf, offset: offset + units };
    const isDone = this.#target.exec(name, value, spot);
    yield;
    const object = isDone ? this.#objectBefore() : null;
    if (object && units === 0) {
      this.#moveStart(placed, object);
    }
    if (object && !isImage && placed.line.block !== "pre") {
      yield* this.#typing.keepBlank(leafAfter(object, this.#target.root));
    }
  }

  /** The image or the break that the caret is behind. */
  #objectBefore() {
    const caret = this.#target.caret();
    const spot = caret && spotOf(caret);
    if (!caret || !spot) {
      return null;
    }
    const isBehind = !isText(caret.node) && caret.offset > 0;
    return isBehind
      ? caret.node.childNodes[caret.offset - 1]
      : leafBefore(spot.leaf, this.#target.root);
  }

  /**
   * Has a line begin with the object that was put before its text.
   * @param {Placed} placed
   * @param {Node} object
   */
  #moveStart(placed, object) {
    const { leaf, offset } = placed.spot;
    const isBefore = object.compareDocumentPosition(leaf) & Node.DOCUMENT_POSITION_FOLLOWING;
    if (!leaf.isConnected || (isBefore && offset === 0)) {
      placed.spot = { leaf: object, offset: 0 };
    }
  }

  /** Gives the texts, and the images that are links, their formats. */
  *makeFormats() {
    const parts = this.#parts();
    const isInLink = parts.length > 0 && this.#isInLink(parts[0].placed);
    for (const name of FORMATS.filter((each) => !(isInLink && each === "createLink"))) {
      const keyOf = (/** @type {number} */ index) => this.#formatOf(parts[index].piece, name);
      const begins = (/** @type {number} */ index) =>
        parts[index].from === 0 && (name === "createLink" || parts[index].index % MOST_LINES === 0);
      yield* this.#makeFormat(name, parts, runsOf(parts.length, keyOf, begins));
    }
  }

  /**
   * The pieces of all lines.
   * @returns {Part[]}
   */
  #parts() {
    return this.#target.placed.flatMap((placed, index) => {
      let from = 0;
      return placed.line.pieces.map((piece) => {
        const to = from + sizeOf(piece);
        const part = { piece, placed, index, from, to };
        from = to;
        return part;
      });
    });
  }

  /**
   * Whether a line is in a link: `createLink` would change that.
   * @param {Placed} placed
   */
  #isInLink({ spot }) {
    const { view } = this.#target;
    return view.around(spot.leaf, (node) => view.isLink(node)) !== null;
  }

  /**
   * The value of a piece's format. Of the formats of an image only a link shows.
   * @param {Piece} piece
   * @param {string} name
   */
  #formatOf({ type, formats }, name) {
    return type === "image" && name !== "createLink" ? undefined : formats.get(name);
  }

  /**
   * Gives one format to the runs of pieces that have it.
   * @param {string} name
   * @param {readonly Part[]} parts
   * @param {readonly Run[]} runs
   */
  *#makeFormat(name, parts, runs) {
    /** @type {{ placed: Placed, at: number, spot: Spot } | null} */
    let near = null;
    for (const { from, to } of runs) {
      const [first, last] = [parts[from], parts[to - 1]];
      const isNear = near?.placed === first.placed;
      const begin = isNear && near ? near : { at: 0, spot: first.placed.spot };
      const start = this.#spotAt(begin, first.from);
      const known = first.placed === last.placed ? { at: first.from, spot: start } : null;
      const end = this.#spotAt(known ?? { at: 0, spot: last.placed.spot }, last.to);
      const value = first.piece.formats.get(name) ?? "";
      const isDone = this.#target.exec(name, value, startAt(start, this.#target.root), end);
      if (isDone && TOGGLES.has(name)) {
        this.#keepOn(name);
      }
      yield;
      near = this.#nearEnd(last.placed, last.to);
    }
  }

  /**
   * The spot of a unit of a line, from that of one before it.
   * @param {{ at: number, spot: Spot }} known
   * @param {number} units
   */
  #spotAt({ at, spot }, units) {
    return endAfter(spot, units - at, this.#target.root);
  }

  /**
   * The end of what a format was just given, which is selected.
   * @param {Placed} placed
   * @param {number} at
   */
  #nearEnd(placed, at) {
    const caret = this.#target.caret();
    const spot = caret && spotOf(caret);
    return spot && { placed, at, spot };
  }

  /**
   * A format that was there already was taken away: gives it again to what is selected.
   * @param {string} name
   */
  #keepOn(name) {
    if (!this.#target.editor.state(name)) {
      this.#target.commands.exec(name, "");
    }
  }
}
