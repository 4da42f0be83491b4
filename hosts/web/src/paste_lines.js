/**
 * Reads a cleaned fragment as lines, for rich paste: what commands of the engine can make of it, and
 * what they can't.
 */
import { wellFormed } from "./clean_read.js";
import { CLEAN_BLOCKS, isElement, namesOf } from "./clean_tree.js";
import { NO_FORMATS, chosen, formatsIn, styleOf } from "./paste_formats.js";

/** @typedef {import("./clean_tree.js").CleanElement} CleanElement */
/** @typedef {import("./clean_tree.js").CleanNode} CleanNode */
/** @typedef {import("./paste_formats.js").Formats} Formats */

/**
 * A part of a line: a text in formats, an image, which may be a link, or a line break.
 * @typedef {{ readonly formats: Formats } & ({ readonly type: "text", readonly text: string }
 *   | { readonly type: "image", readonly src: string }
 *   | { readonly type: "break" })} Piece
 */

/**
 * A line: the name of its block, the quotations and lists around it, from the outermost, its
 * alignment, and its pieces. `rules` are those before it: in how many quotations each is.
 * @typedef {{
 *   block: string,
 *   quotes: number,
 *   lists: readonly ("ul" | "ol")[],
 *   align: string,
 *   rules: readonly number[],
 *   pieces: Piece[],
 * }} Line
 */

/**
 * What commands can't make, and a paste loses:
 * - `table`: a row becomes a line; `definitions`: a term becomes a line, and its text a quotation;
 * - `quotation`: one in a list item; `code`: within a line, where it becomes a font;
 * - `alt`, `size`: those of images; `numbering`: the start, the kind or the order of a list;
 * - `class`, `dir`, `lang`, `title`: these attributes;
 * - `locked`: what can't be edited, and could be afterwards;
 * - `denied`: formats and blocks whose commands are denied;
 * - `other`: what cleaning leaves out of what a region itself has.
 * @typedef {"table" | "definitions" | "quotation" | "code" | "alt" | "size" | "numbering" | "class"
 *   | "dir" | "lang" | "title" | "locked" | "denied" | "other"} Lost
 */

/**
 * How rich text is pasted and dropped.
 * @typedef {object} PasteOptions
 * @property {(lost: ReadonlySet<Lost>) => "rich" | "plain" | "refuse"} [lossy] Says what is done where
 *   commands can't make all: by default what they can make is pasted.
 */

/** @typedef {{ lines: Line[], lost: Set<Lost> }} Fragment */

/** The blocks that `formatBlock` makes. */
const FORMATTED = namesOf("address h1 h2 h3 h4 h5 h6 pre");

/** Blocks that show a line even where nothing is in them. */
const SHOWN = namesOf("dd dt h1 h2 h3 h4 h5 h6 li p pre");

/** @type {ReadonlyMap<string, Lost>} */
const LOST_ATTRIBUTES = new Map([
  ["alt", "alt"],
  ["width", "size"],
  ["height", "size"],
  ["start", "numbering"],
  ["type", "numbering"],
  ["reversed", "numbering"],
  ["value", "numbering"],
  ["class", "class"],
  ["dir", "dir"],
  ["lang", "lang"],
  ["title", "title"],
  ["contenteditable", "locked"],
]);

/** What a margin of a quotation has, in pixels, and the least that counts as one. */
const INDENT = 48;

const LEAST_INDENT = 30;

const MOST_INDENTS = 5;

/** What stands between the cells of a row. */
const CELL_GAP = " \u00a0 ";

/**
 * Where a node is: the line that it would be in, the list item around it, and the formats of its text.
 * @typedef {object} Place
 * @property {string} block
 * @property {number} quotes
 * @property {readonly ("ul" | "ol")[]} lists
 * @property {string} align
 * @property {CleanElement | null} item
 * @property {Formats} formats
 */

/** @type {Place} */
const START = { block: "p", quotes: 0, lists: [], align: "", item: null, formats: NO_FORMATS };

/**
 * How many quotations a margin comes to, as mails of Outlook and documents of Word have it.
 * @param {string | undefined} margin
 */
function indentsOf(margin) {
  const pixels = parseInt(margin ?? "", 10);
  return pixels >= LEAST_INDENT ? Math.min(MOST_INDENTS, Math.round(pixels / INDENT) || 1) : 0;
}

/**
 * @param {string} align
 * @param {string} around
 */
function alignOf(align, around) {
  const side = { start: "left", end: "right" }[align] ?? align;
  return side === "left" ? "" : side || around;
}

/**
 * Whether a piece shows nothing at the end of a row.
 * @param {Piece | undefined} piece
 */
const isGap = (piece) =>
  piece?.type === "break" || (piece?.type === "text" && piece.text === CELL_GAP);

/** @param {Line} line */
const isHeading = ({ block }) => /^h[1-6]$/.test(block);

/** Reads the nodes of a fragment. */
class LineReader {
  /** @type {Line[]} */
  lines = [];

  /** @type {Set<Lost>} */
  lost = new Set();

  #isOwn;

  #isDenied;

  /** @type {Line | null} */
  #line = null;

  /**
   * The item that the last line is in.
   * @type {CleanElement | null}
   */
  #item = null;

  /**
   * The rules since the last line.
   * @type {number[]}
   */
  #rules = [];

  /**
   * How many pieces the line had where the cell begins that is read; null outside of cells. Lines of a
   * cell are joined by breaks.
   * @type {number | null}
   */
  #cell = null;

  /**
   * @param {boolean} isOwn
   * @param {(command: string) => boolean} isDenied
   */
  constructor(isOwn, isDenied) {
    this.#isOwn = isOwn;
    this.#isDenied = isDenied;
  }

  /**
   * Whether a command may be executed. If it may not, what it would make is lost.
   * @param {string} command
   */
  #may(command) {
    const isDenied = this.#isDenied(command);
    if (isDenied) {
      this.lost.add("denied");
    }
    return !isDenied;
  }

  /**
   * @param {readonly CleanNode[]} nodes
   * @param {Place} place
   */
  read(nodes, place) {
    for (const node of nodes) {
      if (!isElement(node)) {
        this.#text(node, place);
      } else {
        this.#loses(node);
        this.#element(node, place);
      }
    }
  }

  /** @param {CleanElement} element */
  #loses({ name, attributes }) {
    for (const [attribute, value] of attributes) {
      const lost = LOST_ATTRIBUTES.get(attribute);
      if (lost && value !== "") {
        this.lost.add(lost);
      }
    }
    if (name === "table") {
      this.lost.add("table");
    }
  }

  /**
   * @param {CleanElement} element
   * @param {Place} place
   */
  #element(element, place) {
    switch (element.name) {
      case "br":
        this.#put({ type: "break", formats: place.formats }, place);
        break;
      case "img":
        this.#image(element, place);
        break;
      case "hr":
        this.#rule(place);
        break;
      case "q":
        this.read(["“", ...element.children, "”"], place);
        break;
      case "tr":
        this.#row(element, place);
        break;
      case "wbr":
      case "colgroup":
        break;
      default:
        if (CLEAN_BLOCKS.has(element.name)) {
          this.#block(element, place);
        } else {
          this.#inline(element, place);
        }
    }
  }

  /**
   * @param {CleanElement} element
   * @param {Place} place
   */
  #inline(element, place) {
    if (/^(?:code|kbd|samp)$/.test(element.name)) {
      if (place.block === "pre") {
        this.read(element.children, place);
        return;
      }
      this.lost.add("code");
    }
    this.read(element.children, { ...place, formats: formatsIn(element, place.formats) });
  }

  /**
   * @param {CleanElement} element
   * @param {Place} place
   */
  #image({ attributes }, place) {
    const src = attributes.find(([name]) => name === "src")?.[1];
    if (src !== undefined && this.#may("insertImage")) {
      this.#put({ type: "image", src, formats: place.formats }, place);
    }
  }

  /** @param {Place} place */
  #rule({ quotes }) {
    if (this.#cell === null && this.#may("insertHorizontalRule")) {
      this.#line = null;
      this.#rules.push(quotes);
    }
  }

  /**
   * @param {string} text
   * @param {Place} place
   */
  #text(text, place) {
    const { formats } = place;
    const lines = place.block === "pre" ? text.split("\n") : [text];
    for (const [index, part] of lines.entries()) {
      if (index > 0) {
        this.#put({ type: "break", formats }, place);
      }
      if (part !== "") {
        this.#put({ type: "text", text: part, formats }, place);
      }
    }
  }

  /**
   * Puts a piece into the line, or into a new one.
   * @param {Piece} piece
   * @param {Place} place
   */
  #put(piece, place) {
    const { pieces, ...line } = this.#open(place);
    const { isOwn, isDenied } = { isOwn: this.#isOwn, isDenied: this.#isDenied };
    const formats = chosen(piece.formats, { isOwn, isHeading: isHeading({ pieces, ...line }) });
    const allowed = [...formats].filter(([command]) => !isDenied(command));
    if (allowed.length < formats.size) {
      this.lost.add("denied");
    }
    pieces.push({ ...piece, formats: allowed.length > 0 ? new Map(allowed) : NO_FORMATS });
  }

  /**
   * The line that a place is in. A further paragraph of an item goes on behind a break.
   * @param {Place} place
   * @returns {Line}
   */
  #open({ block, quotes, lists, align, item }) {
    const last = this.lines.at(-1);
    if (this.#line) {
      return this.#line;
    }
    const isInItem = item !== null && item === this.#item && this.#rules.length === 0;
    if (last && (this.#cell !== null || (isInItem && last.block === block))) {
      if (last.pieces.length !== this.#cell) {
        last.pieces.push({ type: "break", formats: NO_FORMATS });
      }
      this.#line = last;
      return last;
    }
    this.#line = { block, quotes, lists, align, rules: this.#rules, pieces: [] };
    this.#rules = [];
    this.#item = item;
    this.lines.push(this.#line);
    return this.#line;
  }

  /**
   * @param {CleanElement} element
   * @param {Place} place
   */
  #block(element, place) {
    const inner = this.#within(element, place);
    const before = this.lines.length;
    this.#line = null;
    this.read(element.children, inner);
    if (SHOWN.has(element.name) && this.lines.length === before && this.#cell === null) {
      this.#open(inner);
    }
    this.#line = null;
  }

  /**
   * The place of what is in a block.
   * @param {CleanElement} element
   * @param {Place} place
   * @returns {Place}
   */
  #within(element, place) {
    const { name } = element;
    const style = styleOf(element);
    const formats = formatsIn(element, place.formats);
    const align = this.#alignIn(style.get("text-align") ?? "", place.align);
    const quotes = place.quotes + this.#quotesOf(name, style, place);
    const inner = { ...place, formats, align, quotes };
    if (name === "ul" || name === "ol") {
      return { ...inner, lists: this.#listsIn(name, place.lists), item: null };
    }
    if (name === "li") {
      return { ...inner, item: element };
    }
    const isFormatted = FORMATTED.has(name) && this.#may("formatBlock");
    return isFormatted ? { ...inner, block: name } : inner;
  }

  /**
   * @param {string} said
   * @param {string} around
   */
  #alignIn(said, around) {
    const align = alignOf(said, around);
    return align === around || this.#may(`justify${align === "justify" ? "full" : align || "left"}`)
      ? align
      : around;
  }

  /**
   * How many quotations a block adds. In a list there can't be one.
   * @param {string} name
   * @param {ReadonlyMap<string, string>} style
   * @param {Place} place
   */
  #quotesOf(name, style, { lists }) {
    const isQuote = name === "blockquote" || name === "dd";
    const margin = name === "p" || name === "div" ? indentsOf(style.get("margin-left")) : 0;
    const count = isQuote ? 1 : margin;
    if (name === "dd" || name === "dt") {
      this.lost.add("definitions");
    }
    if (count === 0 || lists.length > 0) {
      if (isQuote && lists.length > 0) {
        this.lost.add("quotation");
      }
      return 0;
    }
    return this.#may("indent") ? count : 0;
  }

  /**
   * @param {"ul" | "ol"} name
   * @param {readonly ("ul" | "ol")[]} around
   * @returns {readonly ("ul" | "ol")[]}
   */
  #listsIn(name, around) {
    const command = name === "ul" ? "insertUnorderedList" : "insertOrderedList";
    return this.#may(command) && (around.length === 0 || this.#may("indent"))
      ? [...around, name]
      : around;
  }

  /**
   * A row is a line, with a gap between its cells. Lines in a cell are parted by breaks.
   * @param {CleanElement} row
   * @param {Place} place
   */
  #row(row, place) {
    const start = { ...place, item: null };
    this.#line = null;
    const around = this.#cell;
    for (const [index, cell] of row.children.filter(isElement).entries()) {
      this.#loses(cell);
      const inner = { ...start, formats: formatsIn(cell, place.formats) };
      if (index > 0) {
        this.#put({ type: "text", text: CELL_GAP, formats: NO_FORMATS }, inner);
      }
      const line = this.#open(inner);
      this.#cell = line.pieces.length;
      this.read(cell.children, inner);
      this.#cell = around;
      this.#line = line;
    }
    while (isGap(this.#line?.pieces.at(-1))) {
      this.#line?.pieces.pop();
    }
    this.#line = null;
  }

  /** Ends the last line: rules at the end stand before an empty one. */
  end() {
    if (this.#rules.length > 0) {
      this.#line = null;
      this.#item = null;
      this.#open(START);
    }
  }
}

/**
 * Whether two maps are alike.
 * @param {Formats} left
 * @param {Formats} right
 */
const isAlike = (left, right) =>
  left.size === right.size && [...left].every(([command, value]) => right.get(command) === value);

/**
 * Joins texts in the same formats, and drops a break at the end of a line, which shows nothing.
 * @param {Line} line
 * @returns {Line}
 */
function tidied(line) {
  /** @type {Piece[]} */
  const pieces = [];
  for (const piece of line.pieces) {
    const last = pieces.at(-1);
    if (last?.type === "text" && piece.type === "text" && isAlike(last.formats, piece.formats)) {
      pieces[pieces.length - 1] = { ...last, text: last.text + piece.text };
    } else {
      pieces.push(piece);
    }
  }
  if (pieces.at(-1)?.type === "break") {
    pieces.pop();
  }
  // An empty heading shows no more than an empty paragraph does.
  return { ...line, pieces, block: pieces.length === 0 ? "p" : line.block };
}

/**
 * Joins lines of code that follow each other.
 * @param {readonly Line[]} lines
 * @returns {Line[]}
 */
function joined(lines) {
  /** @type {Line[]} */
  const kept = [];
  for (const line of lines) {
    const last = kept.at(-1);
    const areCode = last?.block === "pre" && line.block === "pre" && line.rules.length === 0;
    if (areCode && last.quotes === line.quotes && last.lists.length + line.lists.length === 0) {
      last.pieces.push({ type: "break", formats: NO_FORMATS }, ...line.pieces);
    } else {
      kept.push(line);
    }
  }
  return kept;
}

/**
 * Reads a cleaned fragment.
 * @param {readonly CleanNode[]} nodes
 * @param {object} from
 * @param {boolean} [from.isOwn] whether it was copied within a region, so that each format was chosen
 * @param {(command: string) => boolean} [from.isDenied]
 * @returns {Fragment}
 */
export function readLines(nodes, { isOwn = false, isDenied = () => false } = {}) {
  const reader = new LineReader(isOwn, isDenied);
  reader.read(nodes, START);
  reader.end();
  return { lines: joined(reader.lines.map(tidied)), lost: reader.lost };
}

/** @type {Omit<Line, "pieces">} */
const PLAIN = { block: "p", quotes: 0, lists: [], align: "", rules: [] };

/**
 * The lines of a plain text.
 * @param {string} text
 * @returns {Line[]}
 */
export function linesOfText(text) {
  return wellFormed(text).split("\n").map((line) => {
    /** @type {Piece} */
    const piece = { type: "text", text: line, formats: NO_FORMATS };
    return { ...PLAIN, pieces: line === "" ? [] : [piece] };
  });
}

/**
 * The plain text of lines.
 * @param {readonly Line[]} lines
 */
export function textOfLines(lines) {
  const textOf = (/** @type {Piece} */ piece) =>
    piece.type === "text" ? piece.text : piece.type === "break" ? "\n" : "";
  return lines.map(({ pieces }) => pieces.map(textOf).join("")).join("\n");
}
