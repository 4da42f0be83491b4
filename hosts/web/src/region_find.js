/** What a region finds in its texts, for region.js. */
import { isBlock, isText } from "./region_nodes.js";
import { VOIDS } from "./shown.js";

/** @typedef {import("./hedit.js").Point} Point */
/** @typedef {import("./hedit.js").Selection} Selection */
/** @typedef {import("./region_view.js").View} View */

/**
 * How a text is found.
 * @typedef {object} FindOptions
 * @property {boolean} [matchCase] Whether capital letters differ from small ones. Default: false.
 * @property {boolean} [across] Whether a place may go over the end of a format or a link, as where half a
 *   word is bold. Default: true.
 */

/** @typedef {{ readonly node: Text, readonly start: number }} Part */

/**
 * Texts that are searched as one, with the units at which each begins.
 * @typedef {{ text: string, parts: Part[] }} Line
 */

const SHOW_ELEMENTS_AND_TEXTS = 0x1 | 0x4;

/**
 * The lines of a view: texts without a block, a line break or an image between them.
 * @param {View} view
 * @param {boolean} across whether a line has more than one text
 * @returns {Line[]}
 */
function linesOf(view, across) {
  const page = view.element.ownerDocument;
  const walker = page.createTreeWalker(view.element, SHOW_ELEMENTS_AND_TEXTS);
  /** @type {Line[]} */
  const lines = [];
  /** @type {Node | null} */
  let block = null;
  for (let node = walker.nextNode(); node; node = walker.nextNode()) {
    if (!isText(node)) {
      block = isBlock(node) || VOIDS.has(view.nameOf(node)) ? null : block;
    } else if (node.length > 0 && view.label(node) !== undefined) {
      const around = view.blockOf(node);
      if (!across || around !== block) {
        lines.push({ text: "", parts: [] });
      }
      block = around;
      const line = /** @type {Line} */ (lines.at(-1));
      line.parts.push({ node, start: line.text.length });
      line.text += node.data;
    }
  }
  return lines;
}

/**
 * A text as it is compared, and the unit of the text that each unit of that comes from. A space that
 * doesn't break is one, since the engine makes these of others.
 * @param {string} text
 * @param {boolean} matchCase
 * @returns {{ folded: string, unitAt: (unit: number) => number }}
 */
function fold(text, matchCase) {
  const spaced = text.replaceAll("\u00a0", " ");
  const folded = matchCase ? spaced : spaced.toLowerCase();
  if (folded.length === text.length) {
    return { folded, unitAt: (unit) => unit };
  }
  // As of a capital I with a dot, which is longer as a small letter.
  /** @type {number[]} */
  const units = [];
  let from = 0;
  for (const character of spaced) {
    units.push(...Array.from(character.toLowerCase(), () => from));
    from += character.length;
  }
  return { folded, unitAt: (unit) => units[unit] ?? text.length };
}

/**
 * The point of a unit of a line: where two texts meet, in the one that it is the start of, or the end.
 * @param {View} view
 * @param {Line} line
 * @param {number} unit
 * @param {boolean} isStart
 */
function pointIn(view, { parts }, unit, isStart) {
  const isBefore = (/** @type {Part} */ { start }) => (isStart ? start <= unit : start < unit);
  const { node, start } = parts.filter(isBefore).at(-1) ?? parts[0];
  return /** @type {Point} */ (view.point(node, unit - start));
}

/**
 * Where a text occurs in a view, in the order of the page. The places don't overlap.
 * @param {View} view
 * @param {string} text
 * @param {FindOptions} options
 * @returns {Selection[]}
 */
export function find(view, text, { matchCase = false, across = true } = {}) {
  const { folded: wanted } = fold(text, matchCase);
  if (wanted === "") {
    return [];
  }
  return linesOf(view, across).flatMap((line) => {
    const { folded, unitAt } = fold(line.text, matchCase);
    /** @type {Selection[]} */
    const found = [];
    let at = folded.indexOf(wanted);
    while (at >= 0) {
      const end = at + wanted.length;
      const anchor = pointIn(view, line, unitAt(at), true);
      found.push({ anchor, focus: pointIn(view, line, unitAt(end), false) });
      at = folded.indexOf(wanted, end);
    }
    return found;
  });
}
