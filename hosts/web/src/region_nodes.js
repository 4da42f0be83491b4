/**
 * Nodes of a page, of whatever window, and texts in them, for region.js. A node of a frame is none of
 * this window's classes, so that it is known by its type.
 */
import { isBlockName } from "./shown.js";

/** @typedef {import("./hedit.js").Point} Point */
/** @typedef {import("./hedit.js").Selection} Selection */

const ELEMENT = 1;

const TEXT = 3;

const COMMENT = 8;

/**
 * The window that a node's document is shown in.
 * @param {Node} node
 */
export function windowOf(node) {
  return node.ownerDocument?.defaultView ?? window;
}

/**
 * @param {Node | null | undefined} node
 * @returns {node is HTMLElement}
 */
export function isElement(node) {
  return node?.nodeType === ELEMENT;
}

/**
 * @param {Node | null | undefined} node
 * @returns {node is Text}
 */
export function isText(node) {
  return node?.nodeType === TEXT;
}

/**
 * @param {Node} node
 * @returns {node is CharacterData}
 */
export function isCharacters(node) {
  return node.nodeType === TEXT || node.nodeType === COMMENT;
}

/**
 * Whether a node holds lines. A placeholder does where what it stands for does.
 * @param {Node} node
 */
export function isBlock(node) {
  return isElement(node) && isBlockName(node.localName);
}

/**
 * @param {Point} left
 * @param {Point} right
 */
function isSamePoint(left, right) {
  return left.label === right.label && left.offset === right.offset;
}

/**
 * @param {Selection | null} left
 * @param {Selection | null} right
 */
export function isSame(left, right) {
  return left && right
    ? isSamePoint(left.anchor, right.anchor) && isSamePoint(left.focus, right.focus)
    : left === right;
}

/** @param {Selection | null} selection */
export function isCaret(selection) {
  return selection !== null && isSamePoint(selection.anchor, selection.focus);
}

/**
 * Whether a unit of a text is in the middle of a character.
 * @param {string} text
 * @param {number} at
 */
export function isInside(text, at) {
  return at > 0 && at < text.length && /** @type {number} */ (text.codePointAt(at - 1)) > 0xffff;
}

/**
 * What of a text gives way to what, in units: `end` is in the old text. What is alike up to the end
 * is taken first, but no more than the last `tail` units of the new text.
 * @param {string} old
 * @param {string} text
 * @param {number} tail
 */
export function difference(old, text, tail = Math.min(old.length, text.length)) {
  let same = 0;
  const most = Math.min(tail, old.length);
  while (same < most && old[old.length - 1 - same] === text[text.length - 1 - same]) {
    same += 1;
  }
  same -= Number(isInside(old, old.length - same) || isInside(text, text.length - same));
  let start = 0;
  const least = Math.min(old.length, text.length) - same;
  while (start < least && old[start] === text[start]) {
    start += 1;
  }
  start -= Number(isInside(old, start) || isInside(text, start));
  return { start, end: old.length - same, put: text.slice(start, text.length - same) };
}
