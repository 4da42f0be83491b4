/**
 * Nodes of a page and places in them, for region.js: where a node stands among others, and what is
 * at a start, at an end or in a part that can't be edited.
 */
import { isCharacters, isElement, isText, windowOf } from "./region_nodes.js";

/** @typedef {{ node: Node, offset: number }} NodePlace */

/** @param {Node} node */
export function indexOf(node) {
  let index = 0;
  for (let at = node.previousSibling; at; at = at.previousSibling) {
    index += 1;
  }
  return index;
}

/** @param {Node} node */
export function elementOf(node) {
  return isElement(node) ? node : /** @type {HTMLElement} */ (node.parentElement);
}

/**
 * Whether a node shows nothing, and stands in no one's way.
 * @param {Node | null} node
 */
export function isEmpty(node) {
  return node !== null && isCharacters(node) && (!isText(node) || node.length === 0);
}

/**
 * Whether a place is a start of its node.
 * @param {NodePlace} place
 */
export function isStart({ node, offset }) {
  return isText(node) ? offset === 0 : [...node.childNodes].slice(0, offset).every(isEmpty);
}

/**
 * Whether a place is an end of its node.
 * @param {NodePlace} place
 */
export function isEnd({ node, offset }) {
  return isText(node) ? offset === node.length : [...node.childNodes].slice(offset).every(isEmpty);
}

/**
 * Whether a place in an element is at the element's start.
 * @param {Node} element
 * @param {NodePlace} place
 */
export function isStartOf(element, place) {
  let { node, offset } = place;
  while (node !== element && isStart({ node, offset })) {
    offset = indexOf(node);
    node = /** @type {Node} */ (node.parentNode);
  }
  return node === element && isStart({ node, offset });
}

/**
 * Whether blanks at the ends of its lines aren't shown.
 * @param {Text} text
 */
export function isCollapsing(text) {
  const { whiteSpace } = windowOf(text).getComputedStyle(elementOf(text));
  return /^(normal|nowrap|pre-line)$/.test(whiteSpace);
}

/**
 * The first node of all below a node, or it itself.
 * @param {Node} node
 */
export function firstLeaf(node) {
  let at = node;
  while (at.firstChild) {
    at = at.firstChild;
  }
  return at;
}

/**
 * The last node of all below a node, or it itself.
 * @param {Node} node
 */
export function lastLeaf(node) {
  let at = node;
  while (at.lastChild) {
    at = at.lastChild;
  }
  return at;
}

/**
 * The first node without children behind a node, in the order of the page; null where there is none
 * below the root.
 * @param {Node} node
 * @param {Node} root
 */
export function leafAfter(node, root) {
  let at = node;
  while (at !== root && !at.nextSibling) {
    at = /** @type {Node} */ (at.parentNode);
  }
  return at === root ? null : firstLeaf(/** @type {Node} */ (at.nextSibling));
}

/**
 * The last node without children before a node, in the order of the page; null where there is none
 * below the root.
 * @param {Node} node
 * @param {Node} root
 */
export function leafBefore(node, root) {
  let at = node;
  while (at !== root && !at.previousSibling) {
    at = /** @type {Node} */ (at.parentNode);
  }
  return at === root ? null : lastLeaf(/** @type {Node} */ (at.previousSibling));
}

/**
 * The part that can't be edited and that a node stands in, as a whole; null where the node can be
 * edited, or nothing around the part can.
 * @param {Node} node
 * @param {Node} root
 */
export function lockedPart(node, root) {
  let at = elementOf(node);
  if (at.isContentEditable || !root.contains(at)) {
    return null;
  }
  while (at !== root && !elementOf(/** @type {Node} */ (at.parentNode)).isContentEditable) {
    at = elementOf(/** @type {Node} */ (at.parentNode));
  }
  return at === root ? null : at;
}
