/**
 * Spots of pasted text in the page, for rich paste. A spot keeps to a leaf, a node without children, so
 * that it stays where commands put other elements around that.
 */
import { isCharacters, isElement, isText } from "./region_nodes.js";
import { firstLeaf, indexOf, lastLeaf, leafAfter, leafBefore } from "./region_places.js";

/** @typedef {import("./region_places.js").NodePlace} NodePlace */

/** @typedef {{ leaf: Node, offset: number }} Spot an offset in a text, or 0 before and 1 behind others */

/**
 * How much of a line a leaf is: the units of a text, and one for an image or a break.
 * @param {Node} leaf
 */
export const lengthOf = (leaf) => (isText(leaf) ? leaf.length : isElement(leaf) ? 1 : 0);

/**
 * The next leaf of some length behind a leaf; null where there is none.
 * @param {Node} leaf
 * @param {Node} root
 */
export function nextLeaf(leaf, root) {
  let at = leafAfter(leaf, root);
  while (at && lengthOf(at) === 0) {
    at = leafAfter(at, root);
  }
  return at;
}

/**
 * The place of a spot.
 * @param {Spot} spot
 * @returns {NodePlace}
 */
export function placeOf({ leaf, offset }) {
  return isCharacters(leaf)
    ? { node: leaf, offset }
    : { node: /** @type {Node} */ (leaf.parentNode), offset: indexOf(leaf) + offset };
}

/**
 * The spot of a place; null where there is no leaf.
 * @param {NodePlace} place
 * @returns {Spot | null}
 */
export function spotOf({ node, offset }) {
  const child = node.childNodes[offset];
  if (isCharacters(node) || (!child && offset === 0)) {
    return isCharacters(node) ? { leaf: node, offset } : null;
  }
  const leaf = child ? firstLeaf(child) : lastLeaf(node.childNodes[offset - 1]);
  return { leaf, offset: child ? 0 : lengthOf(leaf) };
}

/**
 * The spot that stands so many units behind another one, at the end of the leaf before it.
 * @param {Spot} from
 * @param {number} distance
 * @param {Node} root
 * @returns {Spot}
 */
export function endAfter({ leaf, offset }, distance, root) {
  let [at, rest] = [leaf, offset + distance];
  while (rest > lengthOf(at)) {
    const next = leafAfter(at, root);
    if (!next) {
      return { leaf: at, offset: lengthOf(at) };
    }
    rest -= lengthOf(at);
    at = next;
  }
  return { leaf: at, offset: rest };
}

/**
 * The same spot, at the start of the leaf behind it where it is at the end of one.
 * @param {Spot} spot
 * @param {Node} root
 * @returns {Spot}
 */
export function startAt(spot, root) {
  let { leaf, offset } = spot;
  while (offset === lengthOf(leaf)) {
    const next = leafAfter(leaf, root);
    if (!next) {
      return spot;
    }
    [leaf, offset] = [next, 0];
  }
  return { leaf, offset };
}

/**
 * Whether a leaf shows something: a text that has more than blanks between tags, an image, or a break
 * that isn't the last of its line.
 * @param {Node} leaf
 * @param {boolean} isBefore whether breaks count
 */
function isSeen(leaf, isBefore) {
  if (isText(leaf)) {
    return !/^[\t\n\f\r ]*$/.test(leaf.data) || (leaf.length > 0 && !/\n/.test(leaf.data));
  }
  return isElement(leaf) && (isBefore || leaf.localName !== "br");
}

/**
 * Whether something shows in the block of a place before it, or behind it.
 * @param {NodePlace} place
 * @param {boolean} isBefore
 * @param {{ root: Node, blockOf: (node: Node) => Node }} view
 */
export function isBeside(place, isBefore, { root, blockOf }) {
  const spot = spotOf(place);
  if (!spot) {
    return false;
  }
  const { leaf, offset } = spot;
  const block = blockOf(place.node);
  const isWithin = isText(leaf) && leaf.data.slice(...(isBefore ? [0, offset] : [offset])) !== "";
  if (isWithin) {
    return true;
  }
  const isPassed = isBefore ? offset > 0 : offset < lengthOf(leaf);
  const step = isBefore ? leafBefore : leafAfter;
  let at = isPassed && !isCharacters(leaf) ? leaf : step(leaf, root);
  while (at && at !== root && blockOf(at) === block) {
    if (isSeen(at, isBefore)) {
      return true;
    }
    at = step(at, root);
  }
  return false;
}
