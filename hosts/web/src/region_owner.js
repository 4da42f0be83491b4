/** Which element has which region, for region.js: also of another copy of these modules. */
import { BadArgument } from "./hedit.js";
import { isElement } from "./region_nodes.js";

/** @typedef {import("./region.js").Region} Region */

const KEY = Symbol.for("hedit.region");

/**
 * The region of an element; null where it has none.
 * @param {Node} element
 * @returns {Region | null}
 */
export function regionOf(element) {
  return /** @type {any} */ (element)[KEY] ?? null;
}

/**
 * The first region of an element, of what stands in it or of what it stands in.
 * @param {Element} element
 */
function regionBeside(element) {
  const within = [element, ...element.querySelectorAll("*")].find(regionOf);
  /** @type {Node | null} */
  let at = within ?? element.parentNode;
  while (at && !regionOf(at)) {
    at = at.parentNode ?? /** @type {Partial<ShadowRoot>} */ (at).host ?? null;
  }
  return at && isElement(at) ? at : null;
}

/**
 * Gives an element its region. Two would each undo what the other shows.
 * @param {HTMLElement} element
 * @param {Region} region
 */
export function own(element, region) {
  if (regionBeside(element)) {
    throw new BadArgument("there is a region already, at the element, around it or in it");
  }
  Object.defineProperty(element, KEY, { value: region, configurable: true });
}

/** @param {HTMLElement} element */
export function disown(element) {
  delete (/** @type {any} */ (element)[KEY]);
}
