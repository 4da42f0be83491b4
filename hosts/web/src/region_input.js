/** The inputs of a browser, for region.js: which are the region's, and what texts they have. */

/**
 * Whether an event is of a field in the region, which the browser edits.
 * @param {Event} event
 */
export function isOfField({ target }) {
  const { localName } = /** @type {Partial<Element>} */ (target ?? {});
  return /^(?:input|select|textarea)$/.test(localName ?? "");
}

/**
 * Whether an input is the browser's own: it can't be prevented, or belongs to what an input method
 * composes.
 * @param {InputEvent} event
 */
export function isOfBrowser(event) {
  return !event.cancelable || event.isComposing || event.inputType.includes("Composition");
}

/**
 * The text that an input has.
 * @param {InputEvent} event
 */
export function textOf({ data, dataTransfer }) {
  return data ?? dataTransfer?.getData("text/plain") ?? "";
}

/**
 * The whole characters of what is typed: of one that takes two UTF-16 units, a key of Firefox gives
 * each in an input of its own.
 */
export class SurrogatePairs {
  #first = "";

  /**
   * A text with the half before it. A half at its end is kept for the next text.
   * @param {string} text
   */
  join(text) {
    const all = /^[\udc00-\udfff]/.test(text) ? this.#first + text : text;
    const isHalf = /[\ud800-\udbff]$/.test(all);
    this.#first = isHalf ? all.slice(-1) : "";
    return isHalf ? all.slice(0, -1) : all;
  }
}
