/**
 * Texts. The engine has UTF-8 and counts code points. Only this module counts UTF-16 units.
 */

import { BadArgument, BadPlace } from "./hedit_errors.js";

/**
 * A text; bytes are its UTF-8.
 * @typedef {string | Uint8Array} Text
 */

const ENCODER = new TextEncoder();

export const DECODER = new TextDecoder("utf-8", { fatal: true, ignoreBOM: true });

/**
 * Returns whether a text has half of a surrogate pair.
 * @param {string} text
 */
function hasHalf(text) {
  // Some browsers don't have `isWellFormed` yet.
  const { isWellFormed } = /** @type {{ isWellFormed?: () => boolean }} */ (String.prototype);
  return isWellFormed ? !isWellFormed.call(text) : /\p{Surrogate}/u.test(text);
}

/**
 * @param {Text} text
 * @returns {Uint8Array}
 */
export function bytesOf(text) {
  if (text instanceof Uint8Array) {
    return text;
  }
  if (typeof text !== "string") {
    throw new TypeError(`a text is a string or a Uint8Array, and not ${typeof text}`);
  }
  if (hasHalf(text)) {
    throw new BadArgument("the text has half of a surrogate pair");
  }
  return ENCODER.encode(text);
}

/**
 * Returns how many UTF-16 units the complete characters in the first bytes of a text have.
 * @param {Uint8Array} bytes
 * @param {number} count
 */
export function unitsInBytes(bytes, count) {
  return new TextDecoder("utf-8", { ignoreBOM: true }).decode(bytes.subarray(0, count), {
    stream: true,
  }).length;
}

/**
 * Returns how many UTF-16 units the character at a unit of a text has.
 * @param {string} text
 * @param {number} at
 */
function width(text, at) {
  return /** @type {number} */ (text.codePointAt(at)) > 0xffff ? 2 : 1;
}

/**
 * Converts an offset in a text node from UTF-16 units to characters, which the engine counts. Throws
 * BadPlace if the text has no such offset between two characters.
 * @param {string} text the text node's text
 * @param {number} units
 */
export function toCharacters(text, units) {
  let at = 0;
  let characters = 0;
  while (at < units && at < text.length) {
    at += width(text, at);
    characters += 1;
  }
  if (at !== units) {
    throw new BadPlace();
  }
  return characters;
}

/**
 * Converts an offset in a text node from characters to UTF-16 units, which the DOM counts. Throws
 * BadPlace if the text has no such offset.
 * @param {string} text the text node's text
 * @param {number} characters
 */
export function toUnits(text, characters) {
  let at = 0;
  let passed = 0;
  while (passed < characters && at < text.length) {
    at += width(text, at);
    passed += 1;
  }
  if (passed !== characters) {
    throw new BadPlace();
  }
  return at;
}
