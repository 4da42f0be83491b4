/**
 * Checks of arguments, before they are passed to the engine.
 */

import { BadArgument, BadPlace } from "./hedit_errors.js";

/**
 * Returns a number of a place: an index of a path, a label or an offset.
 * @param {number} number
 */
export function placeNumber(number) {
  if (!Number.isInteger(number)) {
    throw new TypeError(`the numbers of a place are integers, and not ${number}`);
  }
  if (number < 0 || number > 0xffff_ffff) {
    throw new BadPlace();
  }
  return number;
}

/**
 * @param {string} name
 * @param {number} value
 * @param {number} most
 */
export function limit(name, value, most) {
  if (!Number.isInteger(value) || value < 1 || value > most) {
    throw new BadArgument(`${name} is ${value}, and not an integer from 1 to ${most}`);
  }
  return value;
}

/**
 * @param {Readonly<Record<string, number>>} enumeration
 * @param {number} value
 */
export function member(enumeration, value) {
  if (!Object.values(enumeration).includes(value)) {
    throw new BadArgument();
  }
  return value;
}

/**
 * Returns how a command is executed, from options or from the names that are denied.
 * @param {import("./hedit.js").ExecOptions | Iterable<string>} options
 * @returns {import("./hedit.js").ExecOptions}
 */
export function execOptions(options) {
  const isList = typeof options !== "object" || options === null || Symbol.iterator in options;
  return /** @type {import("./hedit.js").ExecOptions} */ (isList ? { denied: options } : options);
}

/**
 * Returns names of commands as a text, separated by commas.
 * @param {Iterable<string>} names
 */
export function listOf(names) {
  const each = typeof names === "string" ? [] : [...names];
  if (typeof names === "string" || each.some((name) => typeof name !== "string")) {
    throw new TypeError("the names are several strings");
  }
  if (each.includes("")) {
    throw new BadArgument("a name of a command is empty");
  }
  return each.join(",");
}
