/** The keys of a region and the commands that they execute, for region.js. */
import { BadArgument } from "./hedit.js";
import { changeLevel } from "./region_levels.js";

/** @typedef {import("./region.js").Region} Region */

/**
 * The action of a key: the name of a command, or a function. If the function returns false, the browser
 * handles the key. Null turns the key off.
 * @typedef {string | null | ((region: Region) => boolean)} KeyAction
 */

/**
 * The actions of keys, by their names, such as `Mod+Shift+7`: modifiers in any order, and last the
 * character of the key or its name in KeyboardEvent. The modifiers are Mod (Command on Apple's machines, Control
 * on others), Control, Alt, Shift and Meta.
 * @typedef {Readonly<Record<string, KeyAction>>} Keymap
 */

/**
 * The keys that a region has by default. Browsers send no input for undo and redo if they have nothing
 * to undo themselves, and Firefox sends none for formats. Tab changes the level of list items.
 * @type {Keymap}
 */
export const KEYMAP = Object.freeze({
  "Mod+Z": "undo",
  "Mod+Shift+Z": "redo",
  "Mod+Y": "redo",
  "Mod+B": "bold",
  "Mod+I": "italic",
  "Mod+U": "underline",
  Tab: changeLevel("indent"),
  "Shift+Tab": changeLevel("outdent"),
});

/** The key of `KEYMAP` that is another command of the browser on Apple's machines. */
const NOT_ON_APPLE = "Mod+Y";

const MODIFIERS = ["Control", "Alt", "Shift", "Meta"];

function isApple() {
  return /^(Mac|iPhone|iPad)/.test(navigator.platform);
}

/**
 * The key of an event. WebKit on Linux knows that of Tab with Shift by its place alone.
 * @param {KeyboardEvent} event
 */
export function keyOf({ key, code }) {
  return key === "Unidentified" ? code : key;
}

/** @param {string} key */
function keyName(key) {
  return key === " " ? "Space" : key.length === 1 ? key.toUpperCase() : key;
}

/**
 * @param {ReadonlySet<string>} held
 * @param {string} key
 */
function nameOf(held, key) {
  return [...MODIFIERS.filter((modifier) => held.has(modifier)), key].join("+");
}

/**
 * The name of a key as `namesOf` writes it, with the modifiers in one order.
 * @param {string} name
 */
function canonical(name) {
  const [, modifiers = "", key = ""] = /^(?:(.+)\+)?(.+)$/.exec(name) ?? [];
  const mod = isApple() ? "Meta" : "Control";
  const given = modifiers === "" ? [] : modifiers.split("+");
  const held = given.map((modifier) => (modifier === "Mod" ? mod : modifier));
  const unknown = held.find((modifier) => !MODIFIERS.includes(modifier));
  if (unknown !== undefined || key === "" || /.\+/.test(key)) {
    throw new BadArgument(`${JSON.stringify(name)} isn't a key, as "Mod+Shift+7" is`);
  }
  return nameOf(new Set(held), keyName(key));
}

/**
 * The character that a key has by its place, where what it types isn't known by that name: on a
 * keyboard of another script, of a digit with Shift, or with Alt.
 * @param {KeyboardEvent} event
 */
function characterByPlace({ key, code, ctrlKey, altKey, shiftKey }) {
  const [, letter, digit] = /^(?:Key([A-Z])|Digit(\d))$/.exec(code) ?? [];
  const isForeign = key > "\u007f";
  // On Windows, Control and Alt are what types another character.
  const isTyped = ctrlKey && altKey && !isApple() && !/^[a-z\d]$/i.test(key);
  if (isTyped || (letter && !altKey && !isForeign)) {
    return undefined;
  }
  return letter ?? (shiftKey || altKey || isForeign ? digit : undefined);
}

/**
 * The names of a key that is pressed, the likeliest first.
 * @param {KeyboardEvent} event
 */
function namesOf(event) {
  const flags = [event.ctrlKey, event.altKey, event.shiftKey, event.metaKey];
  const held = new Set(MODIFIERS.filter((_, place) => flags[place]));
  const key = keyName(keyOf(event));
  const names = [nameOf(held, key)];
  const byPlace = characterByPlace(event);
  if (byPlace !== undefined) {
    names.push(nameOf(held, byPlace));
  }
  const isSign = key.length === 1 && key.toLowerCase() === key;
  if (event.shiftKey && isSign) {
    names.push(nameOf(new Set([...held].filter((modifier) => modifier !== "Shift")), key));
  }
  return names;
}

/** What the keys of a region do. */
export class Keys {
  /** @type {Map<string, KeyAction>} */
  #actions = new Map();

  /** @param {Keymap} given that of the host, which wins over `KEYMAP` */
  constructor(given = {}) {
    const own = Object.entries(KEYMAP).filter(([name]) => name !== NOT_ON_APPLE || !isApple());
    for (const [name, action] of [...own, ...Object.entries(given)]) {
      this.#actions.set(canonical(name), action);
    }
  }

  /**
   * What a key does; undefined where that is the browser's.
   * @param {KeyboardEvent} event
   */
  actionOf(event) {
    // Safari says so of a key that an input method has taken.
    const isComposed = event.isComposing || event.keyCode === 229;
    if (isComposed || event.defaultPrevented) {
      return undefined;
    }
    const name = namesOf(event).find((each) => this.#actions.has(each));
    return name === undefined ? undefined : this.#actions.get(name);
  }
}
