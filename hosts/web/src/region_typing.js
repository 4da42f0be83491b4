/** What a region does around typing and Enter, for region_command_table.js. */
import {
  elementOf,
  firstLeaf,
  indexOf,
  isCollapsing,
  isEnd,
  leafBefore,
  lockedPart,
} from "./region_places.js";
import { isCaret, isSame, isText } from "./region_nodes.js";

/** @typedef {import("./hedit.js").Selection} Selection */
/** @typedef {import("./region_command_table.js").Habit} Habit */
/** @typedef {import("./region_commands.js").Commands} Commands */
/** @typedef {import("./region_places.js").NodePlace} NodePlace */

/** @typedef {{ block: string, states: [string, boolean][], values: [string, string][] }} Style */

const NO_BREAK_SPACE = "\u00a0";

const TOGGLES = ["bold", "italic", "underline", "strikethrough", "subscript", "superscript"];

const VALUES = ["fontName", "fontSize", "foreColor", "hiliteColor"];

/** What a link has by itself. */
const OF_LINKS = new Set(["underline", "foreColor"]);

/**
 * Puts a caret that a command left between blocks into the one where the browser shows it.
 * @param {Commands} commands
 */
export function enterBlock(commands) {
  const selection = commands.editor.selection();
  const shown = selection && isCaret(selection) ? commands.view.inBlock(selection) : selection;
  if (shown && !isSame(shown, selection)) {
    commands.select(shown);
  }
}

// Typing.

/**
 * Deletes what is selected over blocks of two kinds, and the style that what is typed would get of it.
 * @type {Habit}
 */
export function forgetStyles(commands, next) {
  const { view } = commands;
  const ends = commands.isCaret() ? null : commands.ends();
  const blocks = ends?.map(({ node }) => view.blockOf(node).nodeName);
  if (blocks && blocks[0] !== blocks[1] && commands.exec("delete")) {
    commands.forgetStyle();
  }
  return next();
}

/**
 * Puts a caret at the end of a link behind it.
 * @type {Habit}
 */
export function leaveLink(commands, next) {
  const place = commands.isCaret() ? commands.focus() : null;
  const link = place && isText(place.node) ? linkAround(commands, place.node) : null;
  if (place && link && isEndOf(link, place)) {
    const style = styleAt(commands);
    commands.putCaret(/** @type {Node} */ (link.parentNode), indexOf(link) + 1);
    carry(commands, style);
  }
  return next();
}

/**
 * @param {Commands} commands
 * @param {Node} node
 */
function linkAround({ view }, node) {
  return view.around(node, (each) => view.isLink(each));
}

/**
 * Whether a place in an element is at its end.
 * @param {Node} element
 * @param {NodePlace} place
 */
function isEndOf(element, place) {
  let { node, offset } = place;
  while (node !== element && isEnd({ node, offset })) {
    offset = indexOf(node) + 1;
    node = /** @type {Node} */ (node.parentNode);
  }
  return node === element && isEnd({ node, offset });
}

/**
 * Puts the caret back where a command leaves it in a locked part.
 * @type {Habit}
 */
export function leaveLocked(commands, next) {
  const before = commands.editor.selection();
  const isDone = next();
  if (isDone && before && !commands.editor.enabled("delete")) {
    const place = /** @type {NodePlace} */ (commands.focus());
    const part = lockedPart(place.node, commands.view.element);
    commands.selectAgain(before);
    if (part && !commands.editor.enabled("delete")) {
      commands.putCaret(/** @type {Node} */ (part.parentNode), indexOf(part));
    }
  }
  return isDone;
}

// Enter.

/**
 * Goes on in the style of the text before, within blocks of one kind.
 * @type {Habit}
 */
export function keepStyle(commands, next) {
  const style = commands.isCaret() ? styleAt(commands) : null;
  const isDone = next();
  if (isDone && style && commands.editor.value("formatBlock") === style.block) {
    carry(commands, style);
  }
  return isDone;
}

/**
 * Keeps the style that is set where a space is typed: at the end of a line the engine drops it. Within a
 * run of typing the text has the style.
 * @type {Habit}
 */
export function keepStyleOverSpace(commands, next, value) {
  const [spaces] = /^ */.exec(value) ?? [""];
  if (spaces === "" || commands.isTyping || !commands.isCaret()) {
    return next();
  }
  if (spaces !== value) {
    return commands.type(spaces) && commands.type(value.slice(spaces.length));
  }
  const style = styleAt(commands);
  const isDone = next();
  if (isDone) {
    carry(commands, style);
  }
  return isDone;
}

/**
 * The states and values at the selection, but for what a link there has by itself.
 * @param {Commands} commands
 * @returns {Style}
 */
function styleAt(commands) {
  const { editor, view } = commands;
  const link = linkAround(commands, commands.focus()?.node ?? view.element);
  const isOwn = (/** @type {string} */ name) => !(link && OF_LINKS.has(name));
  return {
    block: editor.value("formatBlock"),
    states: TOGGLES.filter(isOwn).map((name) => [name, editor.state(name)]),
    values: VALUES.filter(isOwn).map((name) => [name, editor.value(name)]),
  };
}

/**
 * Gives the caret a style.
 * @param {Commands} commands
 * @param {Style} style
 */
function carry(commands, { states, values }) {
  for (const [name, state] of states) {
    if (commands.editor.state(name) !== state) {
      commands.exec(name);
    }
  }
  for (const [name, value] of values) {
    if (value !== "" && commands.editor.value(name) !== value) {
      commands.exec(name, value);
    }
  }
}

/**
 * Makes spaces visible that stand before and behind the start of the caret's block.
 * @type {Habit}
 */
export function keepSpaces(commands, next) {
  if (!next()) {
    return false;
  }
  const { editor, view } = commands;
  const selection = /** @type {Selection} */ (editor.selection());
  const block = view.blockOf(view.place(selection.focus).node);
  const last = leafBefore(block, view.element);
  const first = firstLeaf(block);
  const isKept = [
    isText(first) && first.data.startsWith(" ") && keepSpace(commands, first, 0),
    isText(last) && last.data.endsWith(" ") && keepSpace(commands, last, last.length - 1),
  ];
  if (isKept.some(Boolean)) {
    commands.select(selection);
  }
  return true;
}

/**
 * @param {Commands} commands
 * @param {Text} text
 * @param {number} at
 */
function keepSpace(commands, text, at) {
  if (!isCollapsing(text) || !elementOf(text).isContentEditable) {
    return false;
  }
  commands.selectIn(text, at, at + 1);
  return commands.exec("insertText", NO_BREAK_SPACE);
}
