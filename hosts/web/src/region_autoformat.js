/** What a region makes of the start of a paragraph while it is typed, for region_user.js. */
import { isStartOf } from "./region_places.js";
import { isText } from "./region_nodes.js";

/** @typedef {import("./region_commands.js").Commands} Commands */

/** The command that each start of a paragraph asks for, once a space follows it. */
const COMMANDS = new Map([
  ["-", "insertUnorderedList"],
  ["*", "insertUnorderedList"],
  ["1.", "insertOrderedList"],
  ["1)", "insertOrderedList"],
  [">", "indent"],
]);

/**
 * The command that a paragraph asks for by what is before the caret, the last of which is a space, and
 * the text that is to go; null where it asks for none.
 * @param {Commands} commands
 */
export function askedByStart(commands) {
  const { view } = commands;
  const place = commands.isCaret() ? commands.focus() : null;
  if (!place || !isText(place.node)) {
    return null;
  }
  const text = place.node;
  const command = COMMANDS.get(text.data.slice(0, place.offset - 1));
  if (!command) {
    return null;
  }
  const block = view.blockOf(text);
  const isParagraph = block === view.element || /^(?:p|div)$/.test(view.nameOf(block));
  const isItem = view.around(block, (node) => /^(?:li|dd|dt)$/.test(view.nameOf(node)));
  const isFirst = isStartOf(block, { node: text, offset: 0 });
  return isParagraph && !isItem && isFirst ? { command, text, end: place.offset } : null;
}

/**
 * Takes the start of a paragraph away, and executes the command that it asked for.
 * @param {Commands} commands
 * @param {{ command: string, text: Text, end: number }} asked
 */
export function autoformat(commands, { command, text, end }) {
  commands.selectIn(text, 0, end);
  return commands.exec("delete") && commands.run(command);
}
