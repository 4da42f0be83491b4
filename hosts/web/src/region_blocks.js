/** What a region does around commands for blocks, lists and quotations, for region_command_table.js. */
import { lastLeaf } from "./region_places.js";
import { isElement, isText } from "./region_nodes.js";
import { startedAtCaret } from "./region_deletion.js";

/** @typedef {import("./region_command_table.js").Habit} Habit */
/** @typedef {import("./region_commands.js").Commands} Commands */

/** The commands for the values of alignment. */
const ALIGNMENTS = new Map([
  ["left", "justifyLeft"],
  ["center", "justifyCenter"],
  ["right", "justifyRight"],
  ["justify", "justifyFull"],
]);

/** Blocks that hold a line, and no blocks. */
const LINES = /^(?:address|div|h[1-6]|p|pre)$/;

/**
 * Indents for a quotation, of which `formatBlock` knows nothing.
 * @type {Habit}
 */
export function quoteByIndent(commands, next, value) {
  const name = value.toLowerCase().replace(/^<(.*)>$/, "$1");
  return name === "blockquote" ? commands.exec("indent") : next();
}

/**
 * Aligns a new block as the old one was.
 * @type {Habit}
 */
export function keepAlignment(commands, next) {
  const { editor } = commands;
  const alignment = editor.value("justifyLeft");
  const align = ALIGNMENTS.get(alignment);
  const isKept = align && !editor.indeterm(align);
  const isDone = next();
  if (isDone && isKept && editor.value("justifyLeft") !== alignment) {
    commands.exec(align);
  }
  return isDone;
}

/**
 * Colours what is typed: at a caret `backColor` does nothing.
 * @type {Habit}
 */
export function hiliteAtCaret(commands, next, value) {
  return commands.isCaret() ? commands.exec("hiliteColor", value) : next();
}

/**
 * Selects the lists in an item too.
 * @type {Habit}
 */
export function indentSublists(commands, next) {
  const { editor, view } = commands;
  const selection = editor.selection();
  const ends = commands.ends();
  const item = ends && view.around(ends[1].node, (node) => view.nameOf(node) === "li");
  if (!selection || !ends || !item || !view.listIn(item)) {
    return next();
  }
  const last = lastLeaf(item);
  const anchor = view.point(ends[0].node, ends[0].offset);
  const focus = view.point(last, isText(last) ? last.length : 0);
  if (anchor && focus) {
    commands.select({ anchor, focus });
  }
  const isDone = next();
  commands.select(selection);
  return isDone;
}

/**
 * Takes quoted blocks out as they are: they are made items, which stay whole, of a list that is then
 * taken out.
 * @type {Habit}
 */
export function outdentWhole(commands, next) {
  return quotedBlocks(commands).length > 0
    ? [1, 2, 3].every(() => commands.exec("insertUnorderedList"))
    : next();
}

/**
 * Does the same for Backspace at the block's start.
 * @type {Habit}
 */
export function outdentBackward(commands, next) {
  const [block] = commands.isCaret() ? quotedBlocks(commands) : [];
  const isAtStart = block && startedAtCaret(commands, (node) => node === block);
  return isAtStart ? outdentWhole(commands, next) : next();
}

/**
 * The selected blocks, where all are in one quotation and `outdent` would take one of them apart; none
 * elsewhere.
 * @param {Commands} commands
 */
function quotedBlocks(commands) {
  const { view } = commands;
  const [first, last] = commands.ends()?.map(({ node }) => view.blockOf(node)) ?? [];
  const quote = first?.parentNode;
  if (!quote || quote !== last?.parentNode || view.nameOf(quote) !== "blockquote") {
    return [];
  }
  /** @type {Node[]} */
  const children = [...quote.childNodes];
  const blocks = children.slice(children.indexOf(first), children.indexOf(last) + 1);
  const isAround = (/** @type {Node} */ node) => /^(blockquote|li|dd|dt)$/.test(view.nameOf(node));
  const isWhole = blocks.every((block) => LINES.test(view.nameOf(block)));
  const areSplit = blocks.some((block) => isElement(block) && hasFormats(commands, block));
  return isWhole && areSplit && !view.around(quote.parentNode, isAround) ? blocks : [];
}

/**
 * @param {Commands} commands
 * @param {Element} block
 */
function hasFormats({ view }, block) {
  return [...block.querySelectorAll("*")].some((each) => view.nameOf(each) !== "br");
}
