/** What a region does around Backspace and Delete, for region_command_table.js. */
import { toCharacters } from "./hedit.js";
import { elementOf, indexOf, isEmpty, isStart, lastLeaf } from "./region_places.js";
import { isBlock, isCharacters, isElement, isText } from "./region_nodes.js";

/** @typedef {import("./region_command_table.js").Habit} Habit */
/** @typedef {import("./region_commands.js").Commands} Commands */
/** @typedef {import("./region_places.js").NodePlace} NodePlace */

/** @type {Intl.Segmenter | undefined} */
let segmenter;

/**
 * What a user sees as one character, at a unit of a text. The browser takes a while to make the
 * segmenter, so that it waits for its first use.
 * @param {string} text
 * @param {number} unit
 */
function clusterAt(text, unit) {
  segmenter ??= new Intl.Segmenter(undefined, { granularity: "grapheme" });
  return /** @type {Intl.SegmentData} */ (segmenter.segment(text).containing(unit));
}

/**
 * A habit for a caret, which leaves a selection alone.
 * @param {Habit} habit
 * @returns {Habit}
 */
function atCaret(habit) {
  return (commands, next, value) =>
    commands.isCaret() ? habit(commands, next, value) : next();
}

/** Puts a caret behind a link at the end of the link's text. */
export const enterLink = atCaret((commands, next) => {
  const end = endOfLinkBefore(commands);
  if (end) {
    commands.putCaret(end, end.length);
  }
  return next();
});

/**
 * The last text of the link that the caret is behind; null where it is behind none.
 * @param {Commands} commands
 */
function endOfLinkBefore(commands) {
  const { view } = commands;
  let { node, offset } = /** @type {NodePlace} */ (commands.focus());
  while (isStart({ node, offset }) && node !== view.element && !isBlock(node)) {
    offset = indexOf(node);
    node = /** @type {Node} */ (node.parentNode);
  }
  /** @type {Node | null} */
  let child = isCharacters(node) ? null : (node.childNodes[offset - 1] ?? null);
  let isLink = false;
  while (child && !isBlock(child) && !isText(child)) {
    isLink ||= view.nameOf(child) === "a" && elementOf(child).isContentEditable;
    child = child.lastChild;
    while (child?.previousSibling && isEmpty(child)) {
      child = child.previousSibling;
    }
  }
  return isLink && isText(child) && child.length > 0 ? child : null;
}

/** Selects what a user sees as one character before the caret, where it is several characters. */
export const selectCluster = atCaret((commands, next) => {
  const text = textBefore(commands);
  const { segment, index } = text ? clusterAt(text.node.data, text.offset - 1) : NO_CLUSTER;
  if (text && toCharacters(segment, segment.length) > 1) {
    commands.selectIn(text.node, index, index + segment.length);
  }
  return next();
});

const NO_CLUSTER = { segment: "", index: 0 };

/**
 * The text before the caret in its line, and the offset that the caret has in it.
 * @param {Commands} commands
 * @returns {{ node: Text, offset: number } | null}
 */
function textBefore(commands) {
  const { view } = commands;
  const { node, offset } = /** @type {NodePlace} */ (commands.focus());
  if (isText(node) && offset > 0) {
    return { node, offset };
  }
  const block = view.blockOf(node);
  const walker = view.element.ownerDocument.createTreeWalker(block);
  const child = isCharacters(node) ? null : node.childNodes[offset - 1];
  const leaf = child ? lastLeaf(child) : null;
  walker.currentNode = leaf ?? node;
  for (let at = leaf ?? walker.previousNode(); at && at !== block; at = walker.previousNode()) {
    if (isText(at) && at.length > 0) {
      const isInLine = view.blockOf(at) === block && elementOf(at).isContentEditable;
      return isInLine ? { node: at, offset: at.length } : null;
    }
    if (isElement(at) && (at.childNodes.length === 0 || isBlock(at))) {
      return null;
    }
  }
  return null;
}

/**
 * The innermost node of a kind that the caret is at the start of.
 * @param {Commands} commands
 * @param {(node: Node) => boolean} isWanted
 */
export function startedAtCaret(commands, isWanted) {
  let { node, offset } = /** @type {NodePlace} */ (commands.focus());
  while (isStart({ node, offset }) && node !== commands.view.element) {
    if (isWanted(node)) {
      return elementOf(node);
    }
    offset = indexOf(node);
    node = /** @type {Node} */ (node.parentNode);
  }
  return null;
}

/** Joins an item with the one before at once: the command alone takes its marker first. */
export const joinItems = atCaret((commands, next) => {
  const item = itemToJoin(commands);
  const isDone = next();
  if (isDone && item && commands.view.label(item) === undefined && commands.isCaret()) {
    next();
  }
  return isDone;
});

/**
 * The item that the caret is at the start of, where it follows another one without a list in it.
 * @param {Commands} commands
 */
function itemToJoin(commands) {
  const { view } = commands;
  const item = startedAtCaret(commands, (node) => view.nameOf(node) === "li");
  const before = item?.previousElementSibling;
  return before && view.nameOf(before) === "li" && !view.listIn(before) ? item : null;
}

/**
 * Selects what Delete takes behind a caret in a text: what a user sees as one character, or one
 * character. False elsewhere.
 * @param {Commands} commands
 */
export function selectForward(commands) {
  const place = commands.isCaret() ? commands.focus() : null;
  if (!place || !isText(place.node) || place.offset === place.node.length) {
    return false;
  }
  const { node, offset } = place;
  const { segment } = clusterAt(node.data.slice(offset), 0);
  const [first] = segment;
  const length = commands.has("wholeClusters") ? segment.length : first.length;
  commands.selectIn(node, offset, offset + length);
  return true;
}
