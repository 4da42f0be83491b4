/**
 * What is copied or dragged out of a region, for region.js: as HTML with the formats, lists and
 * quotations around it.
 */
import { startTag } from "./region_print.js";
import { isBlockName } from "./shown.js";

/** @typedef {import("./hedit.js").Editor} Editor */
/** @typedef {import("./hedit.js").Selection} Selection */

/** Blocks around several others that are copied with them. */
const CONTAINERS = /^(?:blockquote|div|ol|table|tbody|tfoot|thead|tr|ul)$/;

const LISTS = /^(?:ol|ul)$/;

const CELLS = /^(?:caption|td|th)$/;

/** Blocks of a line that are copied with all of it. */
const LINES = /^(?:h[1-6]|pre)$/;

/**
 * The elements around a point, from the innermost up to a root, without that.
 * @param {Editor} editor
 * @param {number} label
 * @param {number} root
 */
function elementsAround(editor, label, root) {
  const labels = [];
  for (let at = /** @type {number | null} */ (label); at !== null && at !== root; ) {
    if (editor.nodeName(at) !== "") {
      labels.push(at);
    }
    at = editor.node(at).parent;
  }
  return labels;
}

/**
 * Whether an element holds blocks.
 * @param {Editor} editor
 * @param {number} label
 */
const holdsBlocks = (editor, label) =>
  [...editor.children(label)].some((child) => isBlockName(editor.nodeName(child)));

/**
 * The elements around what is selected that are copied with it, from the innermost: inline ones, a
 * heading that is selected as a whole, and around several blocks their list and quotations.
 * @param {Editor} editor
 * @param {Selection} selection
 * @param {number} root
 */
function kept(editor, { anchor, focus }, root) {
  const others = new Set(elementsAround(editor, focus.label, root));
  const common = elementsAround(editor, anchor.label, root).filter((label) => others.has(label));
  const isMany = common.length > 0 && holdsBlocks(editor, common[0]);
  const labels = [];
  let isInList = false;
  for (const label of common) {
    const name = editor.nodeName(label);
    const isItem = name === "li" && label === common[0];
    /** @type {boolean} */
    const isAround = isMany && (isItem || CONTAINERS.test(name)) && !(isInList && LISTS.test(name));
    const isWhole = LINES.test(name) && editor.nodeText(label) === editor.selectionText();
    if (CELLS.test(name)) {
      break;
    }
    if (!isBlockName(name) || isAround || isWhole) {
      labels.push(label);
    }
    isInList ||= isAround && LISTS.test(name);
  }
  return labels;
}

/**
 * The HTML of what is selected, as the engine has it; an empty text where nothing is.
 * @param {Editor} editor
 * @param {number} root the label of the node whose children the region shows
 */
export function selectedHtml(editor, root) {
  const selection = editor.selection();
  const html = editor.selectionHtml();
  if (!selection || html === null) {
    return "";
  }
  return kept(editor, selection, root).reduce((inner, label) => {
    const name = editor.nodeName(label);
    return `${startTag({ name, attributes: editor.attributes(label) })}${inner}</${name}>`;
  }, html);
}
