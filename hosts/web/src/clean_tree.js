/**
 * The tree that `cleanPage` works on: texts as strings, and elements with the attributes that they
 * keep.
 */

/**
 * @typedef {{
 *   name: string,
 *   attributes: [string, string][],
 *   children: CleanNode[],
 *   holdsBlock: boolean,
 * }} CleanElement `holdsBlock` is right until the tree is arranged
 */
/** @typedef {string | CleanElement} CleanNode */

/** @param {string} text */
export const namesOf = (text) => /** @type {ReadonlySet<string>} */ (new Set(text.split(" ")));

/** The blocks of a clean page, with the parts of tables. */
export const CLEAN_BLOCKS = namesOf(
  "p div h1 h2 h3 h4 h5 h6 pre blockquote ul ol li dl dt dd address hr table caption colgroup col " +
    "thead tbody tfoot tr td th",
);

/** The inline elements of a clean page. */
export const CLEAN_INLINES = namesOf(
  "a b i u s em strong sub sup small code kbd samp var cite q abbr mark del ins dfn span font br wbr " +
    "img",
);

/** The elements of a clean page without an end tag. */
const CLEAN_VOIDS = namesOf("br col hr img wbr");

/** @param {string} name */
export const isVoid = (name) => CLEAN_VOIDS.has(name);

/**
 * @param {CleanNode} node
 * @returns {node is CleanElement}
 */
export const isElement = (node) => typeof node !== "string";

/**
 * @param {CleanNode} node
 * @returns {boolean}
 */
export const isBlock = (node) => isElement(node) && CLEAN_BLOCKS.has(node.name);

/** @param {CleanNode} node */
export const hasBlock = (node) => isElement(node) && node.holdsBlock;

/**
 * @param {CleanNode} node
 * @param {string} name
 */
export const isNamed = (node, name) => isElement(node) && node.name === name;

/**
 * @param {string} name
 * @param {CleanNode[]} children
 * @param {[string, string][]} [attributes]
 * @returns {CleanElement}
 */
export function makeElement(name, children, attributes = []) {
  const holdsBlock = CLEAN_BLOCKS.has(name) || children.some(hasBlock);
  return { name, attributes, children, holdsBlock };
}

/**
 * Whether a text is whitespace that collapses: U+00A0 isn't.
 * @param {string} text
 */
export const isWhitespace = (text) => /^[\t\n\f\r ]*$/.test(text);

/**
 * Whether a node has characters, images or line breaks.
 * @param {CleanNode} node
 * @returns {boolean}
 */
export function hasContent(node) {
  return isElement(node)
    ? node.name === "br" || node.name === "img" || node.children.some(hasContent)
    : !isWhitespace(node);
}

/**
 * Groups neighbours for which a function returns the same key.
 * @template T
 * @param {readonly CleanNode[]} nodes
 * @param {(node: CleanNode) => T} keyOf
 * @returns {{ key: T, nodes: CleanNode[] }[]}
 */
export function seriesOf(nodes, keyOf) {
  /** @type {{ key: T, nodes: CleanNode[] }[]} */
  const series = [];
  for (const node of nodes) {
    const [key, last] = [keyOf(node), series.at(-1)];
    if (last && last.key === key) {
      last.nodes.push(node);
    } else {
      series.push({ key, nodes: [node] });
    }
  }
  return series;
}

// Markup.

/** @type {Readonly<Record<string, string>>} */
const REFERENCES = { "&": "&amp;", "\u00a0": "&nbsp;", "<": "&lt;", ">": "&gt;", '"': "&quot;" };

/** @param {string} text */
const printText = (text) => text.replace(/[&\u00a0<>]/g, (character) => REFERENCES[character]);

/** @param {string} value */
const printValue = (value) => value.replace(/[&\u00a0<>"]/g, (character) => REFERENCES[character]);

/**
 * @param {readonly CleanNode[]} nodes
 * @param {string[]} parts
 */
function printInto(nodes, parts) {
  for (const node of nodes) {
    if (!isElement(node)) {
      parts.push(printText(node));
      continue;
    }
    parts.push("<", node.name);
    for (const [name, value] of node.attributes) {
      parts.push(" ", name, '="', printValue(value), '"');
    }
    parts.push(">");
    if (!isVoid(node.name)) {
      printInto(node.children, parts);
      parts.push("</", node.name, ">");
    }
  }
}

/**
 * Returns the markup of a tree.
 * @param {readonly CleanNode[]} nodes
 */
export function print(nodes) {
  /** @type {string[]} */
  const parts = [];
  printInto(nodes, parts);
  return parts.join("");
}
