/**
 * Arranges the elements of a clean page: inline elements hold no blocks, paragraphs hold one line, and
 * items and cells are in lists and tables.
 */
import { PageRefused } from "./hedit_errors.js";
import { PageKind } from "./hedit_constants.js";
import {
  hasBlock,
  hasContent,
  isBlock,
  isElement,
  isNamed,
  isVoid,
  isWhitespace,
  makeElement,
  namesOf,
  seriesOf,
} from "./clean_tree.js";

/** @typedef {import("./clean_tree.js").CleanElement} CleanElement */
/** @typedef {import("./clean_tree.js").CleanNode} CleanNode */

/** The longest page, in bytes: the engine reads 4 MiB, and editing needs some of it. */
export const MOST_BYTES = 4 * 2 ** 20 - 4 * 2 ** 10;

/** The fewest bytes of an inline element. */
const LEAST_BYTES = "<b></b>".length;

const HEADINGS = namesOf("h1 h2 h3 h4 h5 h6");

/** Blocks that hold one line. */
const LINES = namesOf("p h1 h2 h3 h4 h5 h6 pre");

const LISTS = namesOf("ul ol");

/** Items and cells: a paragraph that is alone there is unwrapped. */
const ITEMS = namesOf("li dt dd td th caption");

/** The elements that a list or a part of a table may hold. */
const HELD = /** @type {ReadonlyMap<string, ReadonlySet<string>>} */ (
  new Map([
    ["ul", namesOf("li ul ol")],
    ["ol", namesOf("li ul ol")],
    ["dl", namesOf("dt dd")],
    ["table", namesOf("caption colgroup thead tbody tfoot tr")],
    ["colgroup", namesOf("col")],
    ["thead", namesOf("tr")],
    ["tbody", namesOf("tr")],
    ["tfoot", namesOf("tr")],
    ["tr", namesOf("td th")],
  ])
);

/** The item that other nodes in a list become. */
const ITEM_OF = /** @type {ReadonlyMap<string, string>} */ (
  new Map([
    ["ul", "li"],
    ["ol", "li"],
    ["dl", "dd"],
  ])
);

/**
 * The list that stray items get around them. Stray parts of tables become divisions, or are removed
 * if they hold no text.
 */
const HOME_OF = /** @type {ReadonlyMap<string, string>} */ (
  new Map([
    ["li", "ul"],
    ["dt", "dl"],
    ["dd", "dl"],
    ...["caption", "td", "th", "tr", "thead", "tbody", "tfoot"].map(
      (name) => /** @type {[string, string]} */ ([name, "div"]),
    ),
    ["col", ""],
    ["colgroup", ""],
  ])
);

// Inline elements around blocks.

/**
 * Whether a node has characters or images: a format or a link of others can't be seen.
 * @param {CleanNode} node
 * @returns {boolean}
 */
const isSeen = (node) =>
  isElement(node) ? node.name === "img" || node.children.some(isSeen) : !isWhitespace(node);

/** Moves inline elements into the blocks that they hold. */
class Spreader {
  #copies = 0;

  /**
   * @param {readonly CleanNode[]} nodes
   * @param {readonly CleanElement[]} around the inline elements around them, from the outermost
   * @returns {CleanNode[]}
   */
  spread(nodes, around) {
    return seriesOf(nodes, hasBlock).flatMap(({ key, nodes: series }) =>
      key
        ? series.flatMap((node) => this.#spreadIn(/** @type {CleanElement} */ (node), around))
        : this.#wrap(series, around),
    );
  }

  /**
   * @param {CleanElement} element
   * @param {readonly CleanElement[]} around
   * @returns {CleanNode[]}
   */
  #spreadIn(element, around) {
    if (!isBlock(element)) {
      return this.spread(element.children, [...around, element]);
    }
    const block = /** @type {CleanElement} */ (element);
    block.children = this.spread(block.children, around);
    return [block];
  }

  /**
   * @param {CleanNode[]} nodes
   * @param {readonly CleanElement[]} around
   */
  #wrap(nodes, around) {
    if (around.length === 0 || !nodes.some(isSeen)) {
      return nodes;
    }
    this.#copies += around.length;
    if (this.#copies * LEAST_BYTES > MOST_BYTES) {
      throw new PageRefused(MOST_BYTES, PageKind.TOO_LONG);
    }
    return around.reduceRight(
      (inner, { name, attributes }) => [makeElement(name, inner, attributes)],
      nodes,
    );
  }
}

// Blocks in blocks.

/**
 * Makes paragraphs of inline nodes next to blocks, and removes whitespace between blocks.
 * @param {readonly CleanNode[]} nodes
 * @returns {CleanNode[]}
 */
function makeParagraphs(nodes) {
  return seriesOf(nodes, isBlock).flatMap(({ key, nodes: series }) => {
    if (key) {
      return series;
    }
    return series.some(hasContent) ? [makeElement("p", series)] : [];
  });
}

/**
 * Makes items of the nodes that a list may not hold, and removes whitespace between items.
 * @param {string} list
 * @param {readonly CleanNode[]} nodes
 * @returns {CleanNode[]}
 */
function makeItems(list, nodes) {
  const [held, item] = [HELD.get(list), ITEM_OF.get(list) ?? "li"];
  const isHeld = (/** @type {CleanNode} */ node) => isElement(node) && held?.has(node.name) === true;
  return seriesOf(nodes, isHeld).flatMap(({ key, nodes: series }) => {
    if (key) {
      return series;
    }
    return series.some(hasContent) || series.some(isBlock)
      ? arrangeContainer(makeElement(item, houseStrays(series)))
      : [];
  });
}

/**
 * Puts lists around stray items, and makes divisions of stray parts of tables.
 * @param {readonly CleanNode[]} nodes
 * @returns {CleanNode[]}
 */
function houseStrays(nodes) {
  const homeOf = (/** @type {CleanNode} */ node) =>
    isElement(node) ? HOME_OF.get(node.name) : undefined;
  return seriesOf(nodes, homeOf).flatMap(({ key, nodes: series }) => {
    if (key === undefined || key === "") {
      return key === undefined ? series : [];
    }
    if (key !== "div") {
      return [makeElement(key, series)];
    }
    return series.flatMap((node) => {
      const { attributes, children } = /** @type {CleanElement} */ (node);
      const kept = attributes.filter(([name]) => /^(?:dir|lang|style|title)$/.test(name));
      return arrangeContainer(makeElement("div", houseStrays(children), kept));
    });
  });
}

/**
 * Splits a block that holds one line around the blocks in it. A paragraph in a heading becomes a
 * heading too.
 * @param {CleanElement} block
 * @returns {CleanNode[]}
 */
function partLine(block) {
  const { name, attributes, children } = block;
  if (!children.some(isBlock)) {
    return [block];
  }
  return seriesOf(children, isBlock).flatMap(({ key, nodes }) => {
    if (!key) {
      return nodes.some(hasContent) ? [makeElement(name, nodes, attributes)] : [];
    }
    const isHeading = HEADINGS.has(name);
    return nodes.map((node) =>
      isHeading && isElement(node) && node.name === "p" ? { ...node, name } : node,
    );
  });
}

/**
 * @param {CleanElement} list
 * @returns {CleanNode[]}
 */
const arrangeList = (list) => (list.children.length > 0 ? [list] : []);

/**
 * Moves nodes that a table or a part of one may not hold in front of it, and puts rows into a body.
 * @param {CleanElement} table
 * @returns {CleanNode[]}
 */
function arrangeTable(table) {
  const held = HELD.get(table.name);
  /** @type {CleanNode[]} */
  const others = [];
  /** @type {CleanNode[]} */
  const parts = [];
  for (const node of table.children) {
    (isElement(node) && held?.has(node.name) ? parts : others).push(node);
  }
  const isRow = (/** @type {CleanNode} */ node) => table.name === "table" && isNamed(node, "tr");
  table.children = seriesOf(parts, isRow).flatMap(({ key, nodes }) =>
    key ? [makeElement("tbody", nodes)] : nodes,
  );
  const rest = others.some(hasContent) || others.some(isBlock) ? others : [];
  return table.children.length > 0 ? [...rest, table] : rest;
}

/**
 * Whether a node is a paragraph with no attributes that the block around it lacks.
 * @param {CleanNode} node
 * @param {CleanElement} block
 */
function isPlainIn(node, block) {
  return (
    isElement(node) &&
    node.name === "p" &&
    node.attributes.every(([name, value]) =>
      block.attributes.some((attribute) => attribute[0] === name && attribute[1] === value),
    )
  );
}

/**
 * Arranges a block that holds lines or blocks. A paragraph that is alone in an item is unwrapped.
 * @param {CleanElement} block
 * @returns {CleanNode[]}
 */
function arrangeContainer(block) {
  const { name, children } = block;
  const isList = (/** @type {CleanNode} */ node) => isElement(node) && LISTS.has(node.name);
  const isItemWithLists =
    name === "li" &&
    !isList(children[0] ?? "") &&
    children.every((node) => !isBlock(node) || isList(node));
  if (!isItemWithLists && children.some(isBlock)) {
    block.children = makeParagraphs(children);
  }
  const [first, ...others] = block.children;
  const isLone = others.length === 0 || (name === "li" && others.every(isList));
  if (ITEMS.has(name) && first !== undefined && isLone && isPlainIn(first, block)) {
    block.children = [.../** @type {CleanElement} */ (first).children, ...others];
  }
  return name === "div" ? arrangeDivision(block) : keepFilled(block);
}

/**
 * Makes a paragraph of a division with one line, and unwraps one without attributes.
 * @param {CleanElement} division
 * @returns {CleanNode[]}
 */
function arrangeDivision({ attributes, children }) {
  if (!children.some(isBlock)) {
    return children.some(hasContent) ? [makeElement("p", children, attributes)] : [];
  }
  return attributes.length > 0 ? [makeElement("div", children, attributes)] : children;
}

/**
 * Removes an empty quotation, address or caption.
 * @param {CleanElement} block
 * @returns {CleanNode[]}
 */
function keepFilled(block) {
  const isFilled = block.children.some(hasContent) || block.children.some(isBlock);
  return isFilled || /^(?:li|d[td]|t[dh])$/.test(block.name) ? [block] : [];
}

/**
 * @param {CleanElement} block
 * @returns {CleanNode[]}
 */
function arrangeBlock(block) {
  const { name } = block;
  if (isVoid(name)) {
    return [block];
  }
  block.children = arrangeIn(name, block.children);
  if (LINES.has(name)) {
    return partLine(block);
  }
  if (ITEM_OF.has(name)) {
    return arrangeList(block);
  }
  return HELD.has(name) ? arrangeTable(block) : arrangeContainer(block);
}

/**
 * Unwraps divisions in a list that group its items.
 * @param {string} list
 * @param {readonly CleanNode[]} nodes
 * @returns {CleanNode[]}
 */
function ungroup(list, nodes) {
  const item = ITEM_OF.get(list);
  if (item === undefined) {
    return [...nodes];
  }
  const isItem = (/** @type {CleanNode} */ node) =>
    isElement(node) && HELD.get(list)?.has(node.name) === true;
  return nodes.flatMap((node) =>
    isElement(node) && node.name === "div" && node.children.some(isItem) ? node.children : [node],
  );
}

/**
 * @param {string} parent the name of the element around, or `body`
 * @param {readonly CleanNode[]} nodes
 * @returns {CleanNode[]}
 */
function arrangeIn(parent, nodes) {
  const arranged = ungroup(parent, nodes).flatMap((node) =>
    isBlock(node) ? arrangeBlock(/** @type {CleanElement} */ (node)) : [node],
  );
  if (ITEM_OF.has(parent)) {
    return makeItems(parent, arranged);
  }
  return HELD.has(parent) ? arranged : houseStrays(arranged);
}

/**
 * Arranges the nodes of a page.
 * @param {readonly CleanNode[]} nodes
 * @param {boolean} isInline whether a page of one line gets no paragraph around it
 * @returns {CleanNode[]}
 */
export function arrange(nodes, isInline) {
  const arranged = arrangeIn("body", new Spreader().spread(nodes, []));
  return isInline && !arranged.some(isBlock) ? arranged : makeParagraphs(arranged);
}
