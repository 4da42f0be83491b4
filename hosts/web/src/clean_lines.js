/** Tidies the lines of a clean page: their whitespace, and the `br` of an empty line. */
import { isBlock, isElement, isVoid, makeElement, namesOf, seriesOf } from "./clean_tree.js";

/** @typedef {import("./clean_tree.js").CleanElement} CleanElement */
/** @typedef {import("./clean_tree.js").CleanNode} CleanNode */

/** Blocks that show a line even if they are empty. */
const LINES = namesOf("p h1 h2 h3 h4 h5 h6 pre li dt dd td th");

/** Collapses the whitespace of one line, as browsers do. */
class Line {
  /** Whether a space here collapses into the one before, or into the start of the line. */
  #isAfterSpace = true;

  /**
   * The text before, if it ends with a space.
   * @type {{ list: CleanNode[], index: number } | null}
   */
  #trailing = null;

  /** @param {CleanNode[]} nodes */
  collapse(nodes) {
    nodes.forEach((node, index) => {
      if (!isElement(node)) {
        nodes[index] = this.#text(node, nodes, index);
      } else if (isVoid(node.name)) {
        this.#void(node.name);
      } else {
        this.collapse(node.children);
      }
    });
  }

  /**
   * @param {string} given
   * @param {CleanNode[]} list
   * @param {number} index
   */
  #text(given, list, index) {
    const text = given.replace(/[\t\n\f\r ]+/g, " ");
    const shown = this.#isAfterSpace && text.startsWith(" ") ? text.slice(1) : text;
    if (shown !== "") {
      this.#isAfterSpace = shown.endsWith(" ");
      this.#trailing = this.#isAfterSpace ? { list, index } : null;
    }
    return shown;
  }

  /** @param {string} name */
  #void(name) {
    if (name === "br") {
      this.end();
    }
    this.#isAfterSpace = name === "br";
    this.#trailing = null;
  }

  /** Keeps a space at the start: other text may precede the line. */
  keepStart() {
    this.#isAfterSpace = false;
  }

  /** Removes a space at the end. */
  end() {
    if (this.#trailing) {
      const { list, index } = this.#trailing;
      list[index] = /** @type {string} */ (list[index]).slice(0, -1);
      this.#trailing = null;
    }
  }
}

/**
 * Removes empty texts, and inline elements without content.
 * @param {readonly CleanNode[]} nodes
 * @returns {CleanNode[]}
 */
function prune(nodes) {
  /** @type {CleanNode[]} */
  const kept = [];
  for (const node of nodes) {
    const children = isElement(node) ? prune(node.children) : [];
    if (!isElement(node)) {
      kept.push(...(node === "" ? [] : [node]));
    } else if (children.length > 0 || isVoid(node.name)) {
      kept.push({ ...node, children });
    }
  }
  return kept;
}

/**
 * Whether a line is empty. Editors also write an empty line as U+00A0 alone.
 * @param {CleanNode} node
 * @returns {boolean}
 */
function isEmpty(node) {
  return isElement(node)
    ? node.name !== "br" && node.name !== "img" && node.children.every(isEmpty)
    : /^[\t\n\f\r \u00a0]*$/.test(node);
}

/** @param {CleanNode[]} nodes */
function tidyLine(nodes) {
  const line = new Line();
  line.collapse(nodes);
  line.end();
  return prune(nodes);
}

/**
 * Tidies what a `pre` holds. Parsers drop a line feed at its start, so that becomes a `br`.
 * @param {readonly CleanNode[]} nodes
 * @returns {CleanNode[]}
 */
function tidyPre(nodes) {
  const [first, ...others] = prune(nodes);
  if (first === undefined || isElement(first)) {
    return first === undefined ? [] : [first, ...others];
  }
  const text = first.replace(/^\n+/, "");
  const breaks = Array.from({ length: first.length - text.length }, () => makeElement("br", []));
  return prune([...breaks, text, ...others]);
}

/**
 * @param {CleanElement} block
 * @returns {CleanElement}
 */
function tidyBlock(block) {
  const { name } = block;
  if (isVoid(name)) {
    return block;
  }
  const children = name === "pre" ? tidyPre(block.children) : tidy(block.children);
  const isBare = LINES.has(name) && children.every(isEmpty) && !children.some(isBlock);
  return { ...block, children: isBare ? [makeElement("br", [])] : children };
}

/**
 * Tidies what a page or a block holds.
 * @param {readonly CleanNode[]} nodes
 * @returns {CleanNode[]}
 */
export function tidy(nodes) {
  return seriesOf(nodes, isBlock).flatMap(({ key, nodes: series }) =>
    key ? series.map((node) => tidyBlock(/** @type {CleanElement} */ (node))) : tidyLine(series),
  );
}

/**
 * Tidies a page without blocks. Spaces at its ends stay, since it may become part of a line.
 * @param {CleanNode[]} nodes
 * @returns {CleanNode[]}
 */
export function tidyInline(nodes) {
  const line = new Line();
  line.keepStart();
  line.collapse(nodes);
  return prune(nodes);
}
