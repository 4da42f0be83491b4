/** What a region shows while there is nothing in it, for region.js. */
import { isBlock, isText } from "./region_nodes.js";
import { VOIDS } from "./shown.js";

/** @typedef {import("./region_view.js").View} View */

/** The attribute of an element that shows a placeholder: in itself, or in its first child. */
const NAME = "data-hedit-placeholder";

const PROPERTY = "--hedit-placeholder";

const SHOWN = `content: var(${PROPERTY}); float: left; height: 0; color: GrayText; pointer-events: none;`;

/**
 * How a placeholder looks: it takes no room, and a click goes through it. Where there is no line, it makes
 * one.
 */
export const PLACEHOLDER_RULES = `
  [${NAME}="line"]::before, [${NAME}="block"] > :first-child::before { ${SHOWN} }
  [${NAME}="line"]:empty::before, [${NAME}="block"] > :first-child:empty::before { float: none; }
`;

/** Elements that are something to see without a text. */
const SEEN = new Set(["table", "video", "audio", "canvas", "iframe", "svg", "math"]);

/** Elements that a line without text looks otherwise in. */
const MARKED = new Set(["ul", "ol", "dl", "li", "dt", "dd", "blockquote"]);

/**
 * The nodes below an element, in the order of the page.
 * @param {View} view
 */
function* nodesOf({ element }) {
  const walker = element.ownerDocument.createTreeWalker(element, 0x1 | 0x4);
  for (let node = walker.nextNode(); node; node = walker.nextNode()) {
    yield node;
  }
}

/**
 * Whether an element is something to see without a text.
 * @param {string} name
 */
function isSeen(name) {
  return SEEN.has(name) || (VOIDS.has(name) && name !== "br" && name !== "wbr");
}

/**
 * Whether a view has nothing to see but empty lines and blanks.
 * @param {View} view
 */
export function isBlank(view) {
  for (const node of nodesOf(view)) {
    if (isText(node) ? /\S/.test(node.data) : isSeen(view.nameOf(node))) {
      return false;
    }
  }
  return true;
}

/**
 * Whether a view has one empty line at most, which looks like no other.
 * @param {View} view
 */
function isEmptyLine(view) {
  let [blocks, breaks] = [0, 0];
  for (const node of nodesOf(view)) {
    const name = view.nameOf(node);
    blocks += Number(isBlock(node));
    breaks += Number(name === "br");
    const isOther = isText(node) ? node.length > 0 : isSeen(name) || MARKED.has(name);
    if (isOther || blocks > 1 || breaks > 1) {
      return false;
    }
  }
  return true;
}

/** The text that an element shows while there is nothing in it. */
export class Placeholder {
  #element;

  #text = "";

  /** @param {HTMLElement} element */
  constructor(element) {
    this.#element = element;
  }

  get text() {
    return this.#text;
  }

  /**
   * Shows the text where there is nothing else, and hides it elsewhere.
   * @param {View} view
   */
  update(view) {
    if (this.#text === "") {
      return;
    }
    if (isEmptyLine(view)) {
      const first = this.#element.firstElementChild;
      this.#element.setAttribute(NAME, first && isBlock(first) ? "block" : "line");
    } else {
      this.#element.removeAttribute(NAME);
    }
  }

  /**
   * Shows another text, or with an empty one none.
   * @param {string} text
   * @param {View} view
   */
  set(text, view) {
    this.remove();
    this.#text = text;
    if (text !== "") {
      // JSON's escapes of quotes and backslashes are those of CSS, but for line feeds.
      const quoted = JSON.stringify(text.replace(/\s+/g, " "));
      this.#element.style.setProperty(PROPERTY, quoted);
      this.#element.setAttribute("aria-placeholder", text);
    }
    this.update(view);
  }

  /** Leaves the element as it was. */
  remove() {
    if (this.#text !== "") {
      this.#element.removeAttribute(NAME);
      this.#element.removeAttribute("aria-placeholder");
      this.#element.style.removeProperty(PROPERTY);
      if (this.#element.getAttribute("style") === "") {
        this.#element.removeAttribute("style");
      }
    }
  }
}
