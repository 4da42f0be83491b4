/** Reads a parsed page into the tree that `cleanPage` works on. */
import { isKnownAttribute, shownAttribute } from "./shown.js";
import { StyleReader, fontColour, printStyle } from "./clean_style.js";
import {
  CLEAN_BLOCKS,
  CLEAN_INLINES,
  isNamed,
  isVoid,
  makeElement,
  namesOf,
} from "./clean_tree.js";

/** @typedef {import("./clean_tree.js").CleanNode} CleanNode */
/** @typedef {import("./clean_style.js").Style} Style */

/**
 * A part of the input that `cleanPage` left out: `element` with its content, `tags` of an element whose
 * content stayed, an `attribute`, or a declaration of a `style`. `element` is the name of the element in
 * the input, and `name` that of the attribute or of the property. There is a `value` if other values of
 * the attribute are kept.
 * @typedef {{
 *   readonly kind: "element" | "tags" | "attribute" | "style",
 *   readonly element: string,
 *   readonly name?: string,
 *   readonly value?: string,
 * }} Dropped
 */

/**
 * @typedef {{
 *   classes?: RegExp | Iterable<string>,
 *   relative: boolean,
 *   locked: boolean,
 *   maxDepth: number,
 *   inline: boolean,
 *   report: ((dropped: Dropped) => void) | undefined,
 * }} Settings
 */

/** Elements that are removed with their content. */
export const DROPPED = namesOf(
  "applet area audio base basefont bgsound canvas datalist embed fencedframe frame frameset head " +
    "iframe input keygen link map math meta meter noembed noframes noscript object optgroup option " +
    "param portal progress script select slot source style svg template textarea title track video xml",
);

/** The names that other elements get. */
const RENAMED = new Map(
  Object.entries({
    abbr: "acronym",
    code: "tt",
    div:
      "article aside center details dialog fieldset figcaption figure footer form header hgroup " +
      "legend main marquee nav search section summary",
    pre: "listing plaintext xmp",
    s: "strike",
    span: "bdi bdo big data nobr time",
    ul: "dir menu",
  }).flatMap(([name, others]) => others.split(" ").map((other) => [other, name])),
);

/** Formats that a style may switch off, as Google Docs does. */
const BOLD = namesOf("b strong");

const SLANTED = namesOf("i em cite dfn var");

/** Elements that are bold, slanted, decorated or raised too. */
const BOLD_BLOCKS = namesOf("h1 h2 h3 h4 h5 h6 th");

const SLANTED_BLOCKS = namesOf("address");

const DECORATED = namesOf("a u s ins del");

const RAISED = namesOf("sub sup td th");

/** Blocks whose `align` doesn't align text. */
const NOT_ALIGNED = namesOf("table hr ul ol li dl col colgroup");

/** Attributes with an address: browsers ignore whitespace around it. */
const ADDRESSES = namesOf("href src");

/** Attributes without a value. */
const BARE = namesOf("reversed");

/** Elements that mean nothing without attributes: they don't count as levels. */
const BARE_ELEMENTS = namesOf("span font div");

const HTML = "http://www.w3.org/1999/xhtml";

/** Characters that the engine and browsers read differently, or that aren't Unicode. */
const UNREADABLE = /[\0\r\ud800-\udfff]/;

/**
 * A text as the engine reads it: without U+0000 and half surrogates, with line feeds.
 * @param {string} text
 */
export function wellFormed(text) {
  if (!UNREADABLE.test(text)) {
    return text;
  }
  const lines = text.replace(/\0/g, "").replace(/\r\n?/g, "\n");
  // WebKit's \p{Surrogate} misses half of a pair before U+E000 and later ones.
  return lines.replace(/[\ud800-\udbff][\udc00-\udfff]|[\ud800-\udfff]/g, (found) =>
    found.length === 2 ? found : "\ufffd",
  );
}

/**
 * The context of a node: how many elements are kept around it, whether one is a link, is bold or is
 * slanted, and how whitespace is shown. `pre` is that of the element, and the other values are those
 * of `white-space-collapse`.
 * @typedef {{
 *   depth: number,
 *   isLinked: boolean,
 *   isBold: boolean,
 *   isSlanted: boolean,
 *   whiteSpace: "collapse" | "pre" | "preserve" | "preserve-breaks",
 * }} Surroundings
 */

/** @type {Surroundings} */
const BODY = { depth: 0, isLinked: false, isBold: false, isSlanted: false, whiteSpace: "collapse" };

/**
 * Rewrites whitespace that a style preserves: line feeds as `br`, and spaces as U+00A0.
 * @param {string} text
 * @param {boolean} keepsSpaces whether spaces are preserved too
 * @returns {CleanNode[]}
 */
function preserve(text, keepsSpaces) {
  const lines = text.split("\n").map((line, index) => {
    if (!keepsSpaces) {
      return line;
    }
    const wide = line
      .replace(/\t/g, "    ")
      .replace(/ {2,}/g, (run) => `${"\u00a0".repeat(run.length - 1)} `);
    return index > 0 ? wide.replace(/^ /, "\u00a0") : wide;
  });
  return lines.flatMap((line, index) => (index > 0 ? [makeElement("br", []), line] : [line]));
}

/** Reads the nodes of one page. */
export class PageReader {
  #settings;

  #styles = new StyleReader();

  /** @param {Settings} settings */
  constructor(settings) {
    this.#settings = settings;
  }

  /**
   * Returns the clean nodes of a body. If it is written from right to left, they are in a division.
   * @param {HTMLElement} body
   */
  read(body) {
    const nodes = this.#children(body, BODY);
    const isRightToLeft = [body, body.ownerDocument.documentElement].some(
      (element) => element.getAttribute("dir")?.toLowerCase() === "rtl",
    );
    return isRightToLeft ? [makeElement("div", nodes, [["dir", "rtl"]])] : nodes;
  }

  /**
   * @param {Element} element
   * @param {Surroundings} around
   * @returns {CleanNode[]}
   */
  #children(element, around) {
    /** @type {CleanNode[]} */
    const nodes = [];
    for (let child = element.firstChild; child; child = child.nextSibling) {
      if (child.nodeType === 1) {
        for (const node of this.#element(/** @type {Element} */ (child), around)) {
          nodes.push(node);
        }
      } else if (child.nodeType === 3 || child.nodeType === 4) {
        for (const node of this.#text(/** @type {Text} */ (child).data, around)) {
          nodes.push(node);
        }
      }
    }
    return nodes;
  }

  /**
   * @param {string} data
   * @param {Surroundings} around
   * @returns {CleanNode[]}
   */
  #text(data, { whiteSpace }) {
    const text = wellFormed(data);
    const isPreserved = whiteSpace === "preserve" || whiteSpace === "preserve-breaks";
    return isPreserved ? preserve(text, whiteSpace === "preserve") : [text];
  }

  /**
   * @param {Element} element
   * @param {Surroundings} around
   * @returns {CleanNode[]}
   */
  #element(element, around) {
    const style = this.#styles.of(element);
    if (this.#isDropped(element, style)) {
      this.#tell({ kind: "element", element: element.localName });
      return [];
    }
    const name = nameOf(element, style);
    const isTooDeep = around.depth >= this.#settings.maxDepth && name !== "br";
    if (name === null || isTooDeep || (name === "a" && around.isLinked)) {
      return this.#unwrapped(element, name, around, style);
    }
    const attributes = this.#attributes(element, name, style, around);
    const isLink = name === "a" && attributes.some(([attribute]) => attribute === "href");
    if (name === "img" && !attributes.some(([attribute]) => attribute === "src")) {
      return this.#unwrapped(element, name, around, style);
    }
    const clean = name === "a" && !isLink ? "span" : name;
    const isBare = attributes.length === 0 && BARE_ELEMENTS.has(clean);
    const inner = within(around, name, isLink, style);
    const depth = isBare ? around.depth : inner.depth;
    const children = isVoid(name) ? [] : this.#children(element, { ...inner, depth });
    return isBare && clean !== "div" ? children : [makeElement(clean, children, attributes)];
  }

  /**
   * Returns the content of an element that isn't kept, or the text of an image. Blocks below the
   * deepest level leave a line break.
   * @param {Element} element
   * @param {string | null} name
   * @param {Surroundings} around
   * @param {Style} style
   * @returns {CleanNode[]}
   */
  #unwrapped(element, name, around, style) {
    this.#tell({ kind: "tags", element: element.localName });
    if (name === "img") {
      const text = element.getAttribute("alt");
      return text ? [wellFormed(text)] : [];
    }
    const inner = within(around, name === "pre" ? null : name, false, style);
    const whiteSpace = name === "pre" ? "preserve" : inner.whiteSpace;
    const children = this.#children(element, { ...inner, depth: around.depth, whiteSpace });
    if (name === null || !CLEAN_BLOCKS.has(name)) {
      return children;
    }
    const isEnded = children.length > 0 && isNamed(children[children.length - 1], "br");
    return [" ", ...children, ...(isEnded ? [] : [makeElement("br", [])])];
  }

  /**
   * Whether an element is removed with its content.
   * @param {Element} element
   * @param {Style} style
   */
  #isDropped(element, style) {
    const name = element.localName;
    const isBreak = name === "br" && element.classList.contains("Apple-interchange-newline");
    const isHidden = style.isHidden || element.hasAttribute("hidden");
    return element.namespaceURI !== HTML || DROPPED.has(name) || isBreak || isHidden;
  }

  /**
   * @param {Element} element
   * @param {string} name that of the clean one
   * @param {Style} style
   * @param {Surroundings} around
   * @returns {[string, string][]}
   */
  #attributes(element, name, style, around) {
    const names = element.hasAttributes() ? element.getAttributeNames() : [];
    const kept = names.flatMap((attribute) => {
      const value = this.#attribute(element, name, attribute);
      return value === null ? [] : [/** @type {[string, string]} */ ([attribute, value])];
    });
    const said = style.declarations.filter((declaration) => tells(declaration, name, around));
    const all = [...said, ...impliedStyle(element, name, style)];
    const text = printStyle(all, CLEAN_BLOCKS.has(name));
    if (text) {
      kept.push(["style", text]);
    }
    for (const property of this.#settings.report ? style.dropped : []) {
      this.#tell({ kind: "style", element: element.localName, name: property });
    }
    return kept;
  }

  /**
   * Returns an attribute as it is kept, or null. The values of unknown ones aren't looked up: an
   * element may have thousands.
   * @param {Element} element
   * @param {string} name that of the clean one
   * @param {string} attribute
   */
  #attribute(element, name, attribute) {
    if (attribute === "style" || attribute === "align") {
      return null;
    }
    const isKnown = isKnownAttribute(name, attribute);
    const value = isKnown ? wellFormed(element.getAttribute(attribute) ?? "") : undefined;
    const kept = value === undefined ? null : this.#value(name, attribute, value);
    if (kept === null) {
      this.#tell({ kind: "attribute", element: element.localName, name: attribute, value });
    }
    return kept;
  }

  /**
   * @param {string} name
   * @param {string} attribute
   * @param {string} given
   */
  #value(name, attribute, given) {
    const value = ADDRESSES.has(attribute) ? given.trim() : given;
    if (attribute === "contenteditable") {
      return this.#settings.locked && value.toLowerCase() === "false" ? "false" : null;
    }
    if (attribute === "color") {
      return fontColour(value) || null;
    }
    const shown = shownAttribute(name, attribute, value, this.#settings);
    return shown !== null && BARE.has(attribute) ? "" : shown;
  }

  /** @param {Dropped} dropped */
  #tell(dropped) {
    this.#settings.report?.(dropped);
  }
}

/**
 * Returns the name of the clean element for another one, or null if it isn't kept.
 * @param {Element} element
 * @param {Style} style
 */
function nameOf(element, style) {
  const given = element.localName;
  const isLight = BOLD.has(given) && /^(?:normal|[1-5]00)$/.test(style.weight);
  if (isLight || (SLANTED.has(given) && style.slope === "normal")) {
    return "span";
  }
  const name = RENAMED.get(given) ?? given;
  return CLEAN_BLOCKS.has(name) || CLEAN_INLINES.has(name) ? name : null;
}

/**
 * Returns the declarations that the name of an element or its `align` imply.
 * @param {Element} element
 * @param {string} name
 * @param {Style} style
 * @returns {[string, string][]}
 */
function impliedStyle(element, name, { declarations }) {
  const isSaid = (/** @type {string} */ property) =>
    declarations.some(([each]) => each === property);
  if (element.localName === "big") {
    return isSaid("font-size") ? [] : [["font-size", "large"]];
  }
  if (!CLEAN_BLOCKS.has(name) || NOT_ALIGNED.has(name) || isSaid("text-align")) {
    return [];
  }
  const align = element.getAttribute("align")?.toLowerCase() ?? "";
  if (/^(?:left|right|center|justify)$/.test(align)) {
    return [["text-align", align]];
  }
  return element.localName === "center" ? [["text-align", "center"]] : [];
}

/**
 * Whether a declaration changes anything: one that switches a format off needs that format around it.
 * @param {readonly [string, string]} declaration
 * @param {string} name that of the element
 * @param {Surroundings} around
 */
function tells([property, value], name, { isBold, isSlanted }) {
  switch (`${property}: ${value}`) {
    case "font-weight: normal":
    case "font-weight: 400":
      return isBold || BOLD.has(name) || BOLD_BLOCKS.has(name);
    case "font-style: normal":
      return isSlanted || SLANTED.has(name) || SLANTED_BLOCKS.has(name);
    case "text-decoration: none":
      return DECORATED.has(name);
    case "vertical-align: baseline":
      return RAISED.has(name);
    default:
      return true;
  }
}

/**
 * Returns the context of the children of an element.
 * @param {Surroundings} around
 * @param {string | null} name
 * @param {boolean} isLink
 * @param {Style} style
 * @returns {Surroundings}
 */
function within(around, name, isLink, { weight, slope, whiteSpace }) {
  const isIn = (/** @type {ReadonlySet<string>[]} */ ...sets) =>
    name !== null && sets.some((set) => set.has(name));
  return {
    depth: around.depth + 1,
    isLinked: around.isLinked || isLink,
    isBold: around.isBold || isIn(BOLD, BOLD_BLOCKS) || /^(?:bold|[6-9]00)/.test(weight),
    isSlanted:
      around.isSlanted || isIn(SLANTED, SLANTED_BLOCKS) || /^(?:italic|oblique)/.test(slope),
    whiteSpace: whiteSpaceWithin(around.whiteSpace, name, whiteSpace),
  };
}

/**
 * Returns how whitespace is shown in an element. Blocks are moved out of a `pre`, so there the
 * whitespace is rewritten.
 * @param {Surroundings["whiteSpace"]} around
 * @param {string | null} name
 * @param {Style["whiteSpace"]} styled
 * @returns {Surroundings["whiteSpace"]}
 */
function whiteSpaceWithin(around, name, styled) {
  if (name === "pre") {
    return "pre";
  }
  if (around === "pre") {
    return name !== null && CLEAN_BLOCKS.has(name) ? "preserve" : "pre";
  }
  return styled || around;
}
