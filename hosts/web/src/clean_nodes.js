/**
 * Makes the tree of a clean page of HTML from elsewhere, for clean.js, which prints it, and for rich
 * paste, which reads it.
 */
import { arrange } from "./clean_blocks.js";
import { tidy, tidyInline } from "./clean_lines.js";
import { PageReader } from "./clean_read.js";
import { isBlock } from "./clean_tree.js";
import { makeWordLists } from "./clean_word.js";

/** @typedef {import("./clean.js").CleanOptions} CleanOptions */
/** @typedef {import("./clean_read.js").Settings} Settings */
/** @typedef {import("./clean_tree.js").CleanNode} CleanNode */

/** The engine reads 200 levels. */
const MOST_DEPTH = 190;

/** @type {((html: string) => string) | null} */
let trust = null;

/** Makes the function that turns markup into markup that the page's policy trusts. */
function makeTrust() {
  /** @type {any} */
  const { trustedTypes } = globalThis;
  const plain = (/** @type {string} */ html) => html;
  if (!trustedTypes) {
    return plain;
  }
  try {
    const policy = trustedTypes.createPolicy("hedit", { createHTML: plain });
    return (/** @type {string} */ html) => policy.createHTML(html);
  } catch {
    // The page forbids a policy of that name, but its default policy may trust the text.
    return plain;
  }
}

/**
 * Parses markup into a document in which nothing runs or loads.
 * @param {string} html
 */
export function parseInert(html) {
  trust ??= makeTrust();
  return new DOMParser().parseFromString(trust(html), "text/html");
}

/**
 * Puts markup into a body, so that the parser keeps whitespace at the start. A byte order mark isn't
 * text.
 * @param {string} html
 */
export const withBody = (html) => `<body>${html.replace(/^\ufeff/, "")}`;

/** Elements whose names hide properties of a form or of the document. */
const HIDING = "button, embed, fieldset, form, iframe, img, input, object, output, select, textarea";

/**
 * Removes names that hide properties of forms and of the document.
 * @param {Document} document
 */
function removeNames(document) {
  const { querySelectorAll } = Document.prototype;
  const { removeAttribute } = Element.prototype;
  for (const element of querySelectorAll.call(document, `:is(${HIDING}):is([id], [name])`)) {
    removeAttribute.call(element, "id");
    removeAttribute.call(element, "name");
  }
}

/**
 * Cleans a page once.
 * @param {string} html
 * @param {Settings} settings
 * @param {(html: string) => Document} parse
 * @returns {CleanNode[]}
 */
export function cleanNodes(html, settings, parse) {
  const document = parse(withBody(html));
  removeNames(document);
  if (/mso-list/i.test(html)) {
    makeWordLists(document);
  }
  const nodes = arrange(new PageReader(settings).read(document.body), settings.inline);
  return settings.inline && !nodes.some(isBlock) ? tidyInline(nodes) : tidy(nodes);
}

/**
 * @param {CleanOptions} options
 * @returns {Settings}
 */
export function settingsOf({ classes, relative = false, locked = false, inline = false, ...others }) {
  const { maxDepth = 100, report } = others;
  const depth = Math.min(Math.max(Math.trunc(maxDepth) || 1, 1), MOST_DEPTH);
  const words = classes instanceof RegExp ? classes : new Set(classes ?? []);
  return { classes: words, relative, locked, maxDepth: depth, inline, report };
}
