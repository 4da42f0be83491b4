/**
 * Cleans HTML from elsewhere. The result is a page that the engine reads. It has only elements,
 * attributes, styles and addresses of the tables in shown.js, and cleaning it again changes nothing.
 */
import { PageRefused } from "./hedit_errors.js";
import { PageKind } from "./hedit_constants.js";
import { MOST_BYTES } from "./clean_blocks.js";
import { cleanNodes, parseInert, settingsOf, withBody } from "./clean_nodes.js";
import { print } from "./clean_tree.js";

/** @typedef {import("./clean_read.js").Dropped} Dropped */

/**
 * How a page is cleaned.
 * @typedef {object} CleanOptions
 * @property {RegExp | Iterable<string>} [classes] Words of `class` that stay: a list, or an expression
 *   that matches whole words. Default: none.
 * @property {boolean} [relative] Whether relative addresses stay. Default: false.
 * @property {boolean} [locked] Whether `contenteditable="false"` stays. Default: false.
 * @property {number} [maxDepth] How many levels of elements stay, from 1 to 190. The text of deeper
 *   ones stays. Default: 100.
 * @property {boolean} [inline] Whether a page of one line gets no `p` around it, and keeps a space at
 *   each end. Default: false.
 * @property {(dropped: Dropped) => void} [report] Called for each part that is left out.
 * @property {(html: string) => Document} [parse] Parses markup into a document in which nothing runs.
 *   Default: a `DOMParser`.
 */

/** How often a page is cleaned until it doesn't change. */
const MOST_ROUNDS = 6;

/**
 * Cleans a page once.
 * @param {string} html
 * @param {import("./clean_read.js").Settings} settings
 * @param {(html: string) => Document} parse
 */
const cleanOnce = (html, settings, parse) => print(cleanNodes(html, settings, parse));

/**
 * Returns the text of a page, each line as a paragraph.
 * @param {string} html
 * @param {import("./clean_read.js").Settings} settings
 * @param {(html: string) => Document} parse
 */
function cleanText(html, settings, parse) {
  const text = parse(withBody(html)).body.textContent ?? "";
  const lines = text.replace(/&/g, "&amp;").replace(/</g, "&lt;").split(/[\n\r]+/);
  const markup = lines.map((line) => (line.trim() ? `<p>${line}</p>` : "")).join("");
  return cleanOnce(markup, settings, parse);
}

/**
 * @param {string} html
 * @throws {PageRefused}
 */
function checkLength(html) {
  if (html.length * 3 > MOST_BYTES && new TextEncoder().encode(html).length > MOST_BYTES) {
    throw new PageRefused(MOST_BYTES, PageKind.TOO_LONG);
  }
  return html;
}

/**
 * Cleans HTML from elsewhere, such as a mail or the clipboard. The engine reads the result, and
 * cleaning that again with the same options changes nothing. Text is lost only with elements that are
 * removed with their content. It needs a browser's document.
 * @param {string} html
 * @param {CleanOptions} options
 * @returns {string}
 * @throws {PageRefused} The result has more than 4 MiB less 4 KiB.
 */
export function cleanPage(html, options = {}) {
  const parse = options.parse ?? parseInert;
  const settings = settingsOf(options);
  let page = String(html);
  for (let round = 0; round < MOST_ROUNDS; round += 1) {
    const cleaned = cleanOnce(page, settings, parse);
    if (cleaned === page) {
      return checkLength(page);
    }
    checkLength(cleaned);
    page = cleaned;
    settings.report = undefined;
  }
  return checkLength(cleanText(page, settings, parse));
}
