/** The editor that a region begins with, for region.js. */
import { cleanPage } from "./clean.js";
import { BadArgument, PageRefused } from "./hedit.js";
import { startTag } from "./region_print.js";

/** @typedef {import("./clean.js").CleanOptions} CleanOptions */
/** @typedef {import("./hedit.js").Editor} Editor */
/** @typedef {import("./hedit.js").Engine} Engine */
/** @typedef {import("./hedit.js").Limits} Limits */

/** An attribute of the element that the engine reads too. Others are the page's alone. */
const READ = /^[a-z][a-z\d-]*$/;

/**
 * Whether an element is an editing host.
 * @param {Element} element
 */
export function isHost(element) {
  return ["", "true"].includes(element.getAttribute("contenteditable") ?? "false");
}

/**
 * The tags around what an editing host holds.
 * @param {Element} host
 * @returns {readonly [string, string]}
 */
export function tagsOf(host) {
  const names = host.getAttributeNames().filter((name) => READ.test(name));
  const attributes = new Map(names.map((name) => [name, host.getAttribute(name) ?? ""]));
  return [startTag({ name: host.localName, attributes }), `</${host.localName}>`];
}

/**
 * A page as the engine is given it: cleaned, unless the host wants it as it is.
 * @param {string} html
 * @param {boolean | CleanOptions} clean
 * @param {import("./shown.js").Allowed} allowed what is shown, and so stays
 */
export function pageOf(html, clean, { classes, relative }) {
  if (clean === false) {
    return html;
  }
  return cleanPage(html, { classes, relative, ...(clean === true ? {} : clean) });
}

/**
 * The editor of what an element is to hold, and the label of the node whose children are the
 * element's.
 * @param {Engine} engine
 * @param {readonly [string, string] | null} tags those of the element, where it is an editing host
 * @param {string} html
 * @param {Limits} limits
 * @returns {{ editor: Editor, root: number }}
 */
export function open(engine, tags, html, limits) {
  if (!tags) {
    return { editor: engine.open(html, limits), root: 0 };
  }
  const editor = openWithin(engine, tags, html, limits);
  const { firstChild, lastChild } = editor.node(0);
  if (firstChild === null || firstChild !== lastChild) {
    editor.close();
    throw new BadArgument("the markup ends the element that it stands in");
  }
  return { editor, root: firstChild };
}

/**
 * @param {Engine} engine
 * @param {readonly [string, string]} tags
 * @param {string} html
 * @param {Limits} limits
 */
function openWithin(engine, [start, end], html, limits) {
  try {
    return engine.open(start + html + end, limits);
  } catch (error) {
    if (error instanceof PageRefused) {
      const at = Math.min(Math.max(error.at - start.length, 0), html.length);
      throw new PageRefused(at, error.kind);
    }
    throw error;
  }
}
