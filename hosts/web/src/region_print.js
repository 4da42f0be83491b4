/** HTML as the engine prints it, for region.js: without the engine, from what the page shows. */
import { isElement, isText } from "./region_nodes.js";
import { VOIDS } from "./shown.js";

/**
 * What the engine has of an element, whatever is shown of it.
 * @typedef {{ readonly name: string, readonly attributes: ReadonlyMap<string, string> }} Content
 */

/** @type {Readonly<Record<string, string>>} */
const REFERENCES = { "&": "&amp;", "\u00a0": "&nbsp;", "<": "&lt;", ">": "&gt;" };

/** @param {string} text */
export function escaped(text) {
  return text.replace(/[&\u00a0<>]/g, (character) => REFERENCES[character]);
}

/** @param {Content} element */
export function startTag({ name, attributes }) {
  let printed = `<${name}`;
  for (const [attribute, value] of attributes) {
    printed += ` ${attribute}="${escaped(value).replaceAll('"', "&quot;")}"`;
  }
  return `${printed}>`;
}

/**
 * The HTML of what stands in a node of the page. Texts that the engine doesn't have yet count, since
 * an input method may be composing them; other nodes of the page's own don't.
 * @param {Node} parent
 * @param {(node: Node) => Content | string | undefined} contentOf an element's content, or a
 *   comment's characters; undefined where the engine has no such node
 * @returns {string}
 */
export function print(parent, contentOf) {
  let printed = "";
  for (let node = parent.firstChild; node; node = node.nextSibling) {
    printed += printNode(node, contentOf);
  }
  return printed;
}

/**
 * @param {Node} node
 * @param {(node: Node) => Content | string | undefined} contentOf
 */
function printNode(node, contentOf) {
  if (isText(node)) {
    return escaped(node.data);
  }
  const content = contentOf(node);
  if (typeof content === "string") {
    return `<!--${content}-->`;
  }
  const inner = isElement(node) ? print(node, contentOf) : "";
  if (!content) {
    return inner;
  }
  // A command may put a br into a rule.
  const end = VOIDS.has(content.name) ? "" : `</${content.name}>`;
  return startTag(content) + inner + end;
}
