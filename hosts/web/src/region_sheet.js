/** The style sheet of regions, for region.js: a second wall around what a page shows. */
import { windowOf } from "./region_nodes.js";
import { PLACEHOLDER_RULES } from "./region_placeholder.js";

/** What says that an element has a region. */
export const MARK = "data-hedit-region";

/** A link, and an image, whose address isn't shown look like what they are. */
const RULES = `
  [${MARK}] { contain: layout paint; isolation: isolate; }
  [${MARK}] [data-hedit-link] { color: LinkText; text-decoration: underline; }
  [${MARK}] [data-hedit-image] {
    display: inline-block; min-width: 1em; min-height: 1em; outline: 1px dashed; outline-offset: -1px;
  }
  ${PLACEHOLDER_RULES}
`;

/** @type {WeakMap<Node, CSSStyleSheet>} */
const SHEETS = new WeakMap();

/**
 * Gives the document or the shadow tree of an element the sheet, once.
 * @param {Element} element
 */
export function adoptSheet(element) {
  const found = /** @type {Document | ShadowRoot} */ (element.getRootNode());
  const root = "adoptedStyleSheets" in found ? found : element.ownerDocument;
  const sheet = SHEETS.get(root) ?? new (/** @type {any} */ (windowOf(element)).CSSStyleSheet)();
  if (!SHEETS.has(root)) {
    sheet.replaceSync(RULES);
    SHEETS.set(root, sheet);
  }
  if (!root.adoptedStyleSheets.includes(sheet)) {
    root.adoptedStyleSheets = [...root.adoptedStyleSheets, sheet];
  }
}
