/** Scrolls to where a region is edited, for region.js. */
import { isCharacters, isElement, windowOf } from "./region_nodes.js";

/**
 * Scrolls an element so that what stands between two heights shows, if it can be scrolled, and says
 * how far.
 * @param {Element} element
 * @param {number} top
 * @param {number} bottom
 */
function scrollTo(element, top, bottom) {
  const isPage = element === element.ownerDocument.scrollingElement;
  const { overflowY } = windowOf(element).getComputedStyle(element);
  const isScrolled = isPage || /auto|scroll/.test(overflowY);
  if (!isScrolled || element.scrollHeight <= element.clientHeight) {
    return 0;
  }
  const start = isPage ? 0 : element.getBoundingClientRect().top + element.clientTop;
  const [above, below] = [top - start, bottom - start - element.clientHeight];
  const before = element.scrollTop;
  if (above < 0 || below > 0) {
    element.scrollTop += above < 0 ? above : below;
  }
  return element.scrollTop - before;
}

/**
 * Where a place is in the window. One that has no rectangle of its own has that of the node behind it,
 * or else of its own node. One past the end of its node is at the end: WebKit's selection can be there.
 * @param {Node} node
 * @param {number} offset
 */
export function rectAt(node, offset) {
  const range = /** @type {Document} */ (node.ownerDocument).createRange();
  const length = isCharacters(node) ? node.data.length : node.childNodes.length;
  range.setStart(node, Math.min(offset, length));
  const child = node.childNodes[offset] ?? node;
  const element = isElement(child) ? child : /** @type {Element} */ (child.parentElement);
  return range.getClientRects()[0] ?? element.getBoundingClientRect();
}

/** Scrolls, as a browser does after input: in the next frame, in which the page is laid out anyway. */
export class Scroll {
  #element;

  #focus;

  /** Whether the next frame scrolls. */
  #isRevealing = false;

  /**
   * @param {HTMLElement} element
   * @param {() => { node: Node, offset: number } | null} focus where the focus of the page's selection
   *   is
   */
  constructor(element, focus) {
    this.#element = element;
    this.#focus = focus;
  }

  /** Scrolls to where the focus is. */
  reveal() {
    if (!this.#isRevealing) {
      this.#isRevealing = true;
      windowOf(this.#element).requestAnimationFrame(() => this.#scroll());
    }
  }

  #scroll() {
    this.#isRevealing = false;
    const focus = this.#focus();
    if (!focus || !this.#element.contains(focus.node)) {
      return;
    }
    let { top, bottom } = rectAt(focus.node, focus.offset);
    /** @type {Element | null} */
    let at = this.#element;
    while (at) {
      const moved = scrollTo(at, top, bottom);
      [top, bottom] = [top - moved, bottom - moved];
      const root = /** @type {Partial<ShadowRoot>} */ (at.getRootNode());
      at = at.parentElement ?? root.host ?? null;
    }
  }
}
