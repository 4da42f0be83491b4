/** Makes lists of Word's paragraphs: Word writes items as paragraphs with styles of its own. */

/** The marker at the start of an item, if no element says which part of the text that is. */
const MARKER = /^[\s\u00a0]*([·o§•▪–-]|\(?[0-9a-z]{1,4}[.)])[\s\u00a0]+/i;

/** @param {Element} element */
const styleTextOf = (element) => element.getAttribute("style") ?? "";

/**
 * Returns the level of an item, from 1 to 9, or 0 if the element isn't one.
 * @param {Element} element
 */
function levelOf(element) {
  const [, level] = /mso-list:[^;]*\blevel(\d+)/i.exec(styleTextOf(element)) ?? [];
  return Math.min(Number(level ?? 0), 9);
}

/**
 * Removes the marker of an item, and returns it.
 * @param {Element} item
 */
function takeMarker(item) {
  const parts = [...item.querySelectorAll("span")].filter((span) =>
    /mso-list:\s*ignore/i.test(styleTextOf(span)),
  );
  if (parts.length > 0) {
    const marker = parts.map((part) => part.textContent).join("");
    parts.forEach((part) => part.remove());
    return marker;
  }
  const document = item.ownerDocument;
  const [found, marker = ""] = MARKER.exec(item.textContent ?? "") ?? [""];
  const walker = document.createTreeWalker(item, NodeFilter.SHOW_TEXT);
  for (let left = found.length; left > 0 && walker.nextNode(); ) {
    const text = /** @type {Text} */ (walker.currentNode);
    const count = Math.min(left, text.length);
    text.deleteData(0, count);
    left -= count;
  }
  return marker;
}

/**
 * Returns the list that an item with a marker begins: its name, type and first number.
 * @param {string} marker
 * @returns {{ name: "ul" | "ol", type?: string, start?: string }}
 */
function listOf(marker) {
  const [, number] = /^[\s\u00a0]*\(?(\d{1,5}|[a-z]{1,4})[.)]/i.exec(marker) ?? [];
  if (number === undefined) {
    return { name: "ul" };
  }
  if (/^\d/.test(number)) {
    return { name: "ol", start: Number(number) === 1 ? undefined : String(Number(number)) };
  }
  const kind = /^(?:i|ii|iii|iv)$/i.test(number) ? "i" : "a";
  return { name: "ol", type: number === number.toLowerCase() ? kind : kind.toUpperCase() };
}

/**
 * @param {Document} document
 * @param {ReturnType<typeof listOf>} kind
 */
function makeList(document, { name, type, start }) {
  const list = document.createElement(name);
  if (type !== undefined) {
    list.setAttribute("type", type);
  }
  if (start !== undefined) {
    list.setAttribute("start", start);
  }
  return list;
}

/** Puts items into lists, one after another. */
class Lists {
  /**
   * The lists around the last item, from the outermost.
   * @type {Element[]}
   */
  #open = [];

  /**
   * Whether an item continues the last list: only whitespace and comments are between them.
   * @param {Element} item
   */
  #continues(item) {
    const isBetween = (/** @type {Node} */ node) =>
      node.nodeType === 8 || (node.nodeType === 3 && /^\s*$/.test(node.nodeValue ?? ""));
    let before = item.previousSibling;
    while (before && isBetween(before)) {
      before = before.previousSibling;
    }
    return this.#open.length > 0 && before === this.#open[0];
  }

  /**
   * @param {Element} item
   * @param {number} level
   */
  add(item, level) {
    const kind = listOf(takeMarker(item));
    const document = item.ownerDocument;
    if (!this.#continues(item)) {
      this.#open = [];
    }
    this.#open.length = Math.min(this.#open.length, level);
    if (this.#open.length === level && this.#open[level - 1].localName !== kind.name) {
      this.#open.pop();
    }
    while (this.#open.length < level) {
      const list = makeList(document, kind);
      this.#attach(list, item);
      this.#open.push(list);
    }
    const entry = document.createElement("li");
    while (item.firstChild) {
      entry.append(item.firstChild);
    }
    this.#open[level - 1].append(entry);
    item.remove();
  }

  /**
   * @param {Element} list
   * @param {Element} item
   */
  #attach(list, item) {
    const above = this.#open.at(-1);
    if (above) {
      (above.lastElementChild ?? above).append(list);
    } else {
      item.before(list);
    }
  }
}

/**
 * Makes lists of the paragraphs that are items. Numbered headings stay headings.
 * @param {Document} document
 */
export function makeWordLists(document) {
  const lists = new Lists();
  for (const item of document.querySelectorAll(':is(p, div)[style*="mso-list" i]')) {
    const level = levelOf(item);
    if (level > 0) {
      lists.add(item, level);
    }
  }
}
