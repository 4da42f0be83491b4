/**
 * What a page and an engine have selected, for region.js: each is shown to the other. In a shadow tree
 * a document tells of its selection only to those who name the tree.
 */
import { elementOf, firstLeaf, lastLeaf, lockedPart } from "./region_places.js";
import { isCaret, isElement, isSame, isText } from "./region_nodes.js";
import { rectAt } from "./region_scroll.js";

/** @typedef {import("./hedit.js").Editor} Editor */
/** @typedef {import("./hedit.js").Selection} Selection */
/** @typedef {import("./region_commands.js").Commands} Commands */
/** @typedef {import("./region_places.js").NodePlace} NodePlace */
/** @typedef {import("./region_view.js").View} View */

/** @typedef {{ readonly anchor: NodePlace, readonly focus: NodePlace }} Ends */

/** The selection of a region's page, and that of its editor. */
export class Selections {
  #editor;

  #view;

  #commands;

  #element;

  /**
   * The selection as the page had it when it was last read or shown, and as the engine has it: an end
   * in a locked part is elsewhere there.
   * @type {{ page: Selection, engine: Selection } | null}
   */
  #selected = null;

  /**
   * @param {Editor} editor
   * @param {View} view
   * @param {Commands} commands
   */
  constructor(editor, view, commands) {
    this.#editor = editor;
    this.#view = view;
    this.#commands = commands;
    this.#element = view.element;
  }

  /** The document or the shadow tree of the element. */
  get #root() {
    return /** @type {Document | ShadowRoot} */ (this.#element.getRootNode());
  }

  get #selection() {
    return this.#element.ownerDocument.getSelection();
  }

  /** The element that has the focus. */
  get active() {
    return this.#root.activeElement ?? null;
  }

  /**
   * The ends of the page's selection; null where nothing is selected.
   * @returns {Ends | null}
   */
  ends() {
    const selection = /** @type {any} */ (this.#selection);
    if (!selection || selection.rangeCount === 0) {
      return null;
    }
    const root = this.#root;
    if (!("host" in root)) {
      const { anchorNode, anchorOffset, focusNode, focusOffset } = selection;
      return anchorNode && focusNode
        ? {
            anchor: { node: anchorNode, offset: anchorOffset },
            focus: { node: focusNode, offset: focusOffset },
          }
        : null;
    }
    // The compiler's types have neither this nor the direction yet.
    const [range] = selection.getComposedRanges({ shadowRoots: [root] });
    if (!range) {
      return null;
    }
    const start = { node: range.startContainer, offset: range.startOffset };
    const end = { node: range.endContainer, offset: range.endOffset };
    const isBackward = selection.direction === "backward";
    return isBackward ? { anchor: end, focus: start } : { anchor: start, focus: end };
  }

  /**
   * The page's selection as a range of its document; null where it is a caret, or elsewhere.
   * @returns {Range | null}
   */
  range() {
    const ends = this.points() && this.ends();
    if (!ends) {
      return null;
    }
    if (!("host" in this.#root)) {
      return this.#selection?.isCollapsed ? null : (this.#selection?.getRangeAt(0) ?? null);
    }
    const range = this.#element.ownerDocument.createRange();
    range.setStart(ends.anchor.node, ends.anchor.offset);
    range.setEnd(ends.anchor.node, ends.anchor.offset);
    if (range.comparePoint(ends.focus.node, ends.focus.offset) < 0) {
      range.setStart(ends.focus.node, ends.focus.offset);
    } else {
      range.setEnd(ends.focus.node, ends.focus.offset);
    }
    return range.collapsed ? null : range;
  }

  /**
   * The selection that the page shows, as points; null where it is elsewhere.
   * @returns {Selection | null}
   */
  points() {
    const ends = this.ends();
    const anchor = ends && this.#view.point(ends.anchor.node, ends.anchor.offset);
    const focus = ends && this.#view.point(ends.focus.node, ends.focus.offset);
    return anchor && focus ? { anchor, focus } : null;
  }

  /** Whether a part of one text is selected, and not all of it. */
  isPartOfText() {
    const { anchor, focus } = this.ends() ?? {};
    if (!anchor || !focus || anchor.node !== focus.node || !isText(anchor.node)) {
      return false;
    }
    return Math.abs(anchor.offset - focus.offset) < anchor.node.length;
  }

  /** Selects what stands behind a caret of the page, as the browser knows it. */
  extendForward() {
    if (this.points()) {
      this.#selection?.modify("extend", "forward", "character");
    }
  }

  /**
   * Selects in the engine what the page shows as selected. The same again isn't selected: that would
   * end the typing. Says whether the engine's selection is another one now.
   */
  read() {
    const page = this.points();
    if (!page || isSame(page, this.#selected?.page ?? null)) {
      return false;
    }
    const before = this.#editor.selection();
    this.#commands.select(isCaret(page) ? this.#view.inBlock(page) : page);
    if (!this.#editor.enabled("delete")) {
      this.#commands.select(this.#withoutLocked(page));
    }
    const engine = /** @type {Selection} */ (this.#editor.selection());
    this.#selected = { page, engine };
    return !isSame(before, engine);
  }

  /**
   * A selection with an end in a locked part, and one outside of it: the former end is put beside the
   * part, so that the part stays out.
   * @param {Selection} selection
   * @returns {Selection}
   */
  #withoutLocked({ anchor, focus }) {
    const ends = [anchor, focus].map((point) => this.#view.place(point).node);
    const parts = ends.map((node) => lockedPart(node, this.#element));
    const part = parts[0] ?? parts[1];
    const other = parts[0] ? ends[1] : ends[0];
    if (!part || !part.parentNode || (parts[0] && parts[1])) {
      return { anchor, focus };
    }
    const isBehind = other.compareDocumentPosition(part) & Node.DOCUMENT_POSITION_FOLLOWING;
    const index = [...part.parentNode.childNodes].indexOf(part) + (isBehind ? 0 : 1);
    const beside = this.#view.point(part.parentNode, index) ?? anchor;
    return parts[0] ? { anchor: beside, focus } : { anchor, focus: beside };
  }

  /**
   * Shows the engine's selection where the page's selection is in the region, or at any rate. The
   * focus stays where it is, as in a toolbar.
   * @param {boolean} always
   */
  show(always = false) {
    const engine = this.#editor.selection();
    this.#selected = engine && { page: this.#view.shown(engine), engine };
    const { active } = this;
    const around = [active, this.ends()?.anchor.node ?? null];
    const isHere = around.some((node) => this.#element.contains(node));
    const isShown = !always && isSame(this.#selected?.page ?? null, this.points());
    if (!engine || isShown || !(always || isHere)) {
      return;
    }
    const [anchor, focus] = [engine.anchor, engine.focus].map((point) => this.#view.place(point));
    this.#selection?.setBaseAndExtent(anchor.node, anchor.offset, focus.node, focus.offset);
    if (!always && isElement(active) && active !== this.active) {
      active.focus({ preventScroll: true });
    }
  }

  /**
   * Where a selection is in the window: a rectangle for each line of it.
   * @param {Selection} selection
   */
  rects({ anchor, focus }) {
    const [from, to] = [this.#view.place(anchor), this.#view.place(focus)];
    const range = this.#element.ownerDocument.createRange();
    range.setStart(from.node, from.offset);
    if (range.comparePoint(to.node, to.offset) < 0) {
      range.setStart(to.node, to.offset);
      range.setEnd(from.node, from.offset);
    } else {
      range.setEnd(to.node, to.offset);
    }
    const rects = [...range.getClientRects()];
    return rects.length > 0 ? rects : [rectAt(range.startContainer, range.startOffset)];
  }

  /**
   * What is in the editing host that is selected in, and else in the first one; null where there is
   * none.
   * @returns {Selection | null}
   */
  all() {
    const hosts = '[contenteditable=""], [contenteditable="true"]';
    const node = this.ends()?.focus.node;
    const near = node && this.#element.contains(node) ? elementOf(node).closest(hosts) : null;
    const isWithin = near !== null && this.#element.contains(near);
    const host = isWithin ? near : (this.#element.querySelector(hosts) ?? this.#element);
    const [first, last] = [firstLeaf(host), lastLeaf(host)];
    const anchor = this.#view.point(first, 0);
    const focus = this.#view.point(last, isText(last) ? last.length : last.childNodes.length);
    return anchor && focus ? { anchor, focus } : null;
  }

  /**
   * Keeps where the engine's selection is in the page while that is changed: what is given selects there
   * again.
   */
  keep() {
    const selection = this.#editor.selection();
    const { anchor, focus } = selection ?? {};
    const [from, to] = [anchor, focus].map((point) => this.#rangeAt(point));
    return () => {
      const ends = [from, to].map((range) =>
        range ? this.#view.point(range.startContainer, range.startOffset) : null,
      );
      if (ends[0] && ends[1]) {
        this.#commands.selectAgain({ anchor: ends[0], focus: ends[1] });
      }
    };
  }

  /**
   * A range of the page that is a point, and goes along with what is there.
   * @param {import("./hedit.js").Point | undefined} point
   */
  #rangeAt(point) {
    if (!point) {
      return null;
    }
    const { node, offset } = this.#view.place(point);
    const range = this.#element.ownerDocument.createRange();
    range.setStart(node, offset);
    range.collapse(true);
    return range;
  }

  /** The first difference between the two; null where there is none. */
  difference() {
    const page = this.points();
    if (page && !isSame(page, this.#selected?.page ?? null)) {
      return `the page selects ${JSON.stringify(page)}, and that wasn't read`;
    }
    const engine = this.#editor.selection();
    return isSame(engine, this.#selected?.engine ?? null)
      ? null
      : `the engine selects ${JSON.stringify(engine)}, and that isn't shown`;
  }
}
