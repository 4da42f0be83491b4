/** What the user of a region copies, pastes, drags and drops, for region.js. */
import { cleanPage } from "./clean.js";
import { PageRefused } from "./hedit.js";
import { selectedHtml } from "./region_copy.js";
import { isOfBrowser } from "./region_input.js";
import { indexOf } from "./region_places.js";
import { isCaret, isElement } from "./region_nodes.js";

/** @typedef {import("./hedit.js").Point} Point */
/** @typedef {import("./hedit.js").Selection} Selection */
/** @typedef {import("./region_paste.js").Pastes} Pastes */
/** @typedef {import("./region_user.js").Acts} Acts */

/**
 * What of a region its transfers need, beside what its user's acts do.
 * @typedef {Acts & {
 *   inTurn: (call: () => boolean) => boolean,
 *   refuse: (command: string, reason: "denied" | "impossible" | "lossy" | "unknown", text?: string) => void,
 *   offer: (files: File[], at: Point | null, source: "paste" | "drop") => boolean,
 * }} Transferring
 */

/**
 * What the clipboard or a drag holds. `isOwn` says that it is of a region.
 * @typedef {{ html: string, text: string, files: File[], isOwn: boolean, isPlain: boolean }} Content
 */

/**
 * What a region drags: the HTML as the engine has it, and where it is.
 * @typedef {{ html: string, text: string, range: Selection }} Dragged
 */

/** The type of HTML as a region has it, and what says so in HTML where a clipboard has no such type. */
const OWN = "application/x-hedit";

const OWN_COMMENT = "<!--hedit-->";

/** Names of marks, while something is moved. */
const MOVED = "hedit moved";

const CARET = "hedit caret";

/**
 * @param {DataTransfer | null} transfer
 * @returns {Content}
 */
function read(transfer) {
  const own = transfer?.getData(OWN) ?? "";
  const html = own || (transfer?.getData("text/html") ?? "");
  return {
    html,
    text: transfer?.getData("text/plain") ?? "",
    files: [...(transfer?.files ?? [])],
    isOwn: own !== "" || html.includes(OWN_COMMENT),
    isPlain: false,
  };
}

/**
 * Whether a key pastes plain text.
 * @param {KeyboardEvent} event
 */
const isPlainPaste = ({ code, key, ctrlKey, metaKey, shiftKey }) =>
  shiftKey && (ctrlKey || metaKey) && (key.toLowerCase() === "v" || code === "KeyV");

/** The clipboard and the drags of a region. */
export class Transfers {
  #acts;

  #pastes;

  #clean;

  /** Whether the key that is down pastes plain text. */
  #isPlain = false;

  /**
   * What is about to be pasted: the input that follows may have less of it.
   * @type {Content | null}
   */
  #pasted = null;

  /**
   * What is dragged from here.
   * @type {Dragged | null}
   */
  #dragged = null;

  /**
   * What is dropped here, until the input that follows.
   * @type {Content | null}
   */
  #dropped = null;

  /** Whether what is dragged goes from where it was. */
  #isMoved = false;

  /**
   * @param {Transferring} acts
   * @param {Pastes} pastes
   * @param {import("./clean.js").CleanOptions} clean
   */
  constructor(acts, pastes, clean) {
    this.#acts = acts;
    this.#pastes = pastes;
    this.#clean = clean;
  }

  get #session() {
    return this.#acts.session();
  }

  // Copies.

  /** @param {ClipboardEvent} event */
  copy(event) {
    const { editor, selections, view } = this.#session;
    const text = editor.selectionText();
    if (!selections.range() || text === null || !event.clipboardData) {
      return false;
    }
    this.#write(event.clipboardData, selectedHtml(editor, view.root), text);
    event.preventDefault();
    return true;
  }

  /** @param {ClipboardEvent} event */
  cut(event) {
    if (!this.copy(event)) {
      return;
    }
    if (this.#acts.isDenied("delete")) {
      this.#acts.refuse("delete", "denied");
    } else {
      this.#acts.act(() => this.#session.commands.run("delete"));
    }
  }

  /**
   * @param {DataTransfer} transfer
   * @param {string} html
   * @param {string} text
   */
  #write(transfer, html, text) {
    transfer.setData("text/plain", text);
    try {
      const clean = cleanPage(html, { ...this.#clean, inline: true });
      transfer.setData("text/html", OWN_COMMENT + clean);
      transfer.setData(OWN, html);
    } catch (error) {
      if (!(error instanceof PageRefused)) {
        throw error;
      }
      // It is too long to be cleaned: then its text is copied alone.
    }
  }

  // Pastes.

  /** @param {KeyboardEvent} event */
  keyDown(event) {
    this.#isPlain = isPlainPaste(event);
  }

  /**
   * Keeps what is pasted for the input that follows. Files alone may have none.
   * @param {ClipboardEvent} event
   */
  paste(event) {
    const content = { ...read(event.clipboardData), isPlain: this.#isPlain };
    this.#isPlain = false;
    this.#pasted = content;
    if (content.files.length > 0 && content.html === "" && content.text === "") {
      event.preventDefault();
      this.#pasted = null;
      const at = this.#session.editor.selection()?.focus ?? null;
      this.#offer(content.files, at, "paste");
    }
  }

  /**
   * Answers an input that pastes, drops, or takes away what is dragged. Says whether it is one.
   * @param {InputEvent} event
   */
  input(event) {
    const kind = event.inputType;
    if (isOfBrowser(event)) {
      return false;
    }
    if (kind.startsWith("insertFromPaste")) {
      event.preventDefault();
      const content = this.#pasted ?? read(event.dataTransfer);
      this.#pasted = null;
      this.#inTurn(() => this.#insert(content, null, kind));
      return true;
    }
    if (kind === "insertFromDrop") {
      event.preventDefault();
      this.#drop(event, this.#dropped ?? read(event.dataTransfer));
      return true;
    }
    if (kind === "deleteByDrag" && this.#dropped && this.#dragged) {
      // It goes once it was pasted where it is dropped.
      event.preventDefault();
      this.#isMoved = true;
      return true;
    }
    return false;
  }

  /**
   * Does something after a long paste, and shows where.
   * @param {() => void} call
   */
  #inTurn(call) {
    this.#acts.inTurn(() => {
      if (this.#acts.isEditable()) {
        call();
        this.#acts.reveal();
      }
      return true;
    });
  }

  /**
   * Pastes something at a range, or at the selection, and tells where that isn't done.
   * @param {Content} content
   * @param {Selection | null} range
   * @param {string} kind that of the input
   */
  #insert(content, range, kind) {
    if (range) {
      this.#acts.act(() => {
        this.#session.commands.select(range);
        return true;
      });
    }
    const outcome = this.#pastes.paste(content);
    if (outcome === "empty" && content.files.length > 0) {
      const at = this.#session.editor.selection()?.focus ?? null;
      this.#offer(content.files, at, kind === "insertFromDrop" ? "drop" : "paste");
    } else if (outcome === "empty") {
      this.#acts.refuse(kind, "unknown");
    } else if (outcome === "lossy") {
      this.#acts.refuse(kind, outcome, content.text);
    } else if (outcome !== "done") {
      this.#acts.refuse("insertText", outcome, content.text);
    }
  }

  /**
   * Offers files to the host.
   * @param {File[]} files
   * @param {Point | null} at
   * @param {"paste" | "drop"} source
   */
  #offer(files, at, source) {
    if (this.#acts.isEditable() && !this.#acts.offer(files, at, source)) {
      this.#acts.refuse(source === "paste" ? "insertFromPaste" : "insertFromDrop", "unknown");
    }
  }

  // Drags.

  /**
   * Begins to drag what is selected, or an image.
   * @param {DragEvent} event
   */
  dragStart(event) {
    const { editor, selections, view } = this.#session;
    this.#endDrag();
    const { target, dataTransfer } = event;
    const node = /** @type {Node} */ (target);
    const isImage = isElement(node) && view.nameOf(node) === "img";
    if (!dataTransfer || (!isImage && !selections.range())) {
      return;
    }
    const selection = isImage ? this.#around(node) : editor.selection();
    const text = isImage ? "" : (editor.selectionText() ?? "");
    const html = isImage
      ? editor.nodeHtml(/** @type {number} */ (view.label(node)))
      : selectedHtml(editor, view.root);
    if (selection && !isCaret(selection)) {
      this.#dragged = { html, text, range: selection };
      this.#write(dataTransfer, html, text);
    }
  }

  /**
   * @param {Node} node
   * @returns {Selection | null}
   */
  #around(node) {
    const { view } = this.#session;
    const parent = /** @type {Node} */ (node.parentNode);
    const anchor = view.point(parent, indexOf(node));
    const focus = view.point(parent, indexOf(node) + 1);
    return anchor && focus && { anchor, focus };
  }

  /**
   * Lets files be dropped: a browser would leave the page for them.
   * @param {DragEvent} event
   */
  dragOver(event) {
    if (event.dataTransfer?.types.includes("Files") && this.#acts.isEditable()) {
      event.preventDefault();
    }
  }

  /**
   * Keeps what is dropped for the input that follows. Files alone have none.
   * @param {DragEvent} event
   */
  drop(event) {
    const content = read(event.dataTransfer);
    this.#dropped = content;
    if (content.files.length > 0 && content.html === "" && content.text === "") {
      event.preventDefault();
      this.#endDrag();
      this.#offer(content.files, this.#pointAt(event), "drop");
    }
  }

  /** Forgets what was dragged. */
  dragEnd() {
    this.#endDrag();
  }

  #endDrag() {
    this.#dragged = null;
    this.#dropped = null;
    this.#isMoved = false;
  }

  /**
   * The point under the pointer.
   * @param {DragEvent} event
   */
  #pointAt({ clientX, clientY }) {
    const { view } = this.#session;
    /** @type {any} */
    const page = view.element.ownerDocument;
    const root = view.element.getRootNode();
    const shadowRoots = "host" in root ? [root] : [];
    const position = page.caretPositionFromPoint?.(clientX, clientY, { shadowRoots });
    const range = position ? null : page.caretRangeFromPoint?.(clientX, clientY);
    return position
      ? view.point(position.offsetNode, position.offset)
      : range && view.point(range.startContainer, range.startOffset);
  }

  /**
   * @param {InputEvent} event
   * @param {Content} content
   */
  #drop(event, content) {
    const [range] = event.getTargetRanges();
    const { view } = this.#session;
    const anchor = range && view.point(range.startContainer, range.startOffset);
    const focus = range && view.point(range.endContainer, range.endOffset);
    const target = anchor && focus ? { anchor, focus } : null;
    const moved = this.#isMoved ? this.#dragged : null;
    this.#endDrag();
    this.#inTurn(() => {
      if (moved && target) {
        this.#move(moved, target);
      } else {
        this.#insert(content, target, "insertFromDrop");
      }
    });
  }

  /**
   * Moves what was dragged, as one step: it is pasted, and then taken from where it was. What a paste
   * would lose stays where it is.
   * @param {Dragged} dragged
   * @param {Selection} target
   */
  #move({ html, text, range }, target) {
    if (this.#isIn(target, range)) {
      return;
    }
    const fragment = this.#pastes.readOwn(html);
    if (this.#acts.isDenied("delete") || this.#acts.isDenied("insertText")) {
      this.#acts.refuse("insertFromDrop", "denied", text);
    } else if (fragment.lost.size > 0 || fragment.lines.length === 0) {
      this.#acts.refuse("insertFromDrop", "lossy", text);
    } else {
      this.#moveLines(fragment.lines, range, target);
    }
  }

  /**
   * @param {import("./paste_lines.js").Line[]} lines
   * @param {Selection} range
   * @param {Selection} target
   */
  #moveLines(lines, range, target) {
    const endStep = this.#session.beginStep();
    try {
      this.#acts.act(() => {
        this.#session.commands.mark(MOVED, range);
        this.#session.commands.select(target);
        return true;
      });
      const isDone = this.#pastes.pasteLines(lines);
      this.#pastes.complete();
      this.#acts.act(() => this.#deleteMoved(isDone));
    } finally {
      endStep();
    }
  }

  /**
   * Deletes what was moved where it was, and leaves the caret where it is.
   * @param {boolean} isPasted
   */
  #deleteMoved(isPasted) {
    const { commands, editor } = this.#session;
    const marked = (/** @type {string} */ each) => editor.marks().find(({ name }) => name === each);
    const [from, caret] = [marked(MOVED), editor.selection()];
    commands.unmark(MOVED);
    if (!isPasted || !from || !caret) {
      return false;
    }
    commands.mark(CARET, caret);
    commands.select(from);
    const isDeleted = commands.run("delete");
    const to = marked(CARET);
    commands.unmark(CARET);
    commands.selectAgain(to ?? caret);
    return isDeleted;
  }

  /**
   * Whether a place is in a range, or at one of its ends.
   * @param {Selection} target
   * @param {Selection} range
   */
  #isIn(target, range) {
    const { view } = this.#session;
    const inner = view.place(target.focus);
    const whole = view.element.ownerDocument.createRange();
    const [from, to] = [view.place(range.anchor), view.place(range.focus)];
    whole.setStart(from.node, from.offset);
    if (whole.comparePoint(to.node, to.offset) < 0) {
      whole.setStart(to.node, to.offset);
      whole.setEnd(from.node, from.offset);
    } else {
      whole.setEnd(to.node, to.offset);
    }
    return whole.isPointInRange(inner.node, inner.offset);
  }
}
