/** What is selected in the message by the Tab key, and by the key for all. */
import { NodeKind } from "../src/hedit.js";
import { part } from "./composer_page.js";
import { keysOf } from "./composer_toolbar.js";

/** @typedef {import("./composer.js").Composer} Composer */

/**
 * The first or the last point of a message that isn't in a locked part.
 * @param {import("../src/hedit.js").Editor} editor
 * @param {boolean} isLast
 * @returns {import("../src/hedit.js").Point}
 */
function edge(editor, isLast) {
  const isOpen = (/** @type {number} */ label) =>
    editor.attributes(label).get("contenteditable") !== "false";
  let label = editor.labelAt([0]);
  for (;;) {
    const children = [...editor.children(label)];
    const child = children.filter(isOpen).at(isLast ? -1 : 0);
    if (child === undefined) {
      return { label, offset: isLast ? editor.node(label).length : 0 };
    }
    const inner = editor.node(child);
    if (inner.kind === NodeKind.ELEMENT && inner.length === 0) {
      return { label, offset: children.indexOf(child) + Number(isLast) };
    }
    label = child;
  }
}

/** @param {Composer} composer */
export function startSelection(composer) {
  const message = part("message");
  let isTabbing = false;
  document.addEventListener("keydown", ({ key }) => {
    isTabbing = key === "Tab";
  });
  document.addEventListener("pointerdown", () => {
    isTabbing = false;
  });
  // The Tab key leads to the start of the message, and on from there to what was selected.
  message.addEventListener("focus", () => {
    const selected = isTabbing && composer.region.editor.selection();
    if (selected) {
      setTimeout(() => composer.region.select(selected.anchor, selected.focus));
    }
  });
  // Chromium selects nothing where the message ends in a locked part.
  message.addEventListener("keydown", (/** @type {KeyboardEvent} */ event) => {
    if (keysOf(event) === "Control+A") {
      event.preventDefault();
      const { editor } = composer.region;
      composer.region.select(edge(editor, false), edge(editor, true));
    }
  });
}
