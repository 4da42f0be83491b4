/** The keys that change the level of list items, for region_keymap.js. */

/** @typedef {import("./hedit.js").Editor} Editor */
/** @typedef {import("./region.js").Region} Region */

/**
 * Indents or outdents the items that the selection is in. False elsewhere, so that the browser goes to
 * the next control.
 * @param {"indent" | "outdent"} command
 */
export function changeLevel(command) {
  return (/** @type {Region} */ region) => isInItems(region.editor) && region.exec(command);
}

/** @param {Editor} editor */
function isInItems(editor) {
  const selection = editor.selection();
  const ends = selection ? [selection.anchor, selection.focus] : [];
  return ends.length > 0 && ends.every(({ label }) => isInItem(editor, label));
}

/**
 * @param {Editor} editor
 * @param {number} label
 */
function isInItem(editor, label) {
  /** @type {number | null} */
  let at = label;
  while (at !== null && editor.nodeName(at) !== "li") {
    at = editor.node(at).parent;
  }
  return at !== null;
}
