/** The composer's panel for links. */
import { around } from "./composer_formatting.js";
import { markSelected, part, setFault } from "./composer_page.js";
import { addressOf, isLinkAddress } from "./composer_text.js";
import { onPopup } from "./composer_toolbar.js";

/** @typedef {import("./composer.js").Composer} Composer */
/** @typedef {import("../src/region.js").Region} Region */

/**
 * The end of the selection that moves. There is one wherever a command is enabled.
 * @param {Region} region
 */
function caretOf(region) {
  const selection = region.editor.selection();
  return /** @type {import("../src/hedit.js").Selection} */ (selection).focus;
}

/** @param {Region} region */
function isCaret(region) {
  const { anchor, focus } = region.editor.selection() ?? {};
  return anchor?.label === focus?.label && anchor?.offset === focus?.offset;
}

/**
 * Makes a link of what is selected. At a caret it changes the link that is there, or else inserts a
 * text.
 * @param {Region} region
 * @param {string} text
 * @param {string} address
 */
function link(region, text, address) {
  if (!isCaret(region)) {
    return region.exec("createLink", address);
  }
  // What was typed before stays a step of its own.
  region.select(caretOf(region));
  return region.step(() => {
    const element = around(region, "a");
    if (element !== null) {
      const { length } = region.editor.node(element);
      region.select({ label: element, offset: 0 }, { label: element, offset: length });
    } else if (region.exec("insertText", text)) {
      const { label, offset } = caretOf(region);
      region.select({ label, offset: offset - [...text].length }, { label, offset });
    }
    const isDone = region.exec("createLink", address);
    region.select(caretOf(region));
    return isDone;
  });
}

/**
 * Asks for the address of a link, and for its text if there is only a caret.
 * @param {Region} region
 */
function ask(region) {
  markSelected();
  const panel = part("link-panel");
  const address = region.value("createLink");
  const asksText = address === "" && isCaret(region);
  for (const element of panel.querySelectorAll(".for-text")) {
    element.hidden = !asksText;
  }
  setFault(part("link-address"), "");
  part("link-text").value = "";
  part("link-address").value = address;
  part("link-remove").hidden = address === "";
  part(asksText ? "link-text" : "link-address").select();
}

/** @param {Composer} composer */
export function startLinks(composer) {
  const panel = part("link-panel");
  const field = part("link-address");
  onPopup(panel, () => ask(composer.region), (before) => composer.goBack(before));
  field.addEventListener("input", () => setFault(field, ""));
  panel.addEventListener("submit", (/** @type {Event} */ event) => {
    event.preventDefault();
    const [text, address] = [part("link-text").value, addressOf(field.value)];
    if (!isLinkAddress(address)) {
      setFault(field, "A link leads to a web page, a mail address or a phone number (tel:).");
      field.select();
      return;
    }
    panel.hidePopover();
    composer.act((region) => link(region, text || address, address));
  });
  part("link-remove").addEventListener("click", () => {
    panel.hidePopover();
    composer.act((region) => region.exec("unlink"));
  });
}
