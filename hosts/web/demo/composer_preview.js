/** The message as it is read: a region in which nothing can be edited. */
import { Region } from "../src/region.js";
import { part } from "./composer_page.js";
import { withoutLocks } from "./composer_text.js";

/** @typedef {import("./composer.js").Composer} Composer */

/**
 * The fields as a reader sees them.
 * @param {import("./composer_fields.js").Head} head
 */
function headRows({ to, cc }) {
  const rows = [["To", to || "Nobody yet"], ...(cc ? [["Cc", cc]] : [])];
  return rows.flatMap(([name, value]) => {
    const [term, detail] = [document.createElement("dt"), document.createElement("dd")];
    term.textContent = name;
    detail.textContent = value;
    return [term, detail];
  });
}

/** @param {Composer} composer */
export function startPreview(composer) {
  const sheet = part("preview");
  const message = part("preview-message");
  /** @type {Region | null} */
  let region = null;
  part("preview-open").addEventListener("click", () => {
    const { head } = composer.fields;
    part("preview-title").textContent = head.subject.trim() || "No subject";
    part("preview-head").replaceChildren(...headRows(head));
    const html = withoutLocks(composer.region.html());
    region = new Region(composer.engine, message, { ...composer.choices, html, readOnly: true });
    composer.showSheet(sheet);
  });
  sheet.addEventListener("close", () => {
    region?.close();
    message.replaceChildren();
    composer.region.focus();
  });
  // A link leads to another window, and the draft stays in this one.
  message.addEventListener("click", (/** @type {MouseEvent} */ event) => {
    const link = /** @type {Element} */ (event.target).closest("a[href]");
    if (link) {
      event.preventDefault();
      window.open(/** @type {HTMLAnchorElement} */ (link).href, "_blank", "noopener,noreferrer");
    }
  });
  for (const choice of sheet.querySelectorAll("[name=width]")) {
    choice.addEventListener("change", () => {
      sheet.dataset.width = choice.value;
    });
  }
}
