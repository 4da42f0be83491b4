/** The composer's view of the HTML source. */
import { gathered, part } from "./composer_page.js";
import { coloured } from "./composer_text.js";

/** @typedef {import("./composer.js").Composer} Composer */

/** How long after a change the source is shown, in milliseconds. */
const PAUSE = 250;

/** The source beside the message. */
export class Source {
  #composer;

  showSoon = gathered(() => this.show(), PAUSE);

  /** @param {Composer} composer */
  constructor(composer) {
    this.#composer = composer;
    const [panel, toggle] = [part("source"), part("source-toggle")];
    const open = (/** @type {boolean} */ isOpen) => {
      panel.hidden = !isOpen;
      toggle.setAttribute("aria-expanded", String(isOpen));
      this.show();
    };
    toggle.addEventListener("click", () => open(panel.hidden));
    part("source-close").addEventListener("click", () => {
      open(false);
      toggle.focus();
    });
    part("copy").addEventListener("click", async () => {
      await navigator.clipboard.writeText(composer.region.html());
      composer.say("Copied");
    });
  }

  show() {
    if (!part("source").hidden) {
      part("source-code").replaceChildren(coloured(this.#composer.region.html()));
    }
  }
}
