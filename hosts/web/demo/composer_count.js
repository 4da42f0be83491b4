/** The count of words below the message. */
import { gathered, part, rested } from "./composer_page.js";
import { countWords, counted } from "./composer_text.js";

/** After how many milliseconds the words are counted. */
const PAUSE = 250;

/** How long typing has to rest before a screen reader is told how many words there are. */
const SPOKEN_PAUSE = 2500;

/** Counts what is written, without the locked parts, and shows whether that is nothing. */
export class Count {
  #showSoon = gathered(() => this.show(), PAUSE);

  #saySoon = rested(() => {
    part("spoken").textContent = part("count").textContent;
  }, SPOKEN_PAUSE);

  constructor() {
    part("message").addEventListener("compositionstart", () => {
      part("paper").classList.remove("is-empty");
    });
  }

  /** Counts soon, and at once if nothing was written before. */
  refresh() {
    if (part("paper").matches(".is-empty")) {
      this.show();
    } else {
      this.#showSoon();
    }
  }

  show() {
    const message = part("message");
    const [all, ...locked] = [message, ...message.querySelectorAll('[contenteditable="false"]')].map(
      (element) => element.innerText,
    );
    const written = (/** @type {(text: string) => number} */ measure) =>
      locked.reduce((rest, text) => rest - measure(text), measure(all));
    const characters = written((text) => [...text.replaceAll("\n", "")].length);
    part("count").textContent =
      `${counted(written(countWords), "word")}, ${counted(characters, "character")}`;
    const isEmpty = characters === 0 && !message.querySelector("img, hr, li, blockquote");
    part("paper").classList.toggle("is-empty", isEmpty);
    this.#saySoon();
  }
}
