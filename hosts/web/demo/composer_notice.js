/** Notices above the message, which stay until they are answered. */
import { part } from "./composer_page.js";

/**
 * What a notice says, and its answers: names of buttons, with what each does.
 * @typedef {{ words: string, answers: Readonly<Record<string, () => void>> }} Notice
 */

/** The notices of a composer, of which the first is shown. */
export class Notices {
  /** @type {Map<string, Notice>} */
  #all = new Map();

  /**
   * Shows a notice, in place of another of its kind. An answer takes it away.
   * @param {string} kind
   * @param {string} words
   * @param {Readonly<Record<string, () => void>>} answers
   */
  show(kind, words, answers) {
    if (this.#all.get(kind)?.words !== words) {
      this.#all.set(kind, { words, answers });
      this.#refresh();
    }
  }

  /** @param {string} kind */
  drop(kind) {
    if (this.#all.delete(kind)) {
      this.#refresh();
    }
  }

  #refresh() {
    const [first] = this.#all;
    part("notice").hidden = first === undefined;
    if (first) {
      const [kind, { words, answers }] = first;
      part("notice-words").textContent = words;
      const buttons = Object.entries(answers).map(([name, answer]) => {
        const button = document.createElement("button");
        button.type = "button";
        button.textContent = name;
        button.addEventListener("click", () => {
          this.drop(kind);
          answer();
        });
        return button;
      });
      part("notice-answers").replaceChildren(...buttons);
    }
  }
}
