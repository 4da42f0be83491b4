/** What says that an element can't be edited, for region.js. */

/** @type {readonly (readonly [string, string])[]} */
const LOCKED = [
  ["contenteditable", "false"],
  ["aria-readonly", "true"],
  ["tabindex", "0"],
];

/** The attributes of an element while nothing in it can be edited, and those that it had before. */
export class Lock {
  #element;

  #isHost;

  /** @type {readonly (readonly [string, string | null])[] | null} */
  #before = null;

  /**
   * @param {Element} element
   * @param {boolean} isHost whether it is an editing host
   */
  constructor(element, isHost) {
    this.#element = element;
    this.#isHost = isHost;
  }

  /** Locks the element, so that a text in it can still be selected and copied. */
  set() {
    const each = this.#isHost ? LOCKED : LOCKED.slice(1);
    this.#before ??= each.map(([name]) => [name, this.#element.getAttribute(name)]);
    for (const [name, value] of each) {
      this.#element.setAttribute(name, value);
    }
  }

  /** Gives the element its own attributes again. */
  lift() {
    for (const [name, value] of this.#before ?? []) {
      if (value === null) {
        this.#element.removeAttribute(name);
      } else {
        this.#element.setAttribute(name, value);
      }
    }
    this.#before = null;
  }
}
