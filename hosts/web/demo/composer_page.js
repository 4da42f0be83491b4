/** What the parts of the composer have in common: elements, calls that wait, and what is marked. */

/**
 * The element of index.html with an id.
 * @param {string} id
 * @returns {any}
 */
export const part = (id) => document.getElementById(id);

/**
 * A call that is made a while after it was asked for, once for all who ask meanwhile.
 * @param {() => void} call
 * @param {number} pause
 */
export function gathered(call, pause) {
  let isWaiting = false;
  return () => {
    if (!isWaiting) {
      isWaiting = true;
      setTimeout(() => {
        isWaiting = false;
        call();
      }, pause);
    }
  };
}

/**
 * A call that is made once nobody has asked for it for a while.
 * @param {() => void} call
 * @param {number} pause
 */
export function rested(call, pause) {
  let waiting = 0;
  return () => {
    clearTimeout(waiting);
    waiting = setTimeout(call, pause);
  };
}

/**
 * Marks ranges of the page, if the browser can: composer.css says how a mark of a name looks.
 * @param {string} name
 * @param {readonly Range[]} ranges
 */
export function highlight(name, ranges) {
  const { Highlight } = /** @type {any} */ (window);
  const { highlights } = /** @type {any} */ (CSS);
  if (ranges.length === 0) {
    highlights?.delete(name);
  } else if (Highlight) {
    highlights.set(name, new Highlight(...ranges));
  }
}

/** Shows what is selected while a panel has the focus. */
export function markSelected() {
  const selection = /** @type {Selection} */ (document.getSelection());
  highlight("selected", selection.rangeCount > 0 ? [selection.getRangeAt(0).cloneRange()] : []);
}

export function unmarkSelected() {
  highlight("selected", []);
}

/**
 * Says below a field what is wrong with it, or with an empty text that nothing is.
 * @param {HTMLElement} field
 * @param {string} words
 */
export function setFault(field, words) {
  const fault = part(`${field.id}-fault`);
  fault.textContent = words;
  fault.hidden = words === "";
  field.setAttribute("aria-invalid", String(words !== ""));
}
