/**
 * What the composer's controls have in common: a toolbar that is one stop of the Tab key, menus and
 * panels that open below their buttons, shortcuts, and labels that show on hover and on focus. What
 * a control does is the composer's matter.
 */

/** Whether the primary modifier is the command key, as on a Mac. */
const IS_APPLE = /^(Mac|iPhone|iPad)/.test(navigator.platform);

/**
 * How keys are shown, where that isn't by their names.
 * @type {Readonly<Record<string, string>>}
 */
const SHOWN_KEYS = IS_APPLE
  ? { Control: "⌘", Alt: "⌥", Shift: "⇧" }
  : { Control: "Ctrl" };

/** How far a menu stays from the edges of the window, and from its button, in pixels. */
const MARGIN = 8;

/** How long the pointer rests on a control before its label shows, in milliseconds. */
const REST = 450;

/**
 * What was pressed, as `data-keys` has it. Shift makes other characters of the digits, and Alt may
 * of the letters too: these keys go by what stands on them.
 * @param {KeyboardEvent} event
 */
export function keysOf(event) {
  const [, digit, letter] = /^(?:Digit(\d)|Key([A-Z]))$/.exec(event.code) ?? [];
  return [
    (IS_APPLE ? event.metaKey : event.ctrlKey) && "Control",
    event.altKey && "Alt",
    event.shiftKey && "Shift",
    digit ?? ((event.altKey && letter) || event.key.toUpperCase()),
  ]
    .filter(Boolean)
    .join("+");
}

/**
 * @param {string} keys
 * @returns {string[]}
 */
function shownKeys(keys) {
  return keys.split("+").map((key) => SHOWN_KEYS[key] ?? key);
}

/**
 * The name of a control.
 * @param {HTMLElement} control
 */
function nameOf(control) {
  return control.getAttribute("aria-label") ?? control.textContent?.trim() ?? "";
}

/** @param {HTMLElement} control */
export function isDisabled(control) {
  return control.getAttribute("aria-disabled") === "true";
}

/**
 * A control that can't be used can still be found with the keyboard.
 * @param {HTMLElement} control
 * @param {boolean} enabled
 */
export function setEnabled(control, enabled) {
  control.setAttribute("aria-disabled", String(!enabled));
}

/**
 * @param {HTMLElement} control
 * @param {boolean | "mixed"} pressed
 */
export function setPressed(control, pressed) {
  control.setAttribute("aria-pressed", String(pressed));
}

/**
 * Where an arrow key, Home or End leads from a place among so many.
 * @param {string} key
 * @param {number} at
 * @param {number} count
 * @param {number} columns
 */
function moved(key, at, count, columns = 1) {
  const step = { ArrowRight: 1, ArrowLeft: -1, ArrowDown: columns, ArrowUp: -columns }[key];
  const end = { Home: 0, End: count - 1 }[key];
  return step === undefined ? end : (at + step + count) % count;
}

/** A toolbar: the Tab key stops at it once, and the arrow keys lead through it. */
export class Toolbar {
  /** @type {HTMLElement[]} */
  #controls;

  #element;

  /** @param {HTMLElement} element */
  constructor(element) {
    this.#element = element;
    this.#controls = [...element.querySelectorAll("button")];
    this.#makeStop(this.#controls[0]);
    element.addEventListener("keydown", (event) => this.#move(event));
    element.addEventListener("focusin", (event) => this.#makeStop(event.target));
    // The message keeps the focus, and what is selected in it.
    element.addEventListener("mousedown", (event) => event.preventDefault());
  }

  /** Goes to the control that was used last. */
  focus() {
    this.#controls.find((control) => control.tabIndex === 0)?.focus();
  }

  /** @param {Element | null} element */
  has(element) {
    return this.#element.contains(element);
  }

  /** @param {EventTarget | null} stop */
  #makeStop(stop) {
    for (const control of this.#controls) {
      control.tabIndex = control === stop ? 0 : -1;
    }
  }

  /** @param {KeyboardEvent} event */
  #move(event) {
    if (event.ctrlKey || event.metaKey || event.altKey || /Arrow(Up|Down)/.test(event.key)) {
      return;
    }
    const at = this.#controls.indexOf(/** @type {HTMLElement} */ (event.target));
    const next = moved(event.key, at, this.#controls.length);
    if (next !== undefined && at >= 0) {
      event.preventDefault();
      this.#controls[next].focus();
    }
  }
}

/**
 * Puts what pops up below its button, inside the window.
 * @param {HTMLElement} popup
 */
function place(popup) {
  const button = document.querySelector(`[popovertarget="${popup.id}"]`);
  const { left, top, bottom } = /** @type {Element} */ (button).getBoundingClientRect();
  const { offsetWidth: width, offsetHeight: height } = popup;
  const below = bottom + MARGIN / 2;
  const fits = below + height + MARGIN <= innerHeight;
  popup.style.left = `${Math.max(MARGIN, Math.min(left, innerWidth - width - MARGIN))}px`;
  popup.style.top = `${fits ? below : Math.max(MARGIN, top - height - MARGIN / 2)}px`;
}

/**
 * Calls `opened` each time that a menu or a panel opens, once it stands in its place, and `closes`
 * before it closes with the focus in it. What had the focus before is where `closes` may put it.
 * @param {HTMLElement} popup
 * @param {() => void} opened
 * @param {(before: Element | null) => void} closes
 */
export function onPopup(popup, opened, closes) {
  const button = /** @type {Element} */ (document.querySelector(`[popovertarget="${popup.id}"]`));
  /** @type {Element | null} */
  let before = null;
  button.setAttribute("aria-expanded", "false");
  popup.addEventListener("beforetoggle", (event) => {
    const isOpening = /** @type {ToggleEvent} */ (event).newState === "open";
    button.setAttribute("aria-expanded", String(isOpening));
    if (isOpening) {
      before = document.activeElement;
      place(popup);
    } else if (popup.contains(document.activeElement)) {
      closes(before);
    }
  });
  popup.addEventListener("toggle", (event) => {
    if (/** @type {ToggleEvent} */ (event).newState === "open") {
      place(popup);
      opened();
    }
  });
}

/** A menu, of values of which one is chosen or of things to do, in one column or in several. */
export class Menu {
  #element;

  /** @type {HTMLElement[]} */
  #items = [];

  /**
   * @param {HTMLElement} element
   * @param {(item: HTMLElement) => void} choose
   * @param {(before: Element | null) => void} closes what `onPopup` calls
   * @param {() => Promise<void>} [fill] puts the items in, each time that it opens
   */
  constructor(element, choose, closes, fill) {
    this.#element = element;
    this.#takeItems();
    element.addEventListener("click", ({ target }) => {
      const item = /** @type {Element} */ (target).closest("button");
      if (item && !isDisabled(item)) {
        element.hidePopover();
        choose(item);
      }
    });
    element.addEventListener("keydown", (event) => this.#move(event));
    onPopup(element, () => (fill ? this.#fill(fill) : this.#enter()), closes);
  }

  #takeItems() {
    this.#items = [...this.#element.querySelectorAll("button")];
    for (const item of this.#items) {
      item.tabIndex = -1;
    }
  }

  #enter() {
    (this.#chosen() ?? this.#items[0]).focus();
  }

  /** @param {() => Promise<void>} fill */
  async #fill(fill) {
    await fill();
    this.#takeItems();
    place(this.#element);
    this.#enter();
  }

  /**
   * Shows a value as chosen, and gives its item, if there is one.
   * @param {(item: HTMLElement) => boolean} isChosen
   */
  show(isChosen) {
    for (const item of this.#items) {
      item.setAttribute("aria-checked", String(isChosen(item)));
    }
    return this.#chosen();
  }

  #chosen() {
    return this.#items.find((item) => item.getAttribute("aria-checked") === "true");
  }

  /** @param {KeyboardEvent} event */
  #move(event) {
    const at = this.#items.indexOf(/** @type {HTMLElement} */ (event.target));
    const columns = Number(this.#element.dataset.columns ?? 1);
    const next =
      event.key.length === 1
        ? this.#startingWith(event.key, at)
        : moved(event.key, at, this.#items.length, columns);
    if (event.key === "Tab") {
      this.#element.hidePopover();
    } else if (next !== undefined) {
      this.#items[next].focus();
    } else {
      return;
    }
    event.preventDefault();
  }

  /**
   * The place of the next item whose name begins with a letter; undefined where there is none.
   * @param {string} letter
   * @param {number} at
   */
  #startingWith(letter, at) {
    const places = this.#items.map((_, step) => (at + 1 + step) % this.#items.length);
    const begins = (/** @type {number} */ other) =>
      nameOf(this.#items[other]).toLowerCase().startsWith(letter.toLowerCase());
    return places.find(begins);
  }
}

/** The shortcuts of the controls that have `data-keys`. */
export class Shortcuts {
  /** @type {Map<string, HTMLElement>} */
  #controls = new Map();

  /**
   * @param {(control: HTMLElement, target: Element) => boolean} applies whether a control's keys
   *   mean it where they were pressed
   */
  constructor(applies) {
    for (const element of document.querySelectorAll("[data-keys]")) {
      const control = /** @type {HTMLElement} */ (element);
      const { keys = "" } = control.dataset;
      this.#controls.set(keys, control);
      control.setAttribute("aria-keyshortcuts", IS_APPLE ? keys.replace("Control", "Meta") : keys);
    }
    document.addEventListener("keydown", (event) => {
      const control = this.#controls.get(keysOf(event));
      // With AltGr a letter is typed that the keyboard has no key for.
      const isTyped = event.isComposing || event.getModifierState("AltGraph");
      const target = /** @type {Element} */ (event.target);
      if (control && !isTyped && !event.defaultPrevented && applies(control, target)) {
        event.preventDefault();
        if (!isDisabled(control)) {
          control.click();
        }
      }
    });
  }

  /**
   * A list of names and keys.
   * @param {HTMLElement} list
   */
  fill(list) {
    const more = [...this.#controls].map(([keys, control]) => [nameOf(control), keys]);
    for (const [name, keys] of [...more, ["Toolbar", "Alt+F10"], ["Back to the message", "Escape"]]) {
      const row = document.createElement("div");
      const term = document.createElement("dt");
      const detail = document.createElement("dd");
      term.textContent = name;
      detail.append(...shownKeys(keys).map((key) => {
        const shown = document.createElement("kbd");
        shown.textContent = key;
        return shown;
      }));
      row.append(term, detail);
      list.append(row);
    }
  }
}

/**
 * Shows the name and the keys of each control of a kind while the pointer rests on it, and while
 * the keyboard has led to it.
 * @param {HTMLElement} tip
 * @param {string} selector
 */
export function showTips(tip, selector) {
  let waiting = 0;
  const hide = () => {
    clearTimeout(waiting);
    tip.hidePopover();
  };
  const showAfter = (/** @type {HTMLElement} */ control, /** @type {number} */ pause) => {
    clearTimeout(waiting);
    waiting = setTimeout(show, pause, control);
  };
  const show = (/** @type {HTMLElement} */ control) => {
    const { keys } = control.dataset;
    const shown = document.createElement("kbd");
    shown.textContent = keys ? shownKeys(keys).join(IS_APPLE ? "" : "+") : "";
    tip.replaceChildren(nameOf(control), ...(keys ? [shown] : []));
    tip.showPopover();
    const { left, width, bottom, top } = control.getBoundingClientRect();
    const middle = left + width / 2 - tip.offsetWidth / 2;
    const below = bottom + MARGIN;
    const fits = below + tip.offsetHeight <= innerHeight;
    tip.style.left = `${Math.max(MARGIN, Math.min(middle, innerWidth - tip.offsetWidth - MARGIN))}px`;
    tip.style.top = `${fits ? below : top - tip.offsetHeight - MARGIN}px`;
  };
  for (const element of document.querySelectorAll(selector)) {
    const control = /** @type {HTMLElement} */ (element);
    control.addEventListener("pointerenter", (event) => {
      if (event.pointerType === "mouse") {
        showAfter(control, REST);
      }
    });
    control.addEventListener("focus", () => {
      if (control.matches(":focus-visible")) {
        showAfter(control, 0);
      }
    });
    for (const end of ["pointerleave", "pointerdown", "blur", "keydown", "click"]) {
      control.addEventListener(end, hide);
    }
  }
}
