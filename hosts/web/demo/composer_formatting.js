/** The composer's toolbar: its buttons and menus execute commands, and show what the caret is in. */
import { part } from "./composer_page.js";
import { hexOf } from "./composer_text.js";
import { Menu, Toolbar, isDisabled, setEnabled, setPressed } from "./composer_toolbar.js";

/** @typedef {import("./composer.js").Composer} Composer */
/** @typedef {import("../src/region.js").Region} Region */

/**
 * The colours to choose from, by command. A mail is read on light and on dark: text can be read on
 * both.
 * @type {Readonly<Record<string, readonly (readonly [string, string])[]>>}
 */
const PALETTES = {
  foreColor: [
    ["Automatic", "#000000"],
    ["Grey", "#747a85"],
    ["Red", "#d33d3d"],
    ["Orange", "#bd6500"],
    ["Green", "#2a8745"],
    ["Teal", "#1b818c"],
    ["Blue", "#3b73d9"],
    ["Purple", "#9457c9"],
  ],
  hiliteColor: [
    ["None", "transparent"],
    ["Grey", "#dfe3e8"],
    ["Red", "#ffd3d0"],
    ["Orange", "#ffdfb0"],
    ["Yellow", "#fff1a1"],
    ["Green", "#cdf0cb"],
    ["Blue", "#cfe3ff"],
    ["Purple", "#ead7fb"],
  ],
};

/**
 * What is shown of a value that no item of the menu has, by command.
 * @type {Readonly<Record<string, (value: string) => string>>}
 */
const OTHER_VALUE = {
  formatBlock: (value) => (value ? `Block: ${value}` : "Text"),
  fontSize: (value) => (value ? `Size ${value}` : "Sizes"),
};

/**
 * Puts the colours to choose from into a menu, which shows the name of the one that is pointed at.
 * @param {HTMLElement} menu
 * @param {readonly (readonly [string, string])[]} colours
 */
function fillPalette(menu, colours) {
  for (const [name, value] of colours) {
    const item = document.createElement("button");
    item.type = "button";
    item.dataset.value = value;
    item.setAttribute("role", "menuitemradio");
    item.setAttribute("aria-label", name);
    item.style.setProperty("--swatch", value === "#000000" ? "currentColor" : value);
    for (const kind of ["focus", "pointerenter"]) {
      item.addEventListener(kind, () => {
        menu.dataset.name = name;
      });
    }
    menu.append(item);
  }
}

/**
 * The label of the innermost element of a name around the caret; null if there is none.
 * @param {Region} region
 * @param {string} name
 */
export function around(region, name) {
  const { editor } = region;
  let label = editor.selection()?.focus.label ?? null;
  while (label !== null && editor.nodeName(label) !== name) {
    label = editor.node(label).parent;
  }
  return label;
}

/** The toolbar of a composer. */
export class Formatting {
  #composer;

  #toolbar = new Toolbar(part("toolbar"));

  /** The menus, each with its button, by their commands. */
  #menus = new Map();

  /** Whether the controls are to be refreshed with the next frame. */
  #isStale = false;

  /** @param {Composer} composer */
  constructor(composer) {
    this.#composer = composer;
    const toolbar = part("toolbar");
    toolbar.addEventListener("click", (/** @type {MouseEvent} */ event) => this.#click(event));
    toolbar.addEventListener("keydown", (/** @type {KeyboardEvent} */ event) => {
      if (event.key === "Escape") {
        composer.region.focus();
      }
    });
    document.addEventListener("keydown", (event) => {
      if (event.altKey && event.key === "F10") {
        event.preventDefault();
        this.#toolbar.focus();
      }
    });
    for (const element of document.querySelectorAll(".menu[data-command]")) {
      this.#startMenu(/** @type {HTMLElement} */ (element));
    }
  }

  /** @param {Element | null} element */
  has(element) {
    return this.#toolbar.has(element);
  }

  /** @param {MouseEvent} event */
  #click(event) {
    const control = /** @type {Element} */ (event.target).closest("button");
    if (!control || isDisabled(control)) {
      event.preventDefault();
      return;
    }
    const { command } = control.dataset;
    if (control === part("quote-button")) {
      this.#composer.act((region) => this.#quote(region));
    } else if (command) {
      this.#composer.act((region) => region.exec(command));
    }
  }

  /** @param {Region} region */
  #quote(region) {
    return around(region, "blockquote") === null
      ? region.exec("formatBlock", "blockquote")
      : region.exec("outdent");
  }

  /** @param {HTMLElement} menu */
  #startMenu(menu) {
    const command = /** @type {string} */ (menu.dataset.command);
    if (command in PALETTES) {
      fillPalette(menu, PALETTES[command]);
    }
    const button = document.querySelector(`[popovertarget="${menu.id}"]`);
    const choose = (/** @type {HTMLElement} */ { dataset }) => {
      this.#composer.act((region) => region.exec(command, dataset.value));
    };
    const choices = new Menu(menu, choose, (before) => this.#composer.goBack(before));
    this.#menus.set(command, { choices, button });
  }

  refreshSoon() {
    if (!this.#isStale) {
      this.#isStale = true;
      requestAnimationFrame(() => {
        this.#isStale = false;
        this.refresh();
      });
    }
  }

  /** Shows in each control what holds where the caret is. */
  refresh() {
    const { region } = this.#composer;
    for (const control of part("toolbar").querySelectorAll("[data-command]")) {
      const { command } = control.dataset;
      setEnabled(control, region.enabled(command));
      if (control.hasAttribute("aria-pressed")) {
        setPressed(control, region.indeterm(command) ? "mixed" : region.state(command));
      }
    }
    for (const [command, { choices, button }] of this.#menus) {
      this.#refreshMenu(command, choices, button);
    }
    this.#refreshElements();
  }

  /**
   * @param {string} command
   * @param {Menu} choices
   * @param {HTMLElement} button
   */
  #refreshMenu(command, choices, button) {
    const { region } = this.#composer;
    const value = region.value(command);
    setEnabled(button, region.enabled(command));
    if (command in PALETTES) {
      const colour = hexOf(value);
      const chosen = choices.show(({ dataset }) => dataset.value === (colour || "transparent"));
      const isPlain = chosen ? chosen.matches(":first-child") : !colour;
      button.style.setProperty("--shown", isPlain ? "currentColor" : colour);
    } else {
      const chosen = choices.show(({ dataset }) => dataset.value === value);
      const words = chosen?.textContent ?? OTHER_VALUE[command](value);
      const shown = /** @type {Element} */ (button.querySelector(".chosen"));
      shown.textContent = region.indeterm(command) ? "Mixed" : words;
    }
  }

  /** Shows whether the caret is in a link or in a quotation. */
  #refreshElements() {
    const { region } = this.#composer;
    const isEnabled = region.enabled("createLink");
    const isLink = region.value("createLink") !== "";
    setEnabled(part("link-button"), isEnabled);
    setEnabled(part("image-button"), isEnabled);
    setEnabled(part("unlink-button"), isEnabled && (isLink || region.indeterm("createLink")));
    setEnabled(part("quote-button"), isEnabled && around(region, "li") === null);
    setPressed(part("link-button"), isLink);
    setPressed(part("quote-button"), around(region, "blockquote") !== null);
  }
}
