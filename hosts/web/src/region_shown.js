/**
 * What a page gets of the engine's elements, for region.js: what the tables of shown.js have, narrowed
 * or widened by what the host of the page says.
 */
import {
  addedAttributes,
  isAllowable,
  isAllowableAttribute,
  isImageAddress,
  isShownElement,
  placeholderOf,
  shownAttribute,
  shownStyle,
} from "./shown.js";

/** @typedef {import("./region_print.js").Content} Content */

/**
 * @typedef {object} Answers
 * @property {(src: string) => string | null | undefined | Promise<string | null | undefined>} [image]
 *   Returns the address to display an image from, null for none, or a promise. It is called once for
 *   each address.
 * @property {(name: string, attributes: ReadonlyMap<string, string>) => boolean | undefined} [element]
 *   Returns whether an element is displayed. Others have a placeholder, a `div` or a `span`.
 * @property {(
 *   name: string, attribute: string, value: string,
 * ) => boolean | string | null | undefined} [attribute] Returns whether an attribute of an element is
 *   displayed, or the value to display.
 */

/**
 * What is displayed of the HTML. If a call returns undefined, the tables of shown.js decide. No call can
 * display what acts: scripts, addresses that run them, forms, frames, custom elements, and styles that
 * the tables leave out.
 * @typedef {import("./shown.js").Allowed & Answers} ViewOptions
 */

/** How many styles are kept as the browser writes them. */
const MOST_STYLES = 500;

/**
 * What a call of the host answers. One that fails allows nothing.
 * @template T
 * @param {() => T} call
 * @returns {T | false}
 */
function answerOf(call) {
  try {
    return call();
  } catch (error) {
    reportError(error);
    return false;
  }
}

/**
 * @template T
 * @param {T | Promise<T>} said
 * @returns {said is Promise<T>}
 */
function isAwaited(said) {
  return typeof said === "object" && said !== null;
}

/** What a page gets of elements. */
export class Shown {
  #options;

  /** Where the browser is asked how it reads a style, and how it writes what is shown of it. */
  #styles;

  /** @type {Map<string, string>} */
  #written = new Map();

  /**
   * The address that an image is shown from; null for none, and as long as it is awaited.
   * @type {Map<string, string | null>}
   */
  #images = new Map();

  #tell;

  /** Whether nothing can be edited. */
  isLocked = false;

  /**
   * @param {Document} page
   * @param {ViewOptions} options
   * @param {(src: string) => void} tell says that an image is shown from another address now
   */
  constructor(page, options, tell) {
    this.#options = options;
    this.#styles = [page.createElement("i").style, page.createElement("i").style];
    this.#tell = tell;
  }

  /**
   * The name of the element that shows one of the engine's.
   * @param {Content} content
   */
  nameOf({ name, attributes }) {
    const { element } = this.#options;
    const said = element && answerOf(() => element(name, attributes));
    const isShown = said === true ? isShownElement(name) || isAllowable(name) : isShownElement(name);
    return isShown && said !== false ? name : placeholderOf(name);
  }

  /**
   * The attributes that are shown of an element, with styles as the browser writes them.
   * @param {Content} content
   */
  attributesOf(content) {
    const { name, attributes } = content;
    /** @type {Map<string, string>} */
    const shown = new Map();
    const isItself = this.nameOf(content) === name;
    if (!isItself) {
      shown.set("data-hedit", name);
    }
    for (const [attribute, value] of attributes) {
      const text = this.#attribute(name, attribute, value, isItself);
      if (text !== null) {
        shown.set(attribute, text);
      }
    }
    for (const [attribute, value] of addedAttributes(name, shown)) {
      shown.set(attribute, value);
    }
    return this.#marked(content, shown);
  }

  /**
   * @param {Content} content
   * @param {Map<string, string>} shown
   */
  #marked({ name, attributes }, shown) {
    for (const [element, address, mark] of [
      ["a", "href", "data-hedit-link"],
      ["img", "src", "data-hedit-image"],
    ]) {
      if (name === element && attributes.has(address) && !shown.has(address)) {
        shown.set(mark, "");
      }
    }
    if (this.isLocked && shown.has("contenteditable")) {
      shown.set("contenteditable", "false");
    }
    return shown;
  }

  /**
   * @param {string} name
   * @param {string} attribute
   * @param {string} value
   * @param {boolean} isItself whether the element is shown, and no placeholder
   */
  #attribute(name, attribute, value, isItself) {
    const hook = this.#options.attribute;
    const said = hook && answerOf(() => hook(name, attribute, value));
    if (said === false || said === null) {
      return null;
    }
    const text = typeof said === "string" ? said : value;
    if (attribute === "style") {
      return this.#style(text);
    }
    if (name === "img" && attribute === "src") {
      return this.#image(text);
    }
    const isAllowed = said !== undefined && isItself && isAllowableAttribute(attribute, text);
    return isAllowed ? text : shownAttribute(name, attribute, text, this.#options);
  }

  /**
   * What is shown of a style, as the browser writes it; null where it is nothing.
   * @param {string} value
   */
  #style(value) {
    let text = this.#written.get(value);
    if (text === undefined) {
      const [given, shown] = this.#styles;
      given.cssText = value;
      shown.cssText = "";
      for (const [property, each] of shownStyle(given)) {
        shown.setProperty(property, each);
      }
      text = shown.cssText;
      if (this.#written.size === MOST_STYLES) {
        this.#written.clear();
      }
      this.#written.set(value, text);
    }
    return text || null;
  }

  /**
   * The address that an image is shown from; null for none. The host is asked once for each.
   * @param {string} src
   */
  #image(src) {
    const { image, relative } = this.#options;
    if (!image) {
      return isImageAddress(src, relative) ? src : null;
    }
    if (!this.#images.has(src)) {
      const said = answerOf(() => image(src));
      this.#images.set(src, isAwaited(said) ? null : this.#imageFrom(src, said));
      if (isAwaited(said)) {
        this.#await(src, said);
      }
    }
    return this.#images.get(src) ?? null;
  }

  /**
   * @param {string} src
   * @param {Promise<string | null | undefined>} said
   */
  async #await(src, said) {
    const address = await Promise.resolve(said).catch((error) => {
      reportError(error);
      return null;
    });
    this.#images.set(src, this.#imageFrom(src, address));
    this.#tell(src);
  }

  /**
   * @param {string} src
   * @param {string | false | null | undefined} said
   */
  #imageFrom(src, said) {
    if (said === undefined) {
      return isImageAddress(src, this.#options.relative) ? src : null;
    }
    return typeof said === "string" && isImageAddress(said, true) ? said : null;
  }
}
