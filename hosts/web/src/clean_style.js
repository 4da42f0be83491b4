/**
 * Reads the styles that `cleanPage` keeps: formats of text, alignment and side margins, in the form
 * that the engine reads.
 */
import { isShownStyle } from "./shown.js";

/**
 * The content of a style attribute.
 * @typedef {{
 *   declarations: readonly (readonly [string, string])[],
 *   dropped: readonly string[],
 *   isHidden: boolean,
 *   weight: string,
 *   slope: string,
 *   whiteSpace: "collapse" | "preserve" | "preserve-breaks" | "",
 * }} Style
 */

/** @type {Style} */
export const NO_STYLE = Object.freeze({
  declarations: [],
  dropped: [],
  isHidden: false,
  weight: "",
  slope: "",
  whiteSpace: "",
});

/** How many pixels a unit has. */
const UNITS = /** @type {Readonly<Record<string, number>>} */ ({
  px: 1,
  pt: 4 / 3,
  pc: 16,
  in: 96,
  cm: 96 / 2.54,
  mm: 9.6 / 2.54,
  q: 2.4 / 2.54,
});

/**
 * Returns a length in whole pixels, or null if it depends on something else.
 * @param {string} value
 */
function pixelsOf(value) {
  const [, number, unit] = /^(\d*\.?\d+)([a-z]+)$/i.exec(value) ?? [];
  const size = UNITS[unit?.toLowerCase()];
  return size === undefined ? null : Math.round(Number(number) * size);
}

// Colours.

/** Keywords for colours that depend on the element or on the reader's screen. */
const NO_COLOUR = new RegExp(
  "^(?:accent|active|app|background|button|canvas|caption|current|field|gra[iy]?text|highlight|" +
    "inactive|info|inherit|initial|link|mark|menu|revert|scrollbar|selected|threed|unset|visited|" +
    "window|-)",
  "i",
);

/** @type {CanvasRenderingContext2D | null} */
let canvas = null;

/**
 * Returns a named colour as a canvas reports it, or "" if it isn't one.
 * @param {string} value
 */
function canvasColour(value) {
  canvas ??= document.createElement("canvas").getContext("2d");
  if (!canvas) {
    return "";
  }
  const results = ["#000000", "#ffffff"].map((start) => {
    const context = /** @type {CanvasRenderingContext2D} */ (canvas);
    context.fillStyle = start;
    context.fillStyle = value;
    return String(context.fillStyle);
  });
  return results[0] === results[1] ? results[0] : "";
}

/**
 * Returns red, green, blue and opacity of a colour in numbers.
 * @param {string} value
 * @returns {number[] | null}
 */
function partsOf(value) {
  const hex = /^#([\da-f]{2})([\da-f]{2})([\da-f]{2})$/i.exec(value);
  if (hex) {
    return [...hex.slice(1).map((digits) => parseInt(digits, 16)), 1];
  }
  const numbers = /^rgba?\((\d+), (\d+), (\d+)(?:, (\d*\.?\d+))?\)$/.exec(value);
  return numbers && [...numbers.slice(1, 4).map(Number), Number(numbers[4] ?? 1)];
}

/**
 * Returns red, green and blue of a colour over white, or null if it is transparent or depends on the
 * page.
 * @param {string} value as the browser writes it
 * @returns {number[] | null}
 */
function colourOf(value) {
  const parts = partsOf(value) ?? (NO_COLOUR.test(value) ? null : partsOf(canvasColour(value)));
  if (parts === null || parts[3] === 0) {
    return null;
  }
  const [red, green, blue, cover] = parts;
  return [red, green, blue].map((part) => Math.round(part * cover + 255 * (1 - cover)));
}

/** @param {string} value */
function printColour(value) {
  const parts = colourOf(value);
  return parts ? `rgb(${parts.join(", ")})` : "";
}

/**
 * Returns the colour of a `font` as six digits, or "".
 * @param {string} value
 */
export function fontColour(value) {
  const parts = colourOf(/^#[\da-f]{3}$/i.test(value) ? value.replace(/[^#]/g, "$&$&") : value);
  return parts ? `#${parts.map((part) => part.toString(16).padStart(2, "0")).join("")}` : "";
}

// Other values: each function returns the value that is kept, or "".

/** @param {string} value */
function fontFamily(value) {
  const names = value.split(/\s*,\s*/).map((name) => name.replace(/^(["'])(.*)\1$/, "$2").trim());
  const isPlain = names.every((name) => /^[\p{L}\p{N} _.+-]{1,60}$/u.test(name));
  if (!isPlain || /^(?:inherit|initial|revert(?:-layer)?|unset)$/.test(value)) {
    return "";
  }
  const quote = (/** @type {string} */ name) =>
    /^-?[\p{L}_][\p{L}\p{N}_-]*$/u.test(name) ? name : `'${name}'`;
  return names.map(quote).join(", ");
}

/** @param {string} value */
function fontSize(value) {
  const pixels = pixelsOf(value);
  if (pixels !== null) {
    return pixels >= 6 && pixels <= 200 ? `${pixels}px` : "";
  }
  return /^(?:x{0,2}-?small|medium|x{0,3}-?large)$/.test(value) ? value : "";
}

/** @param {string} value */
function textLine(value) {
  const lines = ["underline", "line-through"].filter((line) => value.split(" ").includes(line));
  return lines.join(" ") || (value === "none" ? value : "");
}

/** @param {string} value */
function sideMargin(value) {
  const pixels = pixelsOf(value);
  return pixels !== null && pixels > 0 && pixels <= 400 ? `${pixels}px` : "";
}

/** @param {RegExp} words */
const oneOf = (words) => (/** @type {string} */ value) => (words.test(value) ? value : "");

const SIDE_MARGINS = /^margin-(?:left|right)$/;

/**
 * The properties that are kept: the name that the browser reports, the name that is printed, and the
 * function for the value.
 * @type {readonly (readonly [string, string, (value: string) => string])[]}
 */
const KEPT = [
  ["color", "color", printColour],
  ["background-color", "background-color", printColour],
  ["font-family", "font-family", fontFamily],
  ["font-size", "font-size", fontSize],
  ["font-weight", "font-weight", oneOf(/^(?:[1-9]00|bold|normal)$/)],
  ["font-style", "font-style", oneOf(/^(?:italic|oblique|normal)$/)],
  ["text-decoration-line", "text-decoration", textLine],
  ["text-align", "text-align", oneOf(/^(?:left|right|center|justify|start|end)$/)],
  ["vertical-align", "vertical-align", oneOf(/^(?:sub|super|baseline|top|middle|bottom)$/)],
  ["direction", "direction", oneOf(/^(?:ltr|rtl)$/)],
  [
    "list-style-type",
    "list-style-type",
    oneOf(/^(?:disc|circle|square|decimal|(?:lower|upper)-(?:alpha|latin|roman)|none)$/),
  ],
  ["margin-left", "margin-left", sideMargin],
  ["margin-right", "margin-right", sideMargin],
];

/**
 * @param {CSSStyleDeclaration} style
 * @returns {[string, string][]}
 */
function declarationsOf(style) {
  return KEPT.flatMap(([property, name, keep]) => {
    const value = style.getPropertyValue(property);
    const kept = isShownStyle(property, value) ? keep(value) : "";
    return kept ? [/** @type {[string, string]} */ ([name, kept])] : [];
  });
}

/** Properties that aren't reported as dropped: they are resolved, or have another name. */
const QUIET = /^(?:text-decoration(?:-line)?|white-space(?:-collapse)?|text-wrap(?:-mode)?|display)$/;

/** @type {CSSStyleDeclaration | null} */
let probe = null;

/**
 * Parses a style attribute through the style of an element: a page's policy may forbid the attribute
 * itself.
 * @param {string} text
 * @returns {Style}
 */
function read(text) {
  probe ??= document.createElement("p").style;
  probe.cssText = text;
  const declarations = declarationsOf(probe);
  const names = new Set(declarations.map(([name]) => name));
  return {
    declarations,
    dropped: Array.from(probe).filter((property) => !names.has(property) && !QUIET.test(property)),
    isHidden: probe.display === "none" || /(?:^|;)\s*mso-hide\s*:\s*all/i.test(text),
    weight: probe.fontWeight,
    slope: probe.fontStyle,
    whiteSpace: whiteSpaceOf(probe),
  };
}

/**
 * Returns how a style has whitespace shown, as a value of `white-space-collapse`, or "".
 * @param {CSSStyleDeclaration} style
 * @returns {Style["whiteSpace"]}
 */
function whiteSpaceOf(style) {
  const value = style.whiteSpace || style.getPropertyValue("white-space-collapse");
  if (/^(?:pre|pre-wrap|break-spaces|preserve|preserve nowrap)$/.test(value)) {
    return "preserve";
  }
  if (/^(?:pre-line|preserve-breaks)$/.test(value)) {
    return "preserve-breaks";
  }
  return /^(?:normal|nowrap|collapse|initial)$/.test(value) ? "collapse" : "";
}

/** Reads style attributes, and each text once. */
export class StyleReader {
  /** @type {Map<string, Style>} */
  #known = new Map();

  /** @param {Element} element */
  of(element) {
    const text = element.getAttribute("style");
    if (text === null) {
      return NO_STYLE;
    }
    let style = this.#known.get(text);
    if (!style) {
      style = read(text);
      this.#known.set(text, style);
    }
    return style;
  }
}

/**
 * Returns the value of a style attribute.
 * @param {readonly (readonly [string, string])[]} declarations
 * @param {boolean} isBlock whether the element is a block: only blocks keep side margins
 */
export function printStyle(declarations, isBlock) {
  return declarations
    .filter(([name]) => isBlock || !SIDE_MARGINS.test(name))
    .map(([name, value]) => `${name}: ${value};`)
    .join(" ");
}
