/**
 * The formats of text that elements of a cleaned fragment set, as commands of the engine, for rich
 * paste.
 */

/**
 * The commands of the formats that a text has, each with its value: those that switch a format on have
 * an empty one.
 * @typedef {ReadonlyMap<string, string>} Formats
 */

/** @typedef {import("./clean_tree.js").CleanElement} CleanElement */

/** @type {Formats} */
export const NO_FORMATS = new Map();

/** @type {Readonly<Record<string, readonly [string, string]>>} */
const OF_ELEMENTS = Object.fromEntries(
  [
    ["bold", "", "b strong th"],
    ["italic", "", "i em cite dfn var"],
    ["underline", "", "u ins"],
    ["strikethrough", "", "s del"],
    ["subscript", "", "sub"],
    ["superscript", "", "sup"],
    ["fontName", "monospace", "code kbd samp"],
    ["fontSize", "2", "small"],
    ["hiliteColor", "#ffff00", "mark"],
  ].flatMap(([command, value, names]) => names.split(" ").map((name) => [name, [command, value]])),
);

/** How many pixels the sizes of `fontSize` have, from 1 on. */
const SIZES = [10, 13, 16, 18, 24, 32, 48];

const SIZE_NAMES = ["x-small", "small", "medium", "large", "x-large", "xx-large", "xxx-large"];

const NORMAL_SIZE = "3";

/**
 * The size of `fontSize` that is nearest to one of CSS, or "" where there is none. What mail programs
 * call normal, 10 to 13 points, is the normal size.
 * @param {string} value
 */
function sizeOf(value) {
  const named = SIZE_NAMES.indexOf(value);
  const pixels = parseFloat(value);
  if (named >= 0 || !(pixels > 0)) {
    return value === "xx-small" ? "1" : named >= 0 ? String(named + 1) : "";
  }
  if (pixels >= 13 && pixels < 17.5) {
    return NORMAL_SIZE;
  }
  const distances = SIZES.map((size) => Math.abs(Math.log(size / pixels)));
  return String(distances.indexOf(Math.min(...distances)) + 1);
}

/**
 * Red, green and blue of a colour as cleaning prints it.
 * @param {string} value
 */
function partsOf(value) {
  const digits = /^#([\da-f]{2})([\da-f]{2})([\da-f]{2})$/.exec(value);
  const numbers = /^rgb\((\d+), (\d+), (\d+)\)$/.exec(value);
  return digits
    ? digits.slice(1).map((pair) => parseInt(pair, 16))
    : (numbers?.slice(1).map(Number) ?? null);
}

/** @param {string} value */
function hexOf(value) {
  const parts = partsOf(value);
  return parts ? `#${parts.map((part) => part.toString(16).padStart(2, "0")).join("")}` : "";
}

/**
 * What a declaration of a style sets: commands with their values, or null where it switches one off.
 * @type {Readonly<Record<string, (value: string) => readonly (readonly [string, string | null])[]>>}
 */
const OF_STYLES = {
  "font-weight": (value) => [["bold", value === "bold" || Number(value) >= 600 ? "" : null]],
  "font-style": (value) => [["italic", value === "normal" ? null : ""]],
  "text-decoration": (value) => [
    ["underline", value.includes("underline") ? "" : null],
    ["strikethrough", value.includes("line-through") ? "" : null],
  ],
  "vertical-align": (value) => [
    ["subscript", value === "sub" ? "" : null],
    ["superscript", value === "super" ? "" : null],
  ],
  color: (value) => [["foreColor", hexOf(value) || null]],
  "background-color": (value) => [["hiliteColor", hexOf(value) || null]],
  "font-family": (value) => [["fontName", value || null]],
  "font-size": (value) => [["fontSize", sizeOf(value) || null]],
};

/**
 * The declarations of a style as cleaning prints it.
 * @param {CleanElement} element
 * @returns {ReadonlyMap<string, string>}
 */
export function styleOf({ attributes }) {
  const style = attributes.find(([name]) => name === "style")?.[1] ?? "";
  const declarations = style.matchAll(/([a-z-]+): ([^;]*);/g);
  return new Map(Array.from(declarations, ([, name, value]) => [name, value]));
}

/**
 * A size of `font`, which may be relative.
 * @param {string} size
 */
function fontSizeOf(size) {
  const number = /^[+-]/.test(size) ? Number(NORMAL_SIZE) + Number(size) : Number(size);
  return String(Math.min(Math.max(number, 1), SIZES.length));
}

/**
 * What an attribute sets.
 * @param {string} element
 * @param {string} name
 * @param {string} value
 * @returns {readonly [string, string] | null}
 */
function ofAttribute(element, name, value) {
  switch (`${element} ${name}`) {
    case "a href":
      return ["createLink", value];
    case "font color":
      return ["foreColor", hexOf(value)];
    case "font face":
      return ["fontName", value];
    case "font size":
      return ["fontSize", fontSizeOf(value)];
    default:
      return null;
  }
}

/**
 * The formats within an element.
 * @param {CleanElement} element
 * @param {Formats} around
 * @returns {Formats}
 */
export function formatsIn(element, around) {
  const { name, attributes } = element;
  const set = Object.hasOwn(OF_ELEMENTS, name) ? [OF_ELEMENTS[name]] : [];
  if (set.length === 0 && attributes.length === 0) {
    return around;
  }
  const formats = new Map([...around, ...set]);
  for (const [attribute, value] of attributes) {
    const [command, given] = ofAttribute(name, attribute, value) ?? [];
    if (command && given) {
      formats.set(command, given);
    }
  }
  for (const [property, value] of styleOf(element)) {
    for (const [command, given] of OF_STYLES[property]?.(value) ?? []) {
      if (given === null) {
        formats.delete(command);
      } else {
        formats.set(command, given);
      }
    }
  }
  return formats;
}

/** Fonts that programs write where nobody chose one. */
const USUAL_FONT = new RegExp(
  "^'?(?:-apple-system|aptos|arial|blinkmacsystemfont|calibri|cambria|google sans|helvetica(?: neue)?|" +
    "inherit|liberation (?:sans|serif)|roboto|sans-serif|segoe ui|serif|system-ui|times(?: new roman)?|" +
    "ui-sans-serif|verdana)'?(?:,|$)",
  "i",
);

/** @param {string} colour */
function isNearBlack(colour) {
  const parts = partsOf(colour) ?? [255];
  return Math.max(...parts) < 0x2c && Math.max(...parts) - Math.min(...parts) < 9;
}

/** @param {string} colour */
const isNearWhite = (colour) => Math.min(...(partsOf(colour) ?? [0])) > 0xf7;

/**
 * Whether a program wrote a format where nobody chose it: black on white, in a usual font and size.
 * @param {string} command
 * @param {string} value
 */
function isDefault(command, value) {
  switch (command) {
    case "foreColor":
      return isNearBlack(value);
    case "hiliteColor":
      return isNearWhite(value);
    case "fontName":
      return USUAL_FONT.test(value);
    default:
      return command === "fontSize" && value === NORMAL_SIZE;
  }
}

/** What a heading, or a link, has by itself. */
const OF_HEADINGS = new Set(["bold", "fontSize", "fontName"]);

const OF_LINKS = new Set(["underline", "foreColor"]);

/**
 * The formats of a text that are worth to be set.
 * @param {Formats} formats
 * @param {object} where
 * @param {boolean} where.isHeading
 * @param {boolean} where.isOwn whether it was copied within a region, where each format was chosen
 * @returns {Formats}
 */
export function chosen(formats, { isHeading, isOwn }) {
  const isImplied = (/** @type {string} */ command) =>
    (isHeading && OF_HEADINGS.has(command)) ||
    (formats.has("createLink") && OF_LINKS.has(command));
  const isLeftOut = (/** @type {string} */ command, /** @type {string} */ value) =>
    isOwn ? isHeading && command === "bold" : isImplied(command) || isDefault(command, value);
  const kept = [...formats].filter(([command, value]) => !isLeftOut(command, value));
  return kept.length === 0 ? NO_FORMATS : new Map(kept);
}
