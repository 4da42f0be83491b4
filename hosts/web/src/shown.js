/**
 * The tables of what a page shows of HTML from elsewhere: elements, attributes, styles and addresses.
 * The view of a region and `cleanPage` both ask here, and each table is said once. What a table
 * doesn't have isn't shown.
 */

/**
 * What a host allows beyond the tables.
 * @typedef {object} Allowed
 * @property {RegExp | Iterable<string>} [classes] Words of `class` that are shown: a list, or an
 *   expression that matches whole words. By default none.
 * @property {boolean} [relative] Whether addresses that depend on the page are shown. By default they
 *   aren't.
 */

/** @param {string} text */
const namesOf = (text) => /** @type {ReadonlySet<string>} */ (new Set(text.split(" ")));

/** Elements that hold lines. */
export const BLOCKS = namesOf(
  "address article aside blockquote center dd div dl dt figcaption figure footer h1 h2 h3 h4 h5 h6 " +
    "header hgroup hr li main nav ol p pre section ul",
);

/** Elements that stand in lines. */
export const INLINES = namesOf(
  "a abbr acronym b bdi bdo big br cite code del dfn em font i img ins kbd mark nobr q rp rt ruby s " +
    "samp small span strike strong sub sup time tt u var wbr",
);

/** Tables and their parts. */
export const TABLES = namesOf("table caption colgroup col thead tbody tfoot tr td th");

/** Elements that hold lines too, and that aren't shown by themselves. */
const OTHER_BLOCKS = namesOf(
  "body details dialog dir fieldset form frameset head html legend listing menu optgroup option " +
    "plaintext search summary xmp",
);

/** Elements without an end tag, which show nothing that stands in them. */
export const VOIDS = namesOf(
  "area base br col embed hr img input link meta param source track wbr",
);

/** Elements that are never shown, whatever a host allows. Names with a hyphen belong to them. */
const NEVER_SHOWN = namesOf(
  "applet base body embed fencedframe form frame frameset head html iframe link meta noscript object " +
    "param portal script slot style template title",
);

/** Attributes that are never shown as they are, whatever a host allows. */
const NEVER_GIVEN = /^(?:on.*|form.*|is|nonce|part|slot|srcdoc|style|xmlns.*)$/;

/** @param {string} name */
export function isShownElement(name) {
  return BLOCKS.has(name) || INLINES.has(name) || TABLES.has(name);
}

/**
 * Whether a host may allow an element that the tables leave out.
 * @param {string} name
 */
export function isAllowable(name) {
  return /^[a-z][a-z0-9]*$/.test(name) && !NEVER_SHOWN.has(name);
}

/**
 * Whether an element holds lines.
 * @param {string} name
 */
export function isBlockName(name) {
  const isInTable = TABLES.has(name) && name !== "col" && name !== "colgroup";
  return BLOCKS.has(name) || isInTable || OTHER_BLOCKS.has(name);
}

/**
 * The element that is shown in place of one that isn't.
 * @param {string} name
 */
export function placeholderOf(name) {
  return isBlockName(name) ? "div" : "span";
}

// Addresses.

const LINK_SCHEMES = namesOf("http: https: mailto: tel:");

const IMAGE_SCHEMES = namesOf("http: https: cid: blob:");

/** The types of images in addresses that hold them. */
const IMAGE_DATA = /^image\/(?:png|jpeg|gif|webp|avif)[;,]/i;

/**
 * An address as the browser reads it; null where it can't.
 * @param {string} address
 * @param {string} [base]
 */
function read(address, base) {
  try {
    return new URL(address, base);
  } catch {
    return null;
  }
}

/**
 * What an address leads to: null where it depends on the page, and that isn't allowed.
 * @param {string} address
 * @param {boolean} relative
 */
function targetOf(address, relative) {
  const [plain, secure] = [read(address, "http://a.invalid/"), read(address, "https://a.invalid/")];
  const isWhole = plain !== null && plain.href === secure?.href;
  return isWhole || relative ? secure : null;
}

/**
 * Whether a host may allow an attribute with a value that the tables leave out. No address may run a
 * script.
 * @param {string} attribute
 * @param {string} value
 */
export function isAllowableAttribute(attribute, value) {
  const { protocol = "" } = read(value, "https://a.invalid/") ?? {};
  return !NEVER_GIVEN.test(attribute) && !/script:$/.test(protocol);
}

/**
 * Whether a link may lead to an address.
 * @param {string} address
 * @param {boolean} [relative] whether it may depend on the page
 */
export function isLinkAddress(address, relative = false) {
  return LINK_SCHEMES.has(targetOf(address, relative)?.protocol ?? "");
}

/**
 * Whether an image may come from an address.
 * @param {string} address
 * @param {boolean} [relative] whether it may depend on the page
 */
export function isImageAddress(address, relative = false) {
  const target = targetOf(address, relative);
  const isData = target?.protocol === "data:" && IMAGE_DATA.test(target.pathname);
  return isData || IMAGE_SCHEMES.has(target?.protocol ?? "");
}

// Attributes.

/** @typedef {(value: string, allowed: Allowed) => boolean} Test */

/** @param {RegExp} expression */
const fits = (expression) => /** @type {Test} */ ((value) => expression.test(value));

/**
 * A whole number up to another.
 * @param {number} most
 */
const countTo = (most) =>
  /** @type {Test} */ ((value) => /^[1-9]\d{0,4}$/.test(value) && Number(value) <= most);

const ANY = fits(/^/);

/** A font's names. */
const FACE = fits(/^[^()\\;{}<>]{1,200}$/);

/** @type {Readonly<Record<string, Test>>} */
const OF_ALL = {
  contenteditable: fits(/^(?:true|false|)$/i),
  dir: fits(/^(?:ltr|rtl|auto)$/i),
  lang: fits(/^[a-z\d-]{1,35}$/i),
  title: ANY,
};

/** @type {Readonly<Record<string, Test>>} */
const OF_CELLS = {
  colspan: countTo(1000),
  rowspan: countTo(1000),
  scope: fits(/^(?:row|col|rowgroup|colgroup)$/i),
};

/** @type {Readonly<Record<string, Readonly<Record<string, Test>>>>} */
const OF_NAMES = {
  a: { href: (value, { relative }) => isLinkAddress(value, relative) },
  img: {
    src: (value, { relative }) => isImageAddress(value, relative),
    alt: ANY,
    width: fits(/^\d{1,5}$/),
    height: fits(/^\d{1,5}$/),
  },
  ol: { start: fits(/^-?\d{1,5}$/), type: fits(/^[1aAiI]$/), reversed: ANY },
  li: { value: fits(/^-?\d{1,5}$/) },
  td: OF_CELLS,
  th: OF_CELLS,
  col: { span: countTo(1000) },
  colgroup: { span: countTo(1000) },
  font: {
    color: fits(/^(?:#[\da-f]{3,6}|[a-z]{1,30})$/i),
    face: FACE,
    size: fits(/^[+-]?[1-7]$/),
  },
};

/**
 * The words of a class that a host allows, with blanks between; null where it allows none of them.
 * @param {string} value
 * @param {Allowed["classes"]} classes
 */
function wordsOf(value, classes = []) {
  const each = value.split(/[\t\n\f\r ]+/).filter(Boolean);
  // An expression of another window is none of this one's class.
  const isWhole =
    "exec" in classes
      ? (/** @type {string} */ word) => word.match(classes)?.[0] === word
      : (/** @type {string} */ word) => [...classes].includes(word);
  return each.filter(isWhole).join(" ") || null;
}

/**
 * The test for the values of an attribute; nothing where no value is shown.
 * @param {string} name that of the element
 * @param {string} attribute
 * @returns {Test | undefined}
 */
function testOf(name, attribute) {
  const ofName = Object.hasOwn(OF_NAMES, name) ? OF_NAMES[name] : {};
  const table = [OF_ALL, ofName].find((tests) => Object.hasOwn(tests, attribute));
  return table?.[attribute];
}

/**
 * Whether an attribute of an element is shown where its value fits.
 * @param {string} name that of the element
 * @param {string} attribute
 */
export function isKnownAttribute(name, attribute) {
  return attribute === "class" || testOf(name, attribute) !== undefined;
}

/**
 * An attribute of an element as it is shown; null where it isn't. `style` isn't: see `shownStyle`.
 * @param {string} name that of the element
 * @param {string} attribute
 * @param {string} value
 * @param {Allowed} [allowed]
 * @returns {string | null}
 */
export function shownAttribute(name, attribute, value, allowed = {}) {
  if (attribute === "class") {
    return wordsOf(value, allowed.classes);
  }
  return testOf(name, attribute)?.(value, allowed) ? value : null;
}

/**
 * What an element gets beside its own attributes: where it leads or loads from learns nothing.
 * @param {string} name
 * @param {ReadonlyMap<string, string>} attributes those that are shown
 * @returns {readonly (readonly [string, string])[]}
 */
export function addedAttributes(name, attributes) {
  if (name === "a" && attributes.has("href")) {
    return [["rel", "noopener noreferrer"]];
  }
  return name === "img" ? [["referrerpolicy", "no-referrer"]] : [];
}

// Styles.

/** How many pixels a unit has; for those that depend on a font, those of the usual one. */
const PIXELS = /** @type {Readonly<Record<string, number>>} */ ({
  px: 1,
  pt: 4 / 3,
  pc: 16,
  in: 96,
  cm: 96 / 2.54,
  mm: 9.6 / 2.54,
  q: 2.4 / 2.54,
  em: 16,
  rem: 16,
  ex: 8,
  ch: 8,
});

/** @typedef {(value: string) => boolean} StyleTest */

/** @type {StyleTest} */
const isKeyword = (value) => /^[a-z-]+(?: [a-z-]+)*$/i.test(value);

/** @type {StyleTest} */
const isColour = (value) =>
  /^(?:[a-z]+|#[\da-f]{3,8}|(?:rgba?|hsla?|hwb|lab|lch|oklab|oklch|color)\([^()]*\))$/i.test(value);

/** @type {StyleTest} */
const isDisplay = (value) => /^(?:block|inline|inline-block|list-item|none|table(?:-.+)?)$/.test(value);

/**
 * Keywords, and lengths that aren't negative, up to so many pixels and so many hundredths.
 * @param {number} most
 * @param {number} hundredths
 * @returns {StyleTest}
 */
function lengthTo(most, hundredths = 0) {
  return (value) => {
    const [, number, unit] = /^(\d*\.?\d+)([a-z]*|%)$/i.exec(value) ?? [];
    if (number === undefined) {
      return isKeyword(value);
    }
    const pixels = Number(number) * (PIXELS[unit.toLowerCase()] ?? Infinity);
    return Number(number) === 0 || (unit === "%" ? Number(number) <= hundredths : pixels <= most);
  };
}

/** @type {StyleTest} */
const isLine = (value) =>
  lengthTo(400, 1000)(value) || (/^\d*\.?\d+$/.test(value) && Number(value) <= 10);

/** @type {StyleTest} */
const isFont = (value) => /^[^()\\;{}<>]{1,200}$/.test(value);

const EDGE = lengthTo(400, 100);

const KEYWORDS = new RegExp(
  "^(?:text-(?:align|transform|wrap|wrap-mode|wrap-style)|white-space(?:-collapse)?|direction|" +
    "unicode-bidi|list-style-type|border-collapse|table-layout|float|alignment-baseline|" +
    "baseline-source|text-decoration-(?:line|style|skip-ink)|text-decoration)$",
);

/**
 * The properties that are shown, each with what its values have to be. The first that has a name is
 * taken. The browser gives properties that stand for several one by one.
 * @type {readonly (readonly [RegExp, StyleTest])[]}
 */
const PROPERTIES = [
  [/^(?:background-|text-decoration-|border(?:-[a-z]+)*-)?color$/, isColour],
  [/^font-size$/, lengthTo(200, 1000)],
  [/^font(?:-[a-z]+)+$/, isFont],
  [/^line-height$/, isLine],
  [/^(?:letter|word)-spacing$/, lengthTo(200)],
  [KEYWORDS, isKeyword],
  [/^(?:text-indent|vertical-align|baseline-shift|text-decoration-thickness)$/, EDGE],
  [/^(?:margin|padding)(?:-[a-z]+)+$/, EDGE],
  [/^border(?:-[a-z]+)*-width$/, EDGE],
  [/^border(?:-[a-z]+)*-style$/, isKeyword],
  [/^(?:(?:min|max)-)?(?:width|height)$/, lengthTo(2000, 100)],
  [/^display$/, isDisplay],
];

/**
 * Whether a property may have a value, as the browser writes both.
 * @param {string} property
 * @param {string} value
 */
export function isShownStyle(property, value) {
  const [, test] = PROPERTIES.find(([names]) => names.test(property)) ?? [];
  return value !== "" && test !== undefined && test(value);
}

/**
 * The properties of a style that are shown, with their values.
 * @param {CSSStyleDeclaration} style
 * @returns {[string, string][]}
 */
export function shownStyle(style) {
  return Array.from(style, (property) => [property, style.getPropertyValue(property)]).flatMap(
    ([property, value]) => (isShownStyle(property, value) ? [[property, value]] : []),
  );
}
