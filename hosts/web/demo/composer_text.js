/** Texts that the composer shows, and those that it reads. */

/** The most characters of source that are coloured. */
const MOST_COLOURED = 100_000;

const WORDS = new Intl.Segmenter(undefined, { granularity: "word" });

/**
 * How many words a text has, by the rules of the language.
 * @param {string} text
 */
export function countWords(text) {
  let count = 0;
  for (const { isWordLike } of WORDS.segment(text)) {
    count += isWordLike ? 1 : 0;
  }
  return count;
}

/**
 * A count with its noun.
 * @param {number} count
 * @param {string} noun
 */
export function counted(count, noun) {
  return `${count.toLocaleString("en")} ${noun}${count === 1 ? "" : "s"}`;
}

/**
 * A colour as `#rrggbb`, from one that the engine answers; the empty text where it can't be seen.
 * @param {string} colour
 */
export function hexOf(colour) {
  const [red, green, blue, alpha = "1"] = colour.match(/[\d.]+/g) ?? [];
  if (!colour.startsWith("rgb") || alpha === "0") {
    return colour.startsWith("#") ? colour : "";
  }
  return `#${[red, green, blue].map((part) => Number(part).toString(16).padStart(2, "0")).join("")}`;
}

/**
 * An address as a link has it: without a scheme it is one of the web, or of a mailbox.
 * @param {string} text
 */
export function addressOf(text) {
  const plain = text.trim();
  if (/^([a-z][a-z0-9+.-]*:|[/#?])/i.test(plain)) {
    return plain;
  }
  return /^[^/]+@[^/]+$/.test(plain) ? `mailto:${plain}` : `https://${plain}`;
}

/**
 * The scheme of an address, as the browser reads it; the empty text if it can't.
 * @param {string} address
 */
function schemeOf(address) {
  try {
    return new URL(address).protocol;
  } catch {
    return "";
  }
}

/**
 * Whether a link may lead to an address.
 * @param {string} address
 */
export function isLinkAddress(address) {
  const scheme = schemeOf(address);
  const isWhole = /^mailto:[^@]+@[^@]+$/i.test(address) || /^tel:[+\d]/i.test(address);
  return isWhole || (/^https?:$/.test(scheme) && /^https?:\/\/[^/]/i.test(address));
}

/**
 * Whether a picture may come from an address: of the web, or one that holds it.
 * @param {string} address
 */
export function isPictureAddress(address) {
  const isData = /^data:image\/(?:png|jpeg|gif|webp);base64,[a-z\d+/=]+$/i.test(address);
  return isData || (schemeOf(address) === "https:" && /^https:\/\/[^/]/i.test(address));
}

/**
 * The text of some HTML, a line for each block.
 * @param {string} html
 */
export function plainText(html) {
  const lines = html.replace(/<(?:br|hr|\/(?:p|div|li|h[1-6]|tr|pre|blockquote))\b[^>]*>/gi, "$&\n");
  const { body } = new DOMParser().parseFromString(lines, "text/html");
  return (body.textContent ?? "").replace(/\n{3,}/g, "\n\n").trim();
}

/**
 * HTML as a mail program gets it: without what says that a part can't be edited.
 * @param {string} html
 */
export function withoutLocks(html) {
  const isTag = /<(?:"[^"]*"|[^">])*>/g;
  return html.replace(isTag, (tag) => tag.replace(/ contenteditable="[^"]*"/, ""));
}

/**
 * HTML with a span around each tag, each value of an attribute, and each reference, where it isn't
 * long. The text stays.
 * @param {string} html
 */
export function coloured(html) {
  const shown = document.createDocumentFragment();
  if (html.length > MOST_COLOURED) {
    shown.append(html);
    return shown;
  }
  const add = (/** @type {string} */ text, /** @type {string} */ kind) => {
    const span = document.createElement("span");
    span.className = kind;
    span.textContent = text;
    shown.append(span);
  };
  for (const [piece] of html.matchAll(/<!--.*?-->|<(?:"[^"]*"|[^">])*>|&\w+;|&#\w+;|[^<&]+|[<&]/gs)) {
    if (piece.startsWith("<!--")) {
      add(piece, "comment");
    } else if (piece.startsWith("<")) {
      for (const [inner] of piece.matchAll(/"[^"]*"|[^"]+/g)) {
        add(inner, inner.startsWith('"') ? "value" : "tag");
      }
    } else if (piece.startsWith("&")) {
      add(piece, "reference");
    } else {
      shown.append(piece);
    }
  }
  return shown;
}
