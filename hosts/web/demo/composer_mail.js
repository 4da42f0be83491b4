/** A mail as a message that mail programs open (RFC 5322), with its pictures in it (RFC 2387). */
import { partsOf } from "./composer_recipients.js";

/** How many bytes a word of a header may hold, before they are written as letters. */
const WORD_BYTES = 45;

/** How many letters a line of a body has. */
const LINE_LETTERS = 76;

const ENCODER = new TextEncoder();

/** @typedef {import("./composer_pictures.js").Picture} Picture */

/** @param {Uint8Array} bytes */
function base64(bytes) {
  return btoa(Array.from(bytes, (byte) => String.fromCharCode(byte)).join(""));
}

/**
 * Bytes as the lines of a body.
 * @param {Uint8Array} bytes
 */
function lines(bytes) {
  return base64(bytes).match(new RegExp(`.{1,${LINE_LETTERS}}`, "g")) ?? [];
}

/**
 * The characters of a text in parts that are small enough for a word of a header.
 * @param {string} text
 */
function words(text) {
  const found = [""];
  for (const character of text) {
    const longer = found[found.length - 1] + character;
    if (ENCODER.encode(longer).length > WORD_BYTES) {
      found.push(character);
    } else {
      found[found.length - 1] = longer;
    }
  }
  return found;
}

/**
 * A text as the words of a header, on one line. Mail has letters of ASCII only there; others are
 * encoded.
 * @param {string} text
 */
function headerText(text) {
  const line = text.replace(/[\r\n]+/g, " ").trim();
  return /^[ -~]*$/.test(line)
    ? line
    : words(line)
        .map((word) => `=?UTF-8?B?${base64(ENCODER.encode(word))}?=`)
        .join("\r\n ");
}

/**
 * Addresses as a header has them: the names are encoded, and the addresses stay.
 * @param {string} addresses
 */
function headerAddresses(addresses) {
  const each = partsOf(addresses).map((address) => {
    const [, name, rest] = /^\s*(.*?)\s*(<[^<>]*>)\s*$/s.exec(address) ?? [];
    return name ? `${headerText(name)} ${headerText(rest)}` : headerText(address);
  });
  return each.join(",\r\n ");
}

/**
 * A page of some HTML as a part of a message.
 * @param {string} html
 */
function pagePart(html) {
  const head = '<!doctype html>\n<html><head><meta charset="utf-8"></head><body>\n';
  const page = ENCODER.encode(`${head}${html}\n</body></html>\n`);
  return [
    "Content-Type: text/html; charset=utf-8",
    "Content-Transfer-Encoding: base64",
    "",
    ...lines(page),
  ];
}

/** @param {Picture} picture */
function picturePart({ address, bytes, type }) {
  const [id] = /[^:]+$/.exec(address) ?? [];
  const name = `${id?.replace(/@.*/, "")}.${type.replace("image/", "")}`;
  return [
    `Content-Type: ${type}`,
    "Content-Transfer-Encoding: base64",
    `Content-ID: <${id}>`,
    `Content-Disposition: inline; filename="${name}"`,
    "",
    ...lines(bytes),
  ];
}

/**
 * The page with its pictures as one body.
 * @param {string} html
 * @param {readonly Picture[]} pictures
 */
function bodyOf(html, pictures) {
  if (pictures.length === 0) {
    return [...pagePart(html), ""];
  }
  const boundary = `hedit-${crypto.randomUUID()}`;
  const parts = [pagePart(html), ...pictures.map(picturePart)];
  return [
    `Content-Type: multipart/related; type="text/html"; boundary="${boundary}"`,
    "",
    ...parts.flatMap((each) => [`--${boundary}`, ...each, ""]),
    `--${boundary}--`,
    "",
  ];
}

/**
 * A message that a mail program opens as a draft.
 * @param {import("./composer_fields.js").Head} head
 * @param {string} html
 * @param {readonly Picture[]} pictures those that the HTML shows from `cid:` addresses
 */
export function messageOf(head, html, pictures) {
  const recipients = [
    ["To", head.to],
    ["Cc", head.cc],
    ["Bcc", head.bcc],
  ];
  const headers = [
    "X-Unsent: 1",
    ...recipients.flatMap(([name, list]) => (list.trim() ? [`${name}: ${headerAddresses(list)}`] : [])),
    `Subject: ${headerText(head.subject)}`,
    `Date: ${new Date().toUTCString().replace("GMT", "+0000")}`,
    "MIME-Version: 1.0",
  ];
  return [...headers, ...bodyOf(html, pictures)].join("\r\n");
}

/**
 * The name of the file that a draft is saved to.
 * @param {string} subject
 */
export function fileName(subject) {
  const plain = subject.replace(/[^\p{Letter}\p{Number}]+/gu, " ").trim();
  return `${Array.from(plain).slice(0, 60).join("") || "message"}.eml`;
}
