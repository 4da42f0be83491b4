/** What the engine's faults mean. docs/FORMATS.md has them all. */

/**
 * The faults of an act, by their beginnings.
 * @type {Record<string, string>}
 */
const OF_ACTS = {
  "! 1": "The line isn't in the grammar of session lines.",
  "! 2": "No session line begins with this word.",
  "! 3": "The line has more than 8,192 bytes.",
  "! 4": "The document has no such place, or nothing can be selected there.",
  "! 5": "There are 16 marks already.",
  "! 6": "A node would get an ID that reaches the cap.",
  "! 7": "The document is deeper than 250 levels.",
  "! 8": "The history is cut: the oldest step was dropped.",
};

/** @type {Record<string, string>} */
const OF_PAGES = {
  "no-opening": "The first line isn't “page <<WORD”.",
  "no-closing": "No line closes the page: one has to be the word after “page <<”.",
  "too-long": "The page has more than 4,194,304 bytes.",
  unclosed: "The page ends before all elements and tags are closed.",
  "not-utf8": "The page isn't UTF-8 here.",
  "too-deep": "The page has more than 200 levels here.",
  full: "A node would get an ID that reaches the cap.",
  "unsupported-element": "A page may not have this element.",
  "repeated-attribute": "The tag has this attribute already.",
  "unknown-reference": "A page has only the references &amp; &lt; &gt; &quot; &apos; &nbsp; and numeric ones.",
  "stray-end": "This end tag closes nothing: each element is closed in order.",
  "bad-attribute": "A tag isn't written like this: a value is in quotes, or there is none.",
  "bad-tag": "No tag is written like this.",
};

/** @type {Record<string, string>} */
const OF_STEPS = {
  syntax: "The line isn't in the grammar of logs.",
  "bad-label": "The line names a node by an ID that it can't have.",
  "bad-place": "The line doesn't fit the tree.",
  "too-deep": "The document would be deeper than 1,000 levels.",
};

/** @type {Record<number, string>} */
const OF_STATUSES = {
  2: "These arguments aren't in the grammar. Try run.",
  5: "There is no more memory.",
  7: "The session has more than 8,388,608 bytes.",
};

/**
 * What the fault of an act means; undefined for a reply that isn't one.
 * @param {string} reply
 * @returns {string | undefined}
 */
export const meaningOf = (reply) => (/^! \d [a-z ]+\n$/.test(reply) ? OF_ACTS[reply.slice(0, 3)] : undefined);

/**
 * Why an input was refused as a whole; undefined where it wasn't.
 * @param {import("./session.js").Answer} answer
 * @returns {string | undefined}
 */
export function refusalOf({ status, transcript }) {
  const [, kind, name] = /^! (page|step) \d+ ([a-z-]+)\n$/.exec(transcript) ?? [];
  if (status === 6 || status === 8) {
    return (kind === "step" ? OF_STEPS : OF_PAGES)[name];
  }
  return OF_STATUSES[status];
}
