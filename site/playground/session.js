/** Sessions as texts: which reply is whose, and where a fault is. */

/** @typedef {{ status: number, transcript: string }} Answer */
/** @typedef {{ line: number, act: string, reply: string }} Reply */
/** @typedef {{ line: number, column: number, length: number }} Place lines and columns count from 1 */

/** Acts whose replies have any number of lines. */
const LONG_ACTS = new Set(["html", "tree", "log", "points"]);

/** How many of these a session may have whose replies are told apart: each takes a run of its own. */
const MOST_LONG_ACTS = 100;

const bytes = (/** @type {string} */ text) => new TextEncoder().encode(text);

/**
 * The lines of a session, and the place of the one that closes the page; undefined where none does.
 * @param {string} text
 */
function read(text) {
  const lines = text.split("\n");
  const word = /^page <<([A-Za-z0-9]{1,32})$/.exec(lines[0])?.[1];
  const end = word === undefined ? -1 : lines.indexOf(word, 1);
  return end < 0 ? undefined : { lines, end };
}

/**
 * The reply to each act; undefined where there is no page, or where too many replies have many lines.
 * A reply that may have many lines ends where that of the session up to its act does.
 * @param {string} text
 * @param {Answer} answer
 * @param {(text: string) => Answer} run
 * @returns {Reply[] | undefined}
 */
export function repliesOf(text, { transcript }, run) {
  const session = read(text);
  if (!session) {
    return undefined;
  }
  const acts = session.lines
    .map((act, place) => ({ line: place + 1, act }))
    .slice(session.end + 1)
    .filter(({ act }) => act !== "");
  if (acts.filter(({ act }) => LONG_ACTS.has(act)).length > MOST_LONG_ACTS) {
    return undefined;
  }
  const replies = [];
  let from = 0;
  for (const { line, act } of acts) {
    const upTo = () => run(`${session.lines.slice(0, line).join("\n")}\n`).transcript.length;
    const end = LONG_ACTS.has(act) ? upTo() : transcript.indexOf("\n", from) + 1;
    if (end <= from) {
      break;
    }
    replies.push({ line, act, reply: transcript.slice(from, end) });
    from = end;
  }
  return replies;
}

/**
 * The place after so many bytes of a text.
 * @param {string} text
 * @param {number} count
 * @returns {Place}
 */
function placeAfter(text, count) {
  const before = new TextDecoder().decode(bytes(text).slice(0, count));
  const lines = before.split("\n");
  return { line: lines.length, column: lines[lines.length - 1].length + 1, length: 1 };
}

/**
 * Where the fault is by which a whole input is refused; undefined where it has no place.
 * @param {string} text
 * @param {string} transcript
 * @returns {Place | undefined}
 */
export function placeOfFault(text, transcript) {
  const [, kind, number, name] = /^! (page|step) (\d+) ([a-z-]+)\n$/.exec(transcript) ?? [];
  const session = read(text);
  if (kind === "step" && session) {
    return { line: session.end + 1 + Number(number), column: 1, length: 0 };
  }
  if (kind !== "page" || name === "no-closing") {
    return undefined;
  }
  if (name === "no-opening") {
    return { line: 1, column: 1, length: 0 };
  }
  if (!session) {
    return placeAfter(text, Number(number));
  }
  const place = placeAfter(session.lines.slice(1, session.end).join("\n"), Number(number));
  return { ...place, line: place.line + 1 };
}
