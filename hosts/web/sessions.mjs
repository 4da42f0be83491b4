/**
 * node sessions.mjs [FOLDER..]: runs stored sessions through hedit.js, by default those of
 * tests/sessions.
 *
 * Each goes through Engine.session, which has to give what is stored. Those of `run` also go through
 * an Editor, call by call: the lines that are acts for which it has calls, which the engine has to
 * answer as a session of these lines alone. Beside it a tree follows what each call changed, and has
 * to come to the same HTML after each.
 */
import { argv, exit } from "node:process";
import { readSession, sessionFiles } from "../../tests/session_form.mjs";
import { BYTES } from "./test/engine.mjs";
import { Tree } from "./follow.mjs";
import { HeditError, load } from "./src/hedit.js";

const engine = await load(BYTES);

const FAULTS = {
  BadPlace: "! 4 bad place",
  TooManyMarks: "! 5 too many marks",
  PageFull: "! 6 full",
  TooDeep: "! 7 deep",
};

const ESCAPE = /\\(?:([nt\\])|u\{([0-9A-Fa-f]{1,6})\})/g;

const ESCAPES = { n: "\n", t: "\t", "\\": "\\" };

const PRINTED = { "\n": "\\n", "\t": "\\t", "\\": "\\\\", '"': '\\"', "\r": "\\r", "\xa0": "\\u{a0}" };

const NAME = "([A-Za-z0-9-]{1,64})";

const POINT = String.raw`(\.|\d{1,9}(?:/\d{1,9})*):(\d{1,9})`;

const place = (path, offset) => ({
  path: path === "." ? [] : path.split("/").map(Number),
  offset: Number(offset),
});

/** A value, whose escapes are \n, \t, \\ and \u{h}. */
const valueOf = (text) =>
  text.replace(ESCAPE, (_, letter, point) => ESCAPES[letter] ?? String.fromCodePoint(parseInt(point, 16)));

/** Whether each backslash of a text begins an escape of a value. */
function isValue(text) {
  const points = [...text.matchAll(ESCAPE)].flatMap((found) => found[2] ?? []);
  const areScalars = points
    .map((point) => parseInt(point, 16))
    .every((point) => point < 0xd800 || (0xdfff < point && point < 0x110000));
  return areScalars && !text.replace(ESCAPE, "").includes("\\");
}

function turns(editor, word, count) {
  let taken = 0;
  while (taken < count && editor[word]()) {
    taken += 1;
  }
  return `${word} ${taken}\n`;
}

function query(editor, question, name) {
  const reply = editor[question](name);
  const said = question === "value" ? `= ${reply.replace(/[\n\t\\"\r\xa0]/g, (it) => PRINTED[it])}` : reply;
  return `${said}\n`;
}

/**
 * The lines for which an Editor has calls, and what a session that denies some names answers to them
 * by these calls.
 */
const actsPast = (denied) => [
  [`select ${POINT} ${POINT}`, (editor, ...parts) => {
    editor.select(place(...parts.slice(0, 2)), place(...parts.slice(2)));
    return "ok\n";
  }],
  ["unselect", (editor) => {
    editor.unselect();
    return "ok\n";
  }],
  [`mark ${NAME} ${POINT} ${POINT}`, (editor, name, ...parts) => {
    editor.mark(name, place(...parts.slice(0, 2)), place(...parts.slice(2)));
    return "ok\n";
  }],
  [`unmark ${NAME}`, (editor, name) => `${editor.unmark(name)}\n`],
  [`exec ${NAME}(?: (.*))?`, (editor, name, value = "") =>
    `${editor.exec(name, valueOf(value), denied)}\n`],
  [`query (enabled|indeterm|state|supported|value) ${NAME}`, query],
  ["(undo|redo) ([1-9][0-9]{0,8})", turns],
  ["html", (editor) => editor.html()],
  ["tree", (editor) => editor.tree()],
  ["points", (editor) => editor.points()],
  ["stat", (editor) => editor.numbers()],
].map(([line, reply]) => [new RegExp(`^(?:${line})$`, "su"), reply]);

/** What answers a line by calls of an Editor; undefined where it has none for it. */
function actOf(acts, line) {
  if (line === undefined || Buffer.byteLength(line) > 8192) {
    return undefined;
  }
  for (const [pattern, reply] of acts) {
    const found = pattern.exec(line);
    if (found) {
      const isExec = line.startsWith("exec ");
      return isExec && !isValue(found[2] ?? "") ? undefined : (editor) => reply(editor, ...found.slice(1));
    }
  }
  return undefined;
}

function replyOf(editor, act) {
  try {
    return act(editor);
  } catch (error) {
    if (error instanceof HeditError && FAULTS[error.name]) {
      return `${FAULTS[error.name]}\n`;
    }
    throw error;
  }
}

/** The lines of a session; undefined for each that isn't UTF-8. */
function linesOf(bytes) {
  const decoder = new TextDecoder("utf-8", { fatal: true, ignoreBOM: true });
  return bytes
    .toString("latin1")
    .split("\n")
    .map((line) => {
      try {
        return decoder.decode(Buffer.from(line, "latin1"));
      } catch {
        return undefined;
      }
    });
}

/** Lets a tree follow what each call of an editor changes, and gives whether it was the page after each. */
function followed(editor) {
  const tree = new Tree(editor);
  let [seen, isFollowed] = [editor.revision(), true];
  // The labels of what the tree has forgotten, which no change may name.
  const forgotten = new Set();
  const forget = () => {
    const held = new Set(tree.gone);
    tree.forget(editor);
    for (const label of tree.gone) held.delete(label);
    held.forEach((label) => forgotten.add(label));
    return [...tree.labels].every((label) => !forgotten.has(label) && editor.isKept(label));
  };
  for (const name of ["exec", "undo", "redo"]) {
    const call = editor[name].bind(editor);
    editor[name] = (...words) => {
      try {
        return call(...words);
      } finally {
        const revision = editor.revision();
        if (revision !== seen) {
          isFollowed &&= revision === seen + 1;
          tree.follow(editor.changes());
          isFollowed = forget() && isFollowed;
          seen = revision;
        }
        isFollowed &&= tree.html() === editor.html();
      }
    };
  }
  return () => isFollowed;
}

/**
 * The transcript of the acts that an Editor has calls for, by these calls, the session that has these
 * acts alone, and whether a tree could follow them.
 */
function byCalls(bytes, { denied, ...limits }) {
  const known = actsPast(denied);
  const [opening, ...lines] = linesOf(bytes);
  const end = lines.indexOf(opening.replace(/^page <</, ""));
  const acts = lines.slice(end + 1).filter((line) => actOf(known, line));
  const editor = engine.open(lines.slice(0, end).join("\n"), limits);
  const isFollowed = followed(editor);
  const transcript = acts.map((line) => replyOf(editor, actOf(known, line))).join("");
  editor.close();
  return [transcript, [opening, ...lines.slice(0, end + 1), ...acts, ""].join("\n"), isFollowed()];
}

/** The limits and the denied names of the words; undefined where they ask for something else. */
function limitsOf(words) {
  const names = { "--cap": "labelCap", "--undo": "undoDepth" };
  const rest = words.slice(1).join(" ").replaceAll("=", " ").split(" ").filter(Boolean);
  const limits = { denied: [] };
  for (let at = 0; at < rest.length; at += 2) {
    if (rest[at] === "--deny" && at + 1 < rest.length) {
      limits.denied = rest[at + 1].split(",");
    } else if (names[rest[at]] && /^[0-9]+$/.test(rest[at + 1])) {
      limits[names[rest[at]]] = Number(rest[at + 1]);
    } else {
      return undefined;
    }
  }
  return words[0] === "run" ? limits : undefined;
}

let whole = 0;
let calls = 0;
const differ = [];
for (const file of sessionFiles(argv.slice(2))) {
  const { words, input, status, reply } = readSession(file);
  const told = engine.session(input, words);
  whole += 1;
  if (told.status !== status || !Buffer.from(told.transcript).equals(reply)) {
    differ.push(`${file} as a session`);
  }
  const limits = limitsOf(words);
  if (limits && status === 0) {
    calls += 1;
    const [transcript, known, isFollowed] = byCalls(input, limits);
    const wanted = engine.session(known, words);
    if (wanted.status !== 0 || wanted.transcript !== transcript) {
      differ.push(`${file} call by call`);
    }
    if (!isFollowed) {
      differ.push(`${file} followed`);
    }
  }
}
console.log(`web: ${whole} stored sessions as sessions, ${calls} call by call and followed; ${differ.length} differ`);
for (const line of differ.slice(0, 20)) {
  console.log(line);
}
exit(differ.length ? 1 : 0);
