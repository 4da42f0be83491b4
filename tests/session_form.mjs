/** Reads the files of tests/sessions, whose form tests/sessions/README.md describes. */
import { readFileSync, readdirSync, statSync } from "node:fs";
import { dirname, join } from "node:path";
import { fileURLToPath } from "node:url";

export const FOLDER = join(dirname(fileURLToPath(import.meta.url)), "sessions");

const REPLY = /^--- reply, status (\d+)$/;

const ESCAPE = /⟨([0-9A-F]{2}(?: [0-9A-F]{2})*)⟩/;

/** A word of a shell, of pieces that have no blank or are between quotes. */
const WORD = /(?:'[^']*'|"[^"]*"|[^\s'"])+/g;

const unquoted = (word) => word.replace(/'([^']*)'|"([^"]*)"/g, "$1$2");

/** The bytes that the lines of an input or a reply stand for. */
function bytesOf(lines) {
  const text = lines.map((line) => `${line}\n`).join("").replace(/⟨end⟩\n$/, "");
  const pieces = text.split(ESCAPE);
  return Buffer.concat(pieces.map((piece, at) =>
    at % 2 ? Buffer.from(piece.replaceAll(" ", ""), "hex") : Buffer.from(piece)));
}

/** The arguments, the input, the status and the reply of the session in a file. */
export function readSession(file) {
  const lines = readFileSync(file, "utf8").split("\n").slice(0, -1);
  const start = lines.findIndex((line) => !line.startsWith("# "));
  const parting = lines.findIndex((line) => REPLY.test(line));
  if (start < 0 || !lines[start].startsWith("$ hedit") || parting < start) {
    throw new Error(`${file} isn't a session`);
  }
  return {
    words: (lines[start].slice("$ hedit".length).match(WORD) ?? []).map(unquoted),
    input: bytesOf(lines.slice(start + 1, parting)),
    status: Number(REPLY.exec(lines[parting])[1]),
    reply: bytesOf(lines.slice(parting + 1)),
  };
}

/** The files of sessions in folders; of all that are stored where none is given. */
export function sessionFiles(folders) {
  return (folders.length ? folders : [FOLDER]).flatMap((place) =>
    statSync(place).isFile()
      ? [place]
      : readdirSync(place, { recursive: true }).filter((name) => name.endsWith(".txt")).sort().map((name) => join(place, name)));
}
