#!/usr/bin/env node
/**
 * What typing character by character into one paragraph takes, in hedit and in ProseMirror's model, which
 * another editor uses. Both keep what undo needs:
 *
 *     node bench/typing.mjs [PROGRAM] [KEYS] [ROUNDS]
 *
 * PROGRAM is crates/hedit/out/hedit unless given, with 10,000 keys in five rounds. It needs GNU time, and
 * Debian's node-prosemirror-model and node-prosemirror-state. These two keep no history of their own, so
 * each step that takes a key back is kept in a list, as their history does.
 *
 * Each round runs both in turn, each in a process of its own. The time is wall-clock: of hedit the whole
 * process, from its start to its end, with a line to read and an answer to write for each key; of the model
 * the keys alone. CPU time is next to it. The memory is by how much the peak of the process grows with the
 * keys, and of the model also what of its heap is still in use after a collection. Both are asked once
 * whether undo gives the paragraph as it was. It ends with status 1 if hedit's median is not the lower one,
 * or if it keeps 2 MB.
 */
import { spawnSync } from "node:child_process";
import { createRequire } from "node:module";
import { loadavg } from "node:os";
import { argv, cpuUsage, execPath, exit, memoryUsage } from "node:process";
import { fileURLToPath } from "node:url";

const HERE = fileURLToPath(import.meta.url);
const MODULES = "/usr/share/nodejs";
const TEXT = "item";
const MOST_KEPT = 2_000_000;
const MIB = 2 ** 20;

// ---- hedit

/** A session that types so many characters inside a text, and then has other lines. */
function session(keys, acts = []) {
  const page = `page <<END\n<div contenteditable="true"><p>${TEXT}</p></div>\nEND\nselect 0/0/0:2 0/0/0:2\n`;
  return page + "exec insertText x\n".repeat(keys) + acts.map((act) => `${act}\n`).join("");
}

/** What the program takes for a session, and what it answers. */
function run(program, text) {
  const began = performance.now();
  const ran = spawnSync("/usr/bin/time", ["-f", "%U %S %M", program, "run"], { input: text, maxBuffer: 2 ** 26 });
  const seconds = (performance.now() - began) / 1000;
  if (ran.status !== 0) {
    console.error(`${program} ends with ${ran.status}: ${ran.stderr}`);
    exit(2);
  }
  const [user, system, kilobytes] = ran.stderr.toString().trim().split(" ").map(Number);
  return { seconds, processor: user + system, peak: kilobytes * 1024, answer: ran.stdout.toString() };
}

function hedit(program, keys) {
  const { seconds, processor, peak } = run(program, session(keys));
  return { seconds, processor, grown: peak - run(program, session(0)).peak };
}

/** Whether the text has all keys, and one undo, since they are one run of typing, takes them back. */
function heditUndoes(program, keys) {
  const [typed, undone, page] = run(program, session(keys, ["html", "undo 1", "html"])).answer.trim().split("\n").slice(-3);
  return typed.includes("x".repeat(keys)) && undone === "undo 1" && page.includes(`<p>${TEXT}</p>`);
}

// ---- ProseMirror's model

/** Types into a paragraph of the model, in a process of its own, and prints what that takes. */
function typeIntoModel(keys) {
  const require = createRequire(import.meta.url);
  const { Schema } = require("prosemirror-model");
  const { EditorState, TextSelection } = require("prosemirror-state");
  const schema = new Schema({ nodes: { doc: { content: "paragraph+" }, paragraph: { content: "text*" }, text: {} } });
  const start = schema.node("doc", null, [schema.node("paragraph", null, [schema.text(TEXT)])]);
  let state = EditorState.create({ schema, doc: start });
  state = state.apply(state.tr.setSelection(TextSelection.create(state.doc, 3)));
  const undo = [];
  globalThis.gc();
  const [used, resident, processor] = [memoryUsage().heapUsed, memoryUsage().rss, cpuUsage()];
  const began = performance.now();
  for (let key = 0; key < keys; key++) {
    const typed = state.tr.insertText("x");
    typed.steps.forEach((step, at) => undo.push(step.invert(typed.docs[at])));
    state = state.apply(typed);
  }
  const seconds = (performance.now() - began) / 1000;
  const { user, system } = cpuUsage(processor);
  const grown = memoryUsage().rss - resident;
  globalThis.gc();
  const kept = memoryUsage().heapUsed - used;
  const isTyped = state.doc.textContent.length === TEXT.length + keys;
  const undone = undo.reduceRight((tr, step) => tr.step(step), state.tr).doc;
  const undoes = isTyped && undone.eq(start);
  console.log(JSON.stringify({ seconds, processor: (user + system) / 1e6, grown, kept, undoes }));
}

function model(keys) {
  const env = { ...process.env, NODE_PATH: MODULES };
  const ran = spawnSync(execPath, ["--expose-gc", HERE, "--model", keys], { env });
  if (ran.status !== 0) {
    console.error(`ProseMirror's model ends with ${ran.status}: ${ran.stderr}`);
    exit(2);
  }
  return JSON.parse(ran.stdout);
}

// ---- both

function median(rounds, of) {
  const found = rounds.map(of).sort((a, b) => a - b);
  return found[Math.floor(found.length / 2)];
}

function compare(program, keys, count) {
  console.log(`${keys} keys, ${count} rounds; load before: ${loadavg()[0].toFixed(1)}`);
  const rounds = Array.from({ length: count }, () => ({ hedit: hedit(program, keys), model: model(keys) }));
  const figures = {};
  for (const name of ["hedit", "model"]) {
    const seconds = median(rounds, (round) => round[name].seconds);
    const processor = median(rounds, (round) => round[name].processor);
    const grown = median(rounds, (round) => round[name].grown);
    figures[name] = { seconds, grown };
    console.log(`${name.padEnd(6)} ${(seconds * 1000).toFixed(0).padStart(7)} ms by the clock, ` +
      `${(processor * 1000).toFixed(0).padStart(7)} of processor; the peak grows by ${(grown / MIB).toFixed(2).padStart(7)} MiB`);
  }
  console.log(`of its heap the model keeps ${(median(rounds, (round) => round.model.kept) / MIB).toFixed(2)} MiB`);
  const undoes = { hedit: heditUndoes(program, keys), model: rounds.every((round) => round.model.undoes) };
  console.log(`undo gives the paragraph as it was: hedit ${undoes.hedit}, model ${undoes.model}; load after: ${loadavg()[0].toFixed(1)}`);
  const isLower = figures.hedit.seconds < figures.model.seconds;
  return undoes.hedit && undoes.model && isLower && figures.hedit.grown < MOST_KEPT;
}

if (argv[2] === "--model") {
  typeIntoModel(Number(argv[3]));
} else {
  const holds = compare(argv[2] ?? "crates/hedit/out/hedit", Number(argv[3] ?? 10000), Number(argv[4] ?? 5));
  console.log(holds ? "the aims are met" : "an aim is MISSED");
  exit(holds ? 0 : 1);
}
