/** The page of the playground: a session is typed, and the engine answers. */
import { meaningOf, refusalOf } from "./faults.js";
import { placeOfFault } from "./session.js";

/** @typedef {import("./session.js").Place} Place */
/** @typedef {import("./session.js").Reply} Reply */
/** @typedef {{ name: string, shows: string, words: string, text: string }} Example */
/** @typedef {{ status: number, transcript: string, milliseconds: number, replies?: Reply[], error?: string }} Told */

/** How long nothing is typed before the engine answers, in milliseconds. */
const PAUSE = 250;

/** What is longer isn't kept in the page's address. */
const MOST_IN_ADDRESS = 30_000;

const FIRST_EXAMPLE = "formatting";

/** @param {string} id */
const byId = (id) => /** @type {any} */ (document.getElementById(id));

/** @type {HTMLTextAreaElement} */
const session = byId("session");
/** @type {HTMLInputElement} */
const words = byId("words");
/** @type {HTMLSelectElement} */
const chooser = byId("example");
/** @type {HTMLElement} */
const said = byId("said");
/** @type {HTMLOListElement} */
const replies = byId("replies");

const worker = new Worker(new URL("worker.js", import.meta.url), { type: "module" });

/** What the engine was asked last, and whether it is to be asked again. */
const asking = { text: "", isBusy: false, isWanted: false };

/** @type {Example[]} */
let examples = [];

/** @type {ReturnType<typeof setTimeout> | undefined} */
let pause;

/**
 * Selects a place of the session, and shows it.
 * @param {Place} place
 */
function goTo({ line, column, length }) {
  const lines = session.value.split("\n");
  const start = lines.slice(0, line - 1).join("\n").length + (line > 1 ? 1 : 0) + column - 1;
  session.focus();
  session.setSelectionRange(start, length ? start + length : start + lines[line - 1].length - column + 1);
  const height = session.scrollHeight / lines.length;
  session.scrollTop = Math.max(0, (line - 4) * height);
}

function showNumbers() {
  const count = session.value.split("\n").length;
  const numbers = byId("numbers");
  if (Number(numbers.dataset.count) !== count) {
    numbers.dataset.count = String(count);
    numbers.textContent = Array.from({ length: count }, (_, place) => place + 1).join("\n");
  }
  numbers.scrollTop = session.scrollTop;
}

/**
 * @param {string} text
 * @param {Place} [place]
 */
function say(text, place) {
  said.classList.toggle("wrong", place !== undefined || text.startsWith("!"));
  said.replaceChildren();
  if (place) {
    const button = document.createElement("button");
    button.type = "button";
    button.textContent = place.length ? `Line ${place.line}, column ${place.column}` : `Line ${place.line}`;
    button.addEventListener("click", () => goTo(place));
    said.append(button, ": ");
  }
  said.append(text.replace(/^!\s*/, ""));
}

/**
 * A reply with its tags coloured.
 * @param {string} reply
 */
function shown(reply) {
  const element = document.createElement("pre");
  element.className = "reply";
  reply
    .replace(/\n$/, "")
    .split(/(<\/?[a-zA-Z][^<>]*>)/)
    .forEach((part, place) => {
      const node = document.createElement("span");
      if (place % 2) node.className = "tag";
      node.textContent = part;
      element.append(node);
    });
  const meaning = meaningOf(reply);
  if (meaning) {
    element.classList.add("fault");
    element.append(` (${meaning})`);
  }
  return element;
}

/** @param {Reply} reply */
function rowOf({ line, act, reply }) {
  const [row, number, code] = ["li", "button", "code"].map((name) => document.createElement(name));
  number.textContent = String(line);
  number.setAttribute("aria-label", `Line ${line}`);
  number.addEventListener("click", () => goTo({ line, column: 1, length: 0 }));
  code.className = "act";
  code.textContent = act;
  row.append(number, code, shown(reply));
  return row;
}

/** @param {string} transcript */
function wholeRow(transcript) {
  const row = document.createElement("li");
  row.append(document.createElement("span"), shown(transcript));
  return row;
}

/** @param {Told} told */
function sayHowItWent({ status, transcript, milliseconds, replies: found }) {
  const refusal = refusalOf({ status, transcript });
  const fault = found?.find(({ reply }) => meaningOf(reply));
  const time = milliseconds < 1 ? "less than a millisecond" : `${Math.round(milliseconds)} ms`;
  if (refusal) {
    const place = placeOfFault(asking.text, transcript);
    say(place ? refusal : `! ${refusal}`, place);
  } else if (fault) {
    const count = found?.filter(({ reply }) => meaningOf(reply)).length ?? 0;
    const others = count === 1 ? "" : ` ${count - 1} more ${count === 2 ? "line has a fault" : "lines have faults"}.`;
    say(`${meaningOf(fault.reply)}${others}`, { line: fault.line, column: 1, length: 0 });
  } else {
    const count = found?.length;
    const subject = count === undefined ? "The session ran" : `${count} ${count === 1 ? "line" : "lines"} ran`;
    say(`${subject} in ${time}.`);
  }
}

/** @param {Told} told */
function show(told) {
  if (told.error) {
    say(`! The engine can't run here: ${told.error}`);
    replies.replaceChildren();
    return;
  }
  const rows = told.replies?.map(rowOf);
  const rest = rows ? [] : [wholeRow(told.transcript)];
  replies.replaceChildren(...(rows ?? []), ...(told.transcript ? rest : []));
  sayHowItWent(told);
}

function keepInAddress() {
  const kept = new URLSearchParams({ text: session.value });
  if (words.value !== "run") kept.set("words", words.value);
  const hash = String(kept);
  history.replaceState(null, "", hash.length > MOST_IN_ADDRESS ? location.pathname : `#${hash}`);
}

function ask() {
  clearTimeout(pause);
  asking.isWanted = asking.isBusy;
  if (!asking.isBusy) {
    asking.isBusy = true;
    asking.text = session.value;
    worker.postMessage({ text: session.value, words: words.value.split(/\s+/).filter(Boolean) });
  }
}

/**
 * Puts a session into the page, and asks the engine.
 * @param {string} text
 * @param {string} arguments_
 */
function open(text, arguments_) {
  session.value = text;
  words.value = arguments_;
  session.scrollTop = 0;
  showNumbers();
  ask();
}

/** Opens what the page's address holds, if that is a session or the name of an example. */
function openAddress() {
  const kept = new URLSearchParams(location.hash.slice(1));
  const example = examples.find(({ name }) => name === kept.get("example"));
  chooser.value = example?.name ?? "";
  const text = kept.get("text");
  if (example) {
    open(example.text, example.words);
  } else if (text !== null) {
    open(text, kept.get("words") ?? "run");
  }
  return example !== undefined || text !== null;
}

async function loadExamples() {
  const response = await fetch(new URL("examples.json", import.meta.url));
  examples = await response.json();
  for (const { name, shows } of examples) {
    chooser.add(new Option(name, name));
    chooser.options[chooser.length - 1].title = shows;
  }
}

/** @param {string} name */
function openExample(name) {
  const example = examples.find((each) => each.name === name);
  if (example) {
    chooser.value = name;
    open(example.text, example.words);
  }
}

function changed() {
  chooser.value = "";
  showNumbers();
  keepInAddress();
  clearTimeout(pause);
  pause = setTimeout(ask, PAUSE);
}

async function copyLink() {
  keepInAddress();
  try {
    await navigator.clipboard.writeText(location.href);
    say("The link is copied. It holds the session.");
  } catch {
    say("The page's address holds the session: copy it.");
  }
}

worker.addEventListener("message", ({ data }) => {
  asking.isBusy = false;
  show(data);
  if (asking.isWanted) ask();
});
worker.addEventListener("error", () => say("! The engine can't be loaded here."));
session.addEventListener("input", changed);
words.addEventListener("input", changed);
session.addEventListener("scroll", () => {
  byId("numbers").scrollTop = session.scrollTop;
});
session.addEventListener("keydown", (event) => {
  if (event.key === "Enter" && (event.ctrlKey || event.metaKey)) {
    event.preventDefault();
    ask();
  }
});
byId("controls").addEventListener("submit", (/** @type {Event} */ event) => {
  event.preventDefault();
  ask();
});
byId("copy").addEventListener("click", copyLink);
chooser.addEventListener("change", () => {
  openExample(chooser.value);
  history.replaceState(null, "", `#${new URLSearchParams({ example: chooser.value })}`);
});
addEventListener("hashchange", openAddress);

await loadExamples();
if (!openAddress()) openExample(FIRST_EXAMPLE);
