/**
 * A note editor on a region: a list of notes, a toolbar, search, and a browser that keeps all of it.
 * It uses public calls of `hedit.js` and `region.js` only.
 */
import { load } from "../src/hedit.js";
import { Region } from "../src/region.js";

/** @typedef {{ id: string, html: string, text: string, time: number }} Note */

/** What the keys of notes in the browser's storage begin with. */
const KEY = "hedit-note:";

/** How long after a change a note is saved, in milliseconds. */
const PAUSE = 300;

const WELCOME =
  "<h2>Welcome</h2><p>Write here. Each note is <b>saved while you write</b>, in this browser.</p>" +
  "<ul><li>The first line is the name of the note.</li><li>Search finds words in all notes.</li></ul>";

/**
 * @param {string} id
 * @returns {any}
 */
const part = (id) => document.getElementById(id);

/** @type {HTMLButtonElement[]} */
const buttons = [...part("toolbar").querySelectorAll("[data-command]")];

/** The notes of the browser. The newest is the first. */
function allNotes() {
  const keys = Object.keys(localStorage).filter((key) => key.startsWith(KEY));
  /** @type {Note[]} */
  const notes = keys.map((key) => JSON.parse(localStorage[key]));
  return notes.sort((a, b) => b.time - a.time);
}

/**
 * @param {string} html
 * @returns {Note}
 */
const newNote = (html) => ({ id: crypto.randomUUID(), html, text: "", time: Date.now() });

const engine = await load();

let note = allNotes()[0] ?? newNote(WELCOME);

/** @type {Region | null} */
let region = null;

let saving = 0;

/**
 * Puts a note into the editor. Each note has a region of its own, with its own steps of undo.
 * @param {Note} next
 */
function show(next) {
  region?.close();
  note = next;
  region = new Region(engine, part("note"), { html: note.html || "<p><br></p>" });
  region.addEventListener("change", saveSoon);
  region.addEventListener("input", saveSoon);
  region.addEventListener("statechange", showState);
  part("saved").value = "";
  if (!(KEY + note.id in localStorage)) {
    store();
  }
  showState();
  showList();
  region.focus();
}

/** @param {Note} next */
function open(next) {
  save();
  show(next);
}

/** Shows in each button whether the caret's text has its format, and whether it can be used. */
function showState() {
  for (const button of buttons) {
    const { command = "", value } = button.dataset;
    const isOn = value ? region?.value(command) === value : region?.state(command);
    button.ariaPressed = String(isOn === true);
    button.disabled = !region?.enabled(command);
  }
}

function saveSoon() {
  part("saved").value = "Saving";
  clearTimeout(saving);
  saving = setTimeout(save, PAUSE);
}

function save() {
  clearTimeout(saving);
  if (region && region.html() !== note.html) {
    store();
    showList();
  }
}

function store() {
  note = { ...note, html: region?.html() ?? "", text: part("note").innerText, time: Date.now() };
  try {
    localStorage.setItem(KEY + note.id, JSON.stringify(note));
    part("saved").value = "Saved";
  } catch {
    part("saved").value = "Not saved: the browser has no room";
  }
}

/** Lists the notes that have the words of the search. */
function showList() {
  /** @type {string[]} */
  const words = part("search").value.toLowerCase().split(/\s+/);
  const found = allNotes().filter(({ text }) => words.every((word) => text.toLowerCase().includes(word)));
  part("list").replaceChildren(...found.map(rowOf));
  part("none").hidden = found.length > 0 || part("search").value === "";
}

/** @param {Note} listed */
function rowOf(listed) {
  const [first, ...rest] = listed.text.split("\n").filter((line) => line.trim());
  const [row, button] = [document.createElement("li"), document.createElement("button")];
  const [name, more] = [document.createElement("strong"), document.createElement("span")];
  name.textContent = first ?? "Empty note";
  more.textContent = rest.join(" ");
  button.append(name, more);
  button.ariaCurrent = String(listed.id === note.id);
  button.addEventListener("click", () => open(listed));
  row.append(button);
  return row;
}

for (const button of buttons) {
  button.addEventListener("click", () => {
    const { command = "", value = "" } = button.dataset;
    region?.exec(command, button.ariaPressed === "true" && value ? "p" : value);
    region?.focus();
  });
}

// The note keeps the focus, and what is selected in it.
part("toolbar").addEventListener("mousedown", (/** @type {Event} */ event) => event.preventDefault());

part("add").addEventListener("click", () => open(newNote("")));

part("remove").addEventListener("click", () => {
  if (confirm("Delete this note?")) {
    localStorage.removeItem(KEY + note.id);
    show(allNotes()[0] ?? newNote(""));
  }
});

part("search").addEventListener("input", showList);

// Another window has saved a note, which may be this one.
window.addEventListener("storage", ({ key, newValue }) => {
  if (newValue && key === KEY + note.id && region?.html() === note.html) {
    show(JSON.parse(newValue));
  }
  showList();
});

window.addEventListener("pagehide", save);

show(note);
