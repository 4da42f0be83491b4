/**
 * The smallest host of the editor in JavaScript. It opens a mail, formats a part of it, asks what a
 * toolbar would show, undoes, and prints the mail as HTML whenever it is another one, as mail_host
 * does. follow.mjs is a host that doesn't read the whole mail again.
 *
 *     node mail.mjs PATH_OF_HEDIT_WASM
 */
import { readFile } from "node:fs/promises";
import { argv, stdout } from "node:process";
import { HeditError, load } from "hedit";

const MAIL = '<div contenteditable="true"><h1>Plan</h1><p>Call Ann &amp; Bob.</p></div>';

const BUTTONS = ["bold", "justifyCenter", "insertUnorderedList"];

const engine = await load(await readFile(argv[2]));
const editor = engine.open(MAIL);

/** Executes a command, as a step of its own or with the last, and writes what a user sees of it. */
function tell(name, joined) {
  try {
    const done = joined ? editor.execJoined(name) : editor.exec(name);
    stdout.write(done ? "done\n" : "not possible here\n");
  } catch (error) {
    if (!(error instanceof HeditError)) {
      throw error;
    }
    stdout.write(`${error.message}\n`);
  }
}

/** Writes the mail and the toolbar, with the buttons that are on in brackets. */
function show() {
  const buttons = BUTTONS.map((button) => (editor.state(button) ? `[${button}]` : button));
  stdout.write(`${editor.html()}toolbar: ${buttons.join(" ")}\n`);
}

/** Executes a command, and shows the mail where that has changed it. */
function exec(name, joined = false) {
  const before = editor.revision();
  tell(name, joined);
  if (editor.revision() !== before) {
    show();
  }
}

show();
// the name: the characters 5 to 8 of the paragraph's text
editor.select({ path: [0, 1, 0], offset: 5 }, { path: [0, 1, 0], offset: 8 });
exec("bold");
exec("insertUnorderedList", true);
exec("createLink");
editor.undo();
show();
editor.close();
