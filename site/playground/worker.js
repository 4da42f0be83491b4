/** Runs sessions in the engine, apart from the page, which stays quick meanwhile. */
import { load } from "../src/hedit.js";
import { repliesOf } from "./session.js";

const loading = load();

addEventListener("message", async ({ data: { text, words } }) => {
  try {
    const engine = await loading;
    const run = (/** @type {string} */ part) => engine.session(part, words);
    const began = performance.now();
    const answer = run(text);
    const milliseconds = performance.now() - began;
    const replies = words[0] === "run" ? repliesOf(text, answer, run) : undefined;
    postMessage({ ...answer, milliseconds, replies });
  } catch (error) {
    postMessage({ error: String(error) });
  }
});
