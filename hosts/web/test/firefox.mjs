/**
 * Firefox, driven by WebDriver BiDi, with the input of a mouse and a keyboard. That has no input
 * methods: what one composes comes from Firefox's own text input processor, in the page's process.
 */
import { spawn } from "node:child_process";
import { once } from "node:events";
import { writeFile } from "node:fs/promises";
import { join } from "node:path";
import { setTimeout as sleep } from "node:timers/promises";
import { KEYS } from "./keys.mjs";
import { CannotDo, Page, expressionOf, makeProfile, removeProfile, shifted } from "./page.mjs";
import { Socket } from "./websocket.mjs";

const PROGRAM = "firefox-esr";

/** So that a window without a screen has the focus, and scripts may use the clipboard. */
const PREFERENCES = {
  "focusmanager.testmode": true,
  "dom.events.testing.asyncClipboard": true,
  "app.update.disabledForTesting": true,
  "datareporting.policy.dataSubmissionEnabled": false,
  "network.captive-portal-service.enabled": false,
  "network.connectivity-service.enabled": false,
};

const SCHEME = "layout.css.prefers-color-scheme.content-override";

/** What hears in the page's process what an input method is to do. */
function listenToMethod() {
  const processor = Cc["@mozilla.org/text-input-processor;1"].createInstance(
    Ci.nsITextInputProcessor,
  );
  const show = (text) => {
    processor.setPendingCompositionString(text);
    if (text !== "") {
      processor.appendClauseToPendingComposition(text.length, processor.ATTR_RAW_CLAUSE);
    }
    processor.setCaretInPendingComposition(text.length);
    processor.flushPendingComposition();
  };
  const correct = (word, text) => {
    const { windowUtils } = content;
    const shown = windowUtils.sendQueryContentEvent(windowUtils.QUERY_TEXT_CONTENT, 0, 100_000, 0, 0);
    const at = shown.text.indexOf(word);
    windowUtils.sendContentCommandEvent("replaceText", null, text, at, word);
  };
  addMessageListener("hedit:method", ({ data: { act, text, word } }) => {
    processor.beginInputTransactionForTests(content);
    if (act === "correct") {
      correct(word, text);
    } else if (act === "show") {
      show(text);
    } else if (act === "commit") {
      processor.commitCompositionWith(text);
    } else {
      processor.cancelComposition();
    }
    sendAsyncMessage("hedit:method-done");
  });
}

/** Has the method of the selected tab do something: this runs in the browser's window. */
function askMethod(script, asked) {
  const manager = gBrowser.selectedBrowser.messageManager;
  if (!manager.heditHasMethod) {
    manager.heditHasMethod = true;
    manager.loadFrameScript(`data:,${encodeURIComponent(script)}`, false);
  }
  return new Promise((resolve) => {
    const done = () => {
      manager.removeMessageListener("hedit:method-done", done);
      resolve(true);
    };
    manager.addMessageListener("hedit:method-done", done);
    manager.sendAsyncMessage("hedit:method", asked);
  });
}

/** A running Firefox. */
export class Firefox {
  static programs = [PROGRAM];

  #child;

  #profile;

  #exit;

  #socket;

  #sent = 0;

  /** The browser's window. */
  #window = "";

  /** @type {Map<number, { resolve: (result: any) => void, reject: (error: Error) => void }>} */
  #waiting = new Map();

  /** What pages said on their consoles, and the errors that they didn't catch. @type {string[]} */
  complaints = [];

  /** Runs it; where it isn't paced, a frame comes as soon as there is something to show. */
  static async launch({ isPaced = true } = {}) {
    const profile = await makeProfile();
    const preferences = { ...PREFERENCES, ...(isPaced ? {} : { "layout.frame_rate": 0 }) };
    const lines = Object.entries(preferences).map(
      ([name, value]) => `user_pref("${name}", ${JSON.stringify(value)});\n`,
    );
    await writeFile(join(profile, "user.js"), lines.join(""));
    const words = ["--headless", "--no-remote", "--profile", profile];
    words.push("--remote-debugging-port", "0", "--remote-allow-system-access", "about:blank");
    const child = spawn(PROGRAM, words, { stdio: ["ignore", "ignore", "pipe"] });
    const browser = new Firefox(child, profile);
    await browser.#connect();
    return browser;
  }

  constructor(child, profile) {
    this.#child = child;
    this.#profile = profile;
    this.#exit = once(child, "exit");
  }

  async #connect() {
    this.#child.stderr.setEncoding("utf8");
    const address = await new Promise((resolve) => {
      let said = "";
      this.#child.stderr.on("data", (part) => {
        said = `${said}${part}`.slice(-10_000);
        const [, found] = /listening on (ws:\S+)/.exec(said) ?? [];
        if (found) {
          resolve(found);
        }
      });
    });
    this.#socket = await Socket.open(`${address}/session`);
    this.#socket.on("message", (message) => this.#receive(JSON.parse(message)));
    await this.send("session.new", { capabilities: {} });
    await this.send("session.subscribe", { events: ["log.entryAdded"] });
    const { contexts } = await this.send("browsingContext.getTree", { "moz:scope": "chrome" });
    this.#window = contexts[0].context;
  }

  #receive({ type, id, result, message, method, params }) {
    if (type === "event") {
      if (method === "log.entryAdded" && params.level === "error") {
        this.complaints.push(params.text);
      }
      return;
    }
    const { resolve, reject } = this.#waiting.get(id) ?? {};
    this.#waiting.delete(id);
    if (type === "error") {
      reject?.(new Error(message));
    } else {
      resolve?.(result);
    }
  }

  /**
   * Calls a method of the protocol.
   * @param {string} method
   * @param {object} params
   * @returns {Promise<any>}
   */
  send(method, params = {}) {
    this.#sent += 1;
    const id = this.#sent;
    this.#socket.send(JSON.stringify({ id, method, params }));
    return new Promise((resolve, reject) => this.#waiting.set(id, { resolve, reject }));
  }

  /**
   * What a function gives in a page or a window.
   * @param {string} context
   */
  async evaluateIn(context, call, ...words) {
    const expression = `(async () => JSON.stringify(await (${expressionOf(call, words)})))()`;
    const options = { expression, target: { context }, awaitPromise: true };
    const { type, result, exceptionDetails } = await this.send("script.evaluate", options);
    if (type === "exception") {
      throw new Error(exceptionDetails.text);
    }
    return result.value === undefined ? undefined : JSON.parse(result.value);
  }

  /** What a function gives in the browser's window. */
  evaluateInWindow(call, ...words) {
    return this.evaluateIn(this.#window, call, ...words);
  }

  /**
   * A page of its own, with storage of its own, or with that of the page that it is beside.
   * @param {string} address
   * @param {{ width?: number, height?: number, mobile?: boolean, scheme?: "light" | "dark",
   *   beside?: FirefoxPage }} screen
   */
  async open(address, { width = 1280, height = 800, mobile = false, scheme = "light", beside } = {}) {
    const userContext = beside?.user ?? (await this.#makeUser());
    const { context } = await this.send("browsingContext.create", { type: "tab", userContext });
    const page = new FirefoxPage(this, context, userContext, beside !== undefined);
    const viewport = { viewport: { width, height }, devicePixelRatio: mobile ? 2 : 1 };
    await this.send("browsingContext.setViewport", { context, ...viewport });
    await page.front();
    await page.setScheme(scheme);
    await this.send("browsingContext.navigate", { context, url: address, wait: "none" });
    return page;
  }

  async #makeUser() {
    const { userContext } = await this.send("browser.createUserContext");
    return userContext;
  }

  async close() {
    await Promise.race([this.send("browser.close").catch(() => {}), sleep(2000)]);
    this.#socket.close();
    this.#child.kill();
    await this.#exit;
    await removeProfile(this.#profile);
  }
}

/** A page of Firefox. */
class FirefoxPage extends Page {
  #browser;

  #context;

  /** Whether the storage is another page's. */
  #isBeside;

  constructor(browser, context, user, isBeside) {
    super();
    this.#browser = browser;
    this.#context = context;
    this.user = user;
    this.#isBeside = isBeside;
  }

  evaluate(call, ...words) {
    return this.#browser.evaluateIn(this.#context, call, ...words);
  }

  async setScheme(value) {
    const set = (name, number) => Services.prefs.setIntPref(name, number);
    await this.#browser.evaluateInWindow(set, SCHEME, value === "dark" ? 0 : 1);
  }

  /** @param {readonly object[]} actions */
  #act(source, actions) {
    const sources = [{ ...source, actions }];
    const context = this.#context;
    return this.#browser.send("input.performActions", { context, actions: sources });
  }

  #mouse(actions) {
    return this.#act({ type: "pointer", id: "mouse", parameters: { pointerType: "mouse" } }, actions);
  }

  #move({ x, y }) {
    return { type: "pointerMove", x: Math.round(x), y: Math.round(y) };
  }

  async clickAt(at, clickCount = 1) {
    const click = [
      { type: "pointerDown", button: 0 },
      { type: "pointerUp", button: 0 },
    ];
    const clicks = Array.from({ length: clickCount }, () => click).flat();
    // So that it isn't taken for one more of the clicks before.
    await this.#browser.send("input.releaseActions", { context: this.#context });
    await this.#mouse([this.#move(at), ...clicks]);
    await this.settle();
  }

  async drag([first, ...others]) {
    await this.#browser.send("input.releaseActions", { context: this.#context });
    await this.#mouse([
      this.#move(first),
      { type: "pointerDown", button: 0 },
      ...others.map((at) => this.#move(at)),
      { type: "pointerUp", button: 0 },
    ]);
    await this.settle();
  }

  #keys(actions) {
    return this.#act({ type: "key", id: "keys" }, actions);
  }

  async strike(name, held = []) {
    const isShifted = held.includes("Shift");
    const keys = [...held, name].map((key) => KEYS[key] ?? shifted(key, isShifted));
    const downs = keys.map((value) => ({ type: "keyDown", value }));
    const ups = keys.toReversed().map((value) => ({ type: "keyUp", value }));
    await this.#keys([...downs, ...ups]);
  }

  async type(text) {
    const values = [...text].map((character) => (character === "\n" ? KEYS.Enter : character));
    await this.#keys(
      values.flatMap((value) => [
        { type: "keyDown", value },
        { type: "keyUp", value },
      ]),
    );
    await this.settle();
  }

  async #method(act, text = "", word = "") {
    const asked = { act, text, word };
    await this.#browser.evaluateInWindow(askMethod, `(${listenToMethod})()`, asked);
    await this.settle();
  }

  async compose(text, taken) {
    if (taken) {
      // As Firefox does on a phone, where a keyboard takes a word again.
      await this.evaluate(([start, end]) => {
        const selection = document.getSelection();
        selection.setBaseAndExtent(selection.focusNode, start, selection.focusNode, end);
      }, taken);
      await this.settle();
    }
    await this.#method("show", text);
  }

  async commit(text) {
    await this.#method("commit", text);
  }

  async cancel() {
    await this.#method("cancel");
  }

  async correct(word, text) {
    await this.#method("correct", text, word);
  }

  async front() {
    await this.#browser.send("browsingContext.activate", { context: this.#context });
  }

  /** It may: see the preferences. */
  async allowClipboard() {}

  async saveTo(folder) {
    const downloadBehavior = { type: "allowed", destinationFolder: folder };
    const userContexts = [this.user];
    await this.#browser.send("browser.setDownloadBehavior", { downloadBehavior, userContexts });
  }

  async choose(selector, files) {
    const expression = `document.querySelector(${JSON.stringify(selector)})`;
    const target = { context: this.#context };
    const options = { expression, target, awaitPromise: false };
    const { result } = await this.#browser.send("script.evaluate", options);
    const element = { sharedId: result.sharedId };
    await this.#browser.send("input.setFiles", { context: this.#context, element, files });
  }

  async drop() {
    throw new CannotDo("Firefox's driver drops no files");
  }

  /** How many milliseconds of processor the page's main thread has taken. */
  processor() {
    return this.#browser.evaluateInWindow(async () => {
      const { osPid } = gBrowser.selectedBrowser.browsingContext.currentWindowGlobal;
      const { children } = await ChromeUtils.requestProcInfo();
      const { threads } = children.find(({ pid }) => pid === osPid);
      const main = threads.find(({ tid }) => tid === osPid) ?? threads[0];
      return main.cpuTime / 1e6;
    });
  }

  async reload() {
    await this.#browser.send("browsingContext.reload", { context: this.#context, wait: "none" });
  }

  async shot() {
    const options = { context: this.#context };
    const { data } = await this.#browser.send("browsingContext.captureScreenshot", options);
    return Buffer.from(data, "base64");
  }

  async close() {
    if (this.#isBeside) {
      await this.#browser.send("browsingContext.close", { context: this.#context });
    } else {
      await this.#browser.send("browser.removeUserContext", { userContext: this.user });
    }
  }
}
