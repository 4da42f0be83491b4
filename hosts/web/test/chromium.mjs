/** Chromium, driven by the DevTools protocol over a pipe, with the input of a mouse and a keyboard. */
import { spawn } from "node:child_process";
import { once } from "node:events";
import { getuid } from "node:process";
import { setTimeout as sleep } from "node:timers/promises";
import { Page, expressionOf, makeProfile, removeProfile, shifted } from "./page.mjs";

const PROGRAM = "chromium";

const MODIFIERS = { Alt: 1, Control: 2, Meta: 4, Shift: 8 };

/** The codes of keys that aren't letters or digits. */
const KEYS = {
  Enter: ["Enter", 13, "\r"],
  Tab: ["Tab", 9],
  Escape: ["Escape", 27],
  Backspace: ["Backspace", 8],
  Delete: ["Delete", 46],
  Home: ["Home", 36],
  End: ["End", 35],
  PageUp: ["PageUp", 33],
  PageDown: ["PageDown", 34],
  ArrowLeft: ["ArrowLeft", 37],
  ArrowUp: ["ArrowUp", 38],
  ArrowRight: ["ArrowRight", 39],
  ArrowDown: ["ArrowDown", 40],
  F10: ["F10", 121],
  " ": ["Space", 32, " "],
  ",": ["Comma", 188, ","],
  ".": ["Period", 190, "."],
  "/": ["Slash", 191, "/"],
  "[": ["BracketLeft", 219, "["],
  "]": ["BracketRight", 221, "]"],
  "\\": ["Backslash", 220, "\\"],
};

/**
 * What a key event says of a key.
 * @param {string} key
 * @param {boolean} isShifted
 */
function keyOf(key, isShifted) {
  const [code, number, text] = KEYS[key] ?? [];
  if (code) {
    return { key, code, windowsVirtualKeyCode: number, text };
  }
  const upper = key.toUpperCase();
  const [typed, kind] = [shifted(key, isShifted), /^\d$/.test(key) ? "Digit" : "Key"];
  const windowsVirtualKeyCode = upper.charCodeAt(0);
  return { key: typed, code: `${kind}${upper}`, windowsVirtualKeyCode, text: typed };
}

/** A running Chromium. */
export class Chromium {
  static programs = [PROGRAM];

  #child;

  #profile;

  #exit;

  #sent = 0;

  /** @type {Map<number, { resolve: (result: any) => void, reject: (error: Error) => void }>} */
  #waiting = new Map();

  #rest = "";

  /** What pages said on their consoles, and the errors that they didn't catch. @type {string[]} */
  complaints = [];

  /** Runs it; where it isn't paced, a frame comes as soon as there is something to show. */
  static async launch({ isPaced = true } = {}) {
    const profile = await makeProfile();
    const words = [
      "--headless",
      "--disable-gpu",
      "--hide-scrollbars",
      "--remote-debugging-pipe",
      `--user-data-dir=${profile}`,
      ...(getuid() === 0 ? ["--no-sandbox"] : []),
      ...(isPaced ? [] : ["--disable-frame-rate-limit", "--disable-gpu-vsync"]),
    ];
    const child = spawn(PROGRAM, words, { stdio: ["ignore", "ignore", "ignore", "pipe", "pipe"] });
    return new Chromium(child, profile);
  }

  constructor(child, profile) {
    this.#child = child;
    this.#profile = profile;
    this.#exit = once(child, "exit");
    child.stdio[4].setEncoding("utf8");
    child.stdio[4].on("data", (part) => this.#receive(part));
  }

  /** @param {string} part */
  #receive(part) {
    const messages = (this.#rest + part).split("\0");
    this.#rest = messages.pop();
    for (const { id, result, error, method, params } of messages.map((text) => JSON.parse(text))) {
      const { resolve, reject } = this.#waiting.get(id) ?? {};
      this.#waiting.delete(id);
      if (error) {
        reject?.(new Error(error.message));
      } else if (id) {
        resolve?.(result);
      } else {
        this.#hear(method, params);
      }
    }
  }

  /**
   * @param {string} method
   * @param {any} params
   */
  #hear(method, params) {
    if (method === "Runtime.exceptionThrown") {
      const { text, exception } = params.exceptionDetails;
      this.complaints.push(exception?.description ?? text);
    } else if (method === "Log.entryAdded" && params.entry.level === "error") {
      this.complaints.push(`${params.entry.text} ${params.entry.url ?? ""}`);
    }
  }

  /**
   * Calls a method of the protocol.
   * @param {string} method
   * @param {object} params
   * @param {string} [sessionId]
   * @returns {Promise<any>}
   */
  send(method, params = {}, sessionId = undefined) {
    this.#sent += 1;
    const id = this.#sent;
    this.#child.stdio[3].write(`${JSON.stringify({ id, method, params, sessionId })}\0`);
    return new Promise((resolve, reject) => this.#waiting.set(id, { resolve, reject }));
  }

  /**
   * A page of its own, with storage of its own, or with that of the page that it is beside.
   * @param {string} address
   * @param {{ width?: number, height?: number, mobile?: boolean, scheme?: "light" | "dark",
   *   beside?: ChromiumPage }} screen
   */
  async open(address, { width = 1280, height = 800, mobile = false, scheme = "light", beside } = {}) {
    const browserContextId = beside?.context ?? (await this.#makeContext());
    const blank = { url: "about:blank", browserContextId };
    const { targetId } = await this.send("Target.createTarget", blank);
    const attach = { targetId, flatten: true };
    const { sessionId } = await this.send("Target.attachToTarget", attach);
    const page = new ChromiumPage(this, sessionId, browserContextId, beside && targetId);
    await page.send("Runtime.enable");
    await page.send("Log.enable");
    await page.send("Page.enable");
    await page.send("Emulation.setFocusEmulationEnabled", { enabled: true });
    const metrics = { width, height, deviceScaleFactor: mobile ? 2 : 1, mobile };
    await page.send("Emulation.setDeviceMetricsOverride", metrics);
    await page.send("Emulation.setTouchEmulationEnabled", { enabled: mobile });
    await page.setScheme(scheme);
    await page.send("Page.navigate", { url: address });
    return page;
  }

  async #makeContext() {
    const { browserContextId } = await this.send("Target.createBrowserContext");
    return browserContextId;
  }

  async close() {
    await Promise.race([this.send("Browser.close").catch(() => {}), sleep(2000)]);
    this.#child.kill();
    await this.#exit;
    await removeProfile(this.#profile);
  }
}

/** A page of Chromium. */
class ChromiumPage extends Page {
  #browser;

  #session;

  /** What closes by itself, if the storage is another page's. */
  #target;

  constructor(browser, session, context, target) {
    super();
    this.#browser = browser;
    this.#session = session;
    this.context = context;
    this.#target = target;
  }

  /** @param {string} method */
  send(method, params = {}) {
    return this.#browser.send(method, params, this.#session);
  }

  async evaluate(call, ...words) {
    const expression = expressionOf(call, words);
    const options = { expression, awaitPromise: true, returnByValue: true };
    const { result, exceptionDetails } = await this.send("Runtime.evaluate", options);
    if (exceptionDetails) {
      throw new Error(exceptionDetails.exception?.description ?? exceptionDetails.text);
    }
    return result.value;
  }

  async setScheme(value) {
    const features = [{ name: "prefers-color-scheme", value }];
    await this.send("Emulation.setEmulatedMedia", { features });
  }

  #mouse(type, at, rest) {
    return this.send("Input.dispatchMouseEvent", { type, ...at, ...rest });
  }

  async clickAt(at, clickCount = 1) {
    await this.#mouse("mouseMoved", at);
    for (let count = 1; count <= clickCount; count += 1) {
      const click = { button: "left", clickCount: count };
      await this.#mouse("mousePressed", at, { ...click, buttons: 1 });
      await this.#mouse("mouseReleased", at, click);
    }
    await this.settle();
  }

  async drag(places) {
    const held = { button: "left", buttons: 1, clickCount: 1 };
    await this.#mouse("mousePressed", places[0], held);
    for (const at of places.slice(1)) {
      await this.#mouse("mouseMoved", at, held);
    }
    await this.#mouse("mouseReleased", places.at(-1), { ...held, buttons: 0 });
    await this.settle();
  }

  async strike(name, held = []) {
    const modifiers = held.reduce((bits, each) => bits | MODIFIERS[each], 0);
    const { text, ...key } = keyOf(name, held.includes("Shift"));
    const types = text !== undefined && !(modifiers & ~MODIFIERS.Shift);
    const down = types ? { type: "keyDown", text } : { type: "rawKeyDown" };
    await this.send("Input.dispatchKeyEvent", { ...key, modifiers, ...down });
    await this.send("Input.dispatchKeyEvent", { ...key, modifiers, type: "keyUp" });
  }

  async type(text) {
    for (const character of text) {
      if (character === "\n") {
        await this.strike("Enter");
      } else {
        const key = { key: character, text: character };
        await this.send("Input.dispatchKeyEvent", { ...key, type: "keyDown" });
        await this.send("Input.dispatchKeyEvent", { ...key, type: "keyUp" });
      }
    }
    await this.settle();
  }

  async compose(text, taken) {
    const composed = { text, selectionStart: text.length, selectionEnd: text.length };
    const replaced = taken && { replacementStart: taken[0], replacementEnd: taken[1] };
    await this.send("Input.imeSetComposition", { ...composed, ...replaced });
    await this.settle();
  }

  async commit(text) {
    await this.send("Input.insertText", { text });
    await this.settle();
  }

  async cancel() {
    await this.compose("");
    await this.commit("");
  }

  /** Chromium's own spelling can't be asked from here: the page is given the input that it makes. */
  async correct(word, text) {
    await this.evaluate(
      (wrong, right) => {
        const focusNode = /** @type {Text} */ (document.getSelection().focusNode);
        const range = new Range();
        range.setStart(focusNode, focusNode.data.indexOf(wrong));
        range.setEnd(focusNode, range.startOffset + wrong.length);
        const input = new InputEvent("beforeinput", {
          inputType: "insertReplacementText",
          data: right,
          targetRanges: [new StaticRange(range)],
          bubbles: true,
          cancelable: true,
        });
        focusNode.parentElement.dispatchEvent(input);
      },
      word,
      text,
    );
    await this.settle();
  }

  /** All pages of Chromium have the focus here. */
  async front() {}

  async allowClipboard() {
    const permissions = ["clipboardReadWrite", "clipboardSanitizedWrite"];
    const browserContextId = this.context;
    await this.#browser.send("Browser.grantPermissions", { permissions, browserContextId });
  }

  async saveTo(folder) {
    const target = { browserContextId: this.context, behavior: "allow", downloadPath: folder };
    await this.#browser.send("Browser.setDownloadBehavior", target);
  }

  async choose(selector, files) {
    const { root } = await this.send("DOM.getDocument");
    const { nodeId } = await this.send("DOM.querySelector", { nodeId: root.nodeId, selector });
    await this.send("DOM.setFileInputFiles", { nodeId, files });
  }

  async drop(at, files) {
    const data = { items: [], files, dragOperationsMask: 1 };
    for (const type of ["dragEnter", "dragOver", "drop"]) {
      await this.send("Input.dispatchDragEvent", { type, ...at, data });
    }
    await this.settle();
  }

  /** How many milliseconds of processor the page's main thread has taken. */
  async processor() {
    await this.send("Performance.enable", { timeDomain: "threadTicks" });
    const { metrics } = await this.send("Performance.getMetrics");
    return metrics.find(({ name }) => name === "TaskDuration").value * 1000;
  }

  /** The roles and the names of the page's nodes, as a screen reader is told them. */
  async accessible() {
    const { nodes } = await this.send("Accessibility.getFullAXTree");
    return nodes.map(({ role, name }) => ({ role: role?.value, name: name?.value }));
  }

  async reload() {
    await this.send("Page.reload");
  }

  async shot() {
    const { data } = await this.send("Page.captureScreenshot", { format: "png" });
    return Buffer.from(data, "base64");
  }

  async close() {
    if (this.#target) {
      await this.#browser.send("Target.closeTarget", { targetId: this.#target });
    } else {
      await this.#browser.send("Target.disposeBrowserContext", { browserContextId: this.context });
    }
  }
}
