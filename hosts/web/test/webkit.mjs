/**
 * WebKit: Debian's MiniBrowser of WebKitGTK, driven by WebDriver, with the input of a mouse and a
 * keyboard and a clipboard of its own. It shows its windows on a screen that Xvfb keeps in memory.
 */
import { spawn } from "node:child_process";
import { once } from "node:events";
import { request } from "node:http";
import { createServer } from "node:net";
import { text } from "node:stream/consumers";
import { setTimeout as sleep } from "node:timers/promises";
import { KEYS } from "./keys.mjs";
import { CannotDo, Page, expressionOf, shifted } from "./page.mjs";

const PROGRAM = "WebKitWebDriver";

const SCREEN = "Xvfb";

const MACHINES = { x64: "x86_64", arm64: "aarch64" };

const MINI_BROWSER = `/usr/lib/${MACHINES[process.arch]}-linux-gnu/webkit2gtk-4.1/MiniBrowser`;

const OPTIONS = { binary: MINI_BROWSER, args: ["--automation", "--javascript-can-access-clipboard=true"] };

/** How long a driver has to begin, in milliseconds. */
const PATIENCE = 30_000;

/** WebKit's own sandbox isn't for root. The pictures of windows come without a graphics card. */
const ENVIRONMENT = {
  ...process.env,
  WEBKIT_DISABLE_SANDBOX_THIS_IS_DANGEROUS: "1",
  LIBGL_ALWAYS_SOFTWARE: "1",
  GTK_IM_MODULE: "none",
  NO_AT_BRIDGE: "1",
};

/** A port that nothing listens on. */
async function freePort() {
  const server = createServer().listen(0, "127.0.0.1");
  await once(server, "listening");
  const { port } = server.address();
  server.close();
  await once(server, "close");
  return port;
}

/** A screen in memory: its process, and the number of the display. */
async function startScreen() {
  const words = ["-displayfd", "3", "-screen", "0", "1600x1400x24", "-nolisten", "tcp"];
  const child = spawn(SCREEN, words, { stdio: ["ignore", "ignore", "ignore", "pipe"] });
  child.stdio[3].setEncoding("utf8");
  const [display] = await once(child.stdio[3], "data");
  return { child, display: `:${display.trim()}` };
}

/** A WebDriver and its browser with one window: it serves one session at a time. */
class Session {
  #child;

  #exit;

  #port;

  #id = "";

  /** @param {Record<string, string | undefined>} environment */
  static async start(environment, loading) {
    const session = new Session(environment, await freePort());
    await session.#begin(loading);
    return session;
  }

  constructor(environment, port) {
    this.#port = port;
    this.#child = spawn(PROGRAM, [`--port=${port}`], { env: environment, stdio: "ignore" });
    this.#exit = once(this.#child, "exit");
  }

  async #begin(loading) {
    const wanted = { pageLoadStrategy: loading, "webkitgtk:browserOptions": OPTIONS };
    const capabilities = { alwaysMatch: wanted };
    const end = Date.now() + PATIENCE;
    for (;;) {
      try {
        const { sessionId } = await this.#ask("POST", "", { capabilities });
        this.#id = `/${sessionId}`;
        break;
      } catch (error) {
        // It doesn't listen yet.
        if (error.code !== "ECONNREFUSED" || Date.now() > end) {
          throw error;
        }
        await sleep(25);
      }
    }
    await this.send("timeouts", { script: 600_000, pageLoad: 60_000 });
  }

  /**
   * @param {string} method
   * @param {string} path
   * @param {object} [words]
   */
  async #ask(method, path, words = undefined) {
    const address = { host: "127.0.0.1", port: this.#port, path: `/session${path}`, method };
    const body = words && JSON.stringify(words);
    const headers = body ? { "Content-Length": Buffer.byteLength(body) } : {};
    const asked = request({ ...address, headers }).end(body);
    const [response] = await once(asked, "response");
    const { value } = JSON.parse(await text(response));
    if (response.statusCode !== 200) {
      throw new Error(`${value.error}: ${value.message}`);
    }
    return value;
  }

  /** Calls a command of WebDriver with words. */
  send(command, words = {}) {
    return this.#ask("POST", `${this.#id}/${command}`, words);
  }

  /** Asks what a command of WebDriver gives without words. */
  get(command) {
    return this.#ask("GET", `${this.#id}/${command}`);
  }

  async close() {
    await Promise.race([this.#ask("DELETE", this.#id).catch(() => {}), sleep(5000)]);
    this.#child.kill();
    await this.#exit;
  }
}

/**
 * Tells in the page what a call gives, and the errors that nothing caught since this was asked last. The
 * first time it begins to hear these.
 */
function answer(call, done) {
  window.heditSaid ??= (() => {
    const said = [];
    addEventListener("error", ({ message }) => said.push(message));
    addEventListener("unhandledrejection", ({ reason }) => said.push(String(reason)));
    addEventListener("securitypolicyviolation", ({ violatedDirective, blockedURI }) =>
      said.push(`${violatedDirective} refuses ${blockedURI}`),
    );
    return said;
  })();
  const said = () => window.heditSaid.splice(0);
  call().then(
    (value) => done({ value, said: said() }),
    (error) => done({ error: `${error}\n${error?.stack ?? ""}`, said: said() }),
  );
}

/** A running WebKit. */
export class WebKit {
  static programs = [PROGRAM, MINI_BROWSER, SCREEN];

  #screen;

  #loading;

  /** @type {Set<WebKitPage>} */
  #pages = new Set();

  /** The errors that pages didn't catch: the driver doesn't have the console. @type {string[]} */
  complaints = [];

  /** Makes its screen. Each page is a browser of its own there. */
  static async launch({ loading = "eager" } = {}) {
    return new WebKit(await startScreen(), loading);
  }

  constructor(screen, loading) {
    this.#screen = screen;
    this.#loading = loading;
  }

  /**
   * A page of its own, with storage of its own.
   * @param {string} address
   * @param {{ width?: number, height?: number, mobile?: boolean, scheme?: "light" | "dark",
   *   beside?: WebKitPage }} screen
   */
  async open(address, { width = 1280, height = 800, mobile = false, scheme = "light", beside } = {}) {
    if (beside) {
      throw new CannotDo("WebKit's driver has no two windows with one storage");
    }
    if (mobile) {
      throw new CannotDo("WebKit's driver has no screens of phones");
    }
    const theme = scheme === "dark" ? "Adwaita:dark" : "Adwaita";
    const environment = { ...ENVIRONMENT, DISPLAY: this.#screen.display, GTK_THEME: theme };
    const page = new WebKitPage(await Session.start(environment, this.#loading), this);
    this.#pages.add(page);
    await page.resize(width, height);
    await page.go(address);
    return page;
  }

  /** @param {WebKitPage} page */
  forget(page) {
    this.#pages.delete(page);
  }

  async close() {
    await Promise.all([...this.#pages].map((page) => page.close()));
    const exit = once(this.#screen.child, "exit");
    this.#screen.child.kill();
    await exit;
  }
}

// Two clicks as near as this count as a double click.
const DOUBLE_CLICK = { distance: 8, milliseconds: 1_050 };

/** A page of WebKit. */
class WebKitPage extends Page {
  hasInputMethods = false;

  #session;

  #browser;

  /** @type {{ x: number, y: number, time: number } | undefined} where the last click was, and when */
  #clicked;

  constructor(session, browser) {
    super();
    this.#session = session;
    this.#browser = browser;
  }

  /** @param {string} address */
  async go(address) {
    await this.#session.send("url", { url: address });
  }

  /** Makes the page this large: a window is larger by its frame. */
  async resize(width, height) {
    await this.#session.send("window/rect", { x: 0, y: 0, width, height });
    for (let turn = 0; turn < 40; turn += 1) {
      const size = await this.evaluate(() => [innerWidth, innerHeight]);
      if (size[0] === width && size[1] === height) {
        return;
      }
      const rect = await this.#session.get("window/rect");
      await this.#session.send("window/rect", {
        width: rect.width + width - size[0],
        height: rect.height + height - size[1],
      });
      await sleep(25);
    }
    throw new Error(`the window doesn't come to ${width} by ${height}`);
  }

  async evaluate(call, ...words) {
    const expression = `(async () => JSON.stringify(await (${expressionOf(call, words)})))()`;
    const script = `(${answer})(() => ${expression}, arguments[0])`;
    const { value, error, said } = await this.#session.send("execute/async", { script, args: [] });
    this.#browser.complaints.push(...said);
    if (error !== undefined) {
      throw new Error(error);
    }
    return typeof value === "string" ? JSON.parse(value) : undefined;
  }

  async setScheme() {
    throw new CannotDo("WebKit's driver doesn't change the colour scheme");
  }

  #act(source, actions) {
    return this.#session.send("actions", { actions: [{ ...source, actions }] });
  }

  #mouse(actions) {
    return this.#act({ type: "pointer", id: "mouse", parameters: { pointerType: "mouse" } }, actions);
  }

  #move({ x, y }) {
    return { type: "pointerMove", duration: 0, x: Math.round(x), y: Math.round(y) };
  }

  /** Waits as long as a click here would count as the second half of a double one. */
  async #apart({ x, y }) {
    const last = this.#clicked;
    if (last && Math.hypot(last.x - x, last.y - y) < DOUBLE_CLICK.distance) {
      await sleep(Math.max(0, last.time + DOUBLE_CLICK.milliseconds - performance.now()));
    }
    this.#clicked = { x, y, time: performance.now() };
    return { x, y };
  }

  async clickAt(at, clickCount = 1) {
    const click = [
      { type: "pointerDown", button: 0 },
      { type: "pointerUp", button: 0 },
    ];
    const clicks = Array.from({ length: clickCount }, () => click).flat();
    await this.#mouse([this.#move(await this.#apart(at)), ...clicks]);
    await this.settle();
  }

  async drag([first, ...others]) {
    await this.#mouse([
      this.#move(await this.#apart(first)),
      { type: "pointerDown", button: 0 },
      ...others.map((at) => this.#move(at)),
      { type: "pointerUp", button: 0 },
    ]);
    await this.settle();
  }

  #keys(actions) {
    return this.#act({ type: "key", id: "keys" }, actions);
  }

  async strike(name, held = []) {
    const isShifted = held.includes("Shift");
    const keys = [...held, name].map((key) => KEYS[key] ?? shifted(key, isShifted));
    const downs = keys.map((value) => ({ type: "keyDown", value }));
    const ups = keys.toReversed().map((value) => ({ type: "keyUp", value }));
    await this.#keys([...downs, ...ups]);
  }

  async type(typed) {
    const values = [...typed].map((character) => (character === "\n" ? KEYS.Enter : character));
    await this.#keys(
      values.flatMap((value) => [
        { type: "keyDown", value },
        { type: "keyUp", value },
      ]),
    );
    await this.settle();
  }

  async compose() {
    throw new CannotDo("WebKit's driver has no input methods");
  }

  async commit() {
    throw new CannotDo("WebKit's driver has no input methods");
  }

  async cancel() {
    throw new CannotDo("WebKit's driver has no input methods");
  }

  async correct() {
    throw new CannotDo("WebKit's driver has no spelling");
  }

  /** Its window is the only one. */
  async front() {}

  /** It may: see the options. */
  async allowClipboard() {}

  async saveTo() {
    throw new CannotDo("WebKit's driver saves nothing");
  }

  async choose(selector, files) {
    const using = { using: "css selector", value: selector };
    const [element] = Object.values(await this.#session.send("element", using));
    await this.#session.send(`element/${element}/value`, { text: files.join("\n") });
  }

  async drop() {
    throw new CannotDo("WebKit's driver drops no files");
  }

  async processor() {
    throw new CannotDo("WebKit's driver doesn't tell the time of the processor");
  }

  async reload() {
    await this.#session.send("refresh");
  }

  async shot() {
    return Buffer.from(await this.#session.get("screenshot"), "base64");
  }

  async close() {
    this.#browser.forget(this);
    await this.#session.close();
  }
}
