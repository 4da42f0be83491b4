/**
 * A mail composer over the engine: index.html has its controls, region.js is the editor behind the
 * message, and this file joins them.
 */
import { HeditError, load } from "../src/hedit.js";
import { Region } from "../src/region.js";
import { Count } from "./composer_count.js";
import { Drafts } from "./composer_drafts.js";
import { Fields } from "./composer_fields.js";
import { FindBar } from "./composer_find.js";
import { Formatting } from "./composer_formatting.js";
import { Keeper } from "./composer_keeper.js";
import { startLinks } from "./composer_link.js";
import { fileName, messageOf } from "./composer_mail.js";
import { Notices } from "./composer_notice.js";
import { part, rested, unmarkSelected } from "./composer_page.js";
import { PicturePanel } from "./composer_picture_panel.js";
import { Pictures } from "./composer_pictures.js";
import { startPreview } from "./composer_preview.js";
import { startSelection } from "./composer_selection.js";
import { Source } from "./composer_source.js";
import { withoutLocks } from "./composer_text.js";
import { startTheme } from "./composer_theme.js";
import { Shortcuts, showTips } from "./composer_toolbar.js";

/** @typedef {import("./composer_drafts.js").Draft} Draft */

/** A new message: a line to write in, and a signature that is locked. */
const NEW_MESSAGE =
  '<p><br></p><div class="signature" contenteditable="false"><p><b>Ada Lovelace</b><br>' +
  "Analytical Engines, 12 St James’s Square, London</p></div>";

const NEW_DRAFT = { to: "", cc: "", bcc: "", subject: "", html: NEW_MESSAGE, time: 0 };

/** How long a remark on what was done stays. */
const SAID_PAUSE = 6000;

/** The composer of the page. */
export class Composer {
  newMessage = NEW_MESSAGE;

  pictures = new Pictures();

  /** What the regions are made with: the signature keeps its look, and stays locked. */
  choices = {
    clean: { locked: true },
    view: {
      classes: ["signature"],
      image: (/** @type {string} */ src) => this.pictures.shown(src),
    },
    reload: load,
  };

  notices = new Notices();

  fields = new Fields(() => this.#keeper.keepSoon(), () => this.region.focus());

  #region;

  #formatting = new Formatting(this);

  #source = new Source(this);

  #count = new Count();

  #findBar = new FindBar(this);

  #keeper;

  #fallSilentSoon = rested(() => {
    part("said").textContent = "";
  }, SAID_PAUSE);

  /**
   * @param {Awaited<ReturnType<typeof load>>} engine
   * @param {Drafts} drafts
   * @param {Draft | null} draft
   */
  constructor(engine, drafts, draft) {
    this.engine = engine;
    this.#keeper = new Keeper(this, drafts);
    this.#region = new Region(engine, part("message"), { ...this.choices, html: NEW_MESSAGE });
    this.#listen();
    this.#show(draft ?? NEW_DRAFT);
    startLinks(this);
    this.panel = new PicturePanel(this);
    startPreview(this);
    startSelection(this);
    this.#startKeys();
    showTips(part("tip"), ".tool[aria-label]");
    part("save").addEventListener("click", () => this.save());
    this.#keeper.offerUnreadable();
    this.pictures.dropUnused(drafts.everything());
    (draft ? this.region : part("to")).focus();
  }

  get region() {
    return this.#region;
  }

  /**
   * Shows another draft, or a new one.
   * @param {Draft | null} draft
   */
  open(draft) {
    this.#show(draft ?? NEW_DRAFT);
    (draft ? this.region : part("to")).focus();
  }

  /**
   * Shows a draft, or a new one if it can't be opened.
   * @param {Draft} draft
   */
  #show(draft) {
    const region = this.#region;
    try {
      region.setHtml(draft.html, { history: "reset" });
    } catch (error) {
      if (!(error instanceof HeditError) || draft === NEW_DRAFT) {
        throw error;
      }
      this.#keeper.setAside();
      this.#show(NEW_DRAFT);
      return;
    }
    region.select({ label: region.editor.labelAt([0, 0]), offset: 0 });
    this.fields.head = draft;
    this.#keeper.begin();
    this.#count.show();
    this.#findBar.refresh();
    this.#formatting.refresh();
    this.#source.show();
  }

  #listen() {
    const region = this.#region;
    region.addEventListener("statechange", () => this.#formatting.refreshSoon());
    region.addEventListener("change", () => this.#changed());
    region.addEventListener("input", () => this.#keeper.keepSoon());
    region.addEventListener("error", (event) => {
      event.preventDefault();
      if (region.status === "stopped") {
        this.#offerToGoOn();
      } else {
        this.say(`That wasn’t done: ${event.message}`);
      }
    });
    region.addEventListener("refused", (event) => {
      event.preventDefault();
      this.say("That isn’t possible here");
    });
  }

  #changed() {
    this.#formatting.refreshSoon();
    this.#keeper.keepSoon();
    this.#source.showSoon();
    this.#count.refresh();
    this.#findBar.refreshSoon();
  }

  #offerToGoOn() {
    const words = "The engine has stopped. What you wrote is safe; what was done can’t be undone any more.";
    this.notices.show("stopped", words, { "Go on": () => this.#region.recover() });
  }

  /**
   * Lets the region act, and says where it can't. Then the focus is in the message again, but for
   * one who goes through the toolbar with the keyboard.
   * @param {(region: Region) => boolean} act
   */
  act(act) {
    const focused = document.activeElement;
    this.try(act);
    this.goBack(focused);
  }

  /**
   * Lets the region act, and says where it can't.
   * @param {(region: Region) => boolean} act
   */
  try(act) {
    try {
      if (!act(this.#region)) {
        this.say("That isn’t possible here");
      }
    } catch (error) {
      if (!(error instanceof HeditError)) {
        throw error;
      }
      this.say(`That wasn’t done: ${error.message}`);
    }
  }

  /**
   * Puts the focus where it was before a menu or a panel had it: in a toolbar, or else in the message,
   * with what is selected there.
   * @param {Element | null} before
   */
  goBack(before) {
    unmarkSelected();
    if (before instanceof HTMLElement && (this.#formatting.has(before) || before.closest(".bar"))) {
      before.focus();
    } else {
      this.#region.focus();
    }
  }

  /**
   * Shows a sheet. Once it closes, what was selected in the message is selected again: Firefox puts the
   * caret to its start where the focus comes back.
   * @param {HTMLDialogElement} sheet
   */
  showSheet(sheet) {
    const region = this.#region;
    const { editor } = region;
    const selection = region.selection();
    const close = () => {
      if (selection && editor === region.editor && document.activeElement === region.element) {
        region.select(selection.anchor, selection.focus);
      }
    };
    sheet.showModal();
    sheet.addEventListener("close", close, { once: true });
  }

  /** @param {string} words */
  say(words) {
    part("said").textContent = words;
    this.#fallSilentSoon();
  }

  #startKeys() {
    const shortcuts = new Shortcuts(
      (control, target) =>
        control.closest(".bar") !== null || target.closest("#message, #toolbar, #find") !== null,
    );
    const sheet = part("shortcuts");
    part("help").addEventListener("click", () => this.showSheet(sheet));
    shortcuts.fill(part("shortcut-list"));
  }

  /**
   * Saves the mail as a message that a mail program opens. There its locked parts can be written in.
   */
  async save() {
    const { head } = this.fields;
    const html = withoutLocks(this.#region.html());
    const message = messageOf(head, html, await this.pictures.of(html));
    const areRight = this.fields.check();
    const name = fileName(head.subject);
    this.saveFile(new Blob([message], { type: "message/rfc822" }), name);
    this.say(areRight ? `Saved as ${name}` : `Saved as ${name}, with an address to be corrected`);
  }

  /**
   * @param {Blob} file
   * @param {string} name
   */
  saveFile(file, name) {
    const link = document.createElement("a");
    link.href = URL.createObjectURL(file);
    link.download = name;
    link.click();
    URL.revokeObjectURL(link.href);
  }
}

async function start() {
  startTheme(part("theme"));
  const drafts = new Drafts();
  try {
    drafts.unreadable();
    const [engine, draft] = await Promise.all([load(), drafts.take()]);
    new Composer(engine, drafts, draft);
  } catch (error) {
    const { message } = /** @type {Error} */ (error);
    part("trouble").textContent = `The engine can’t run here: ${message}`;
    part("trouble").hidden = false;
    throw error;
  }
}

start();
