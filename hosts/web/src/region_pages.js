/**
 * The pages that took each other's place in a region, for region.js: each stays whole, in an editor of
 * its own, so that undo goes back to it.
 */

/** @typedef {import("./region_session.js").Session} Session */

/** How many pages there are to go back to. */
const MOST_PAGES = 8;

/** The pages before and after the one that a region shows. */
export class Pages {
  /** @type {Session[]} */
  #before = [];

  /** @type {Session[]} */
  #after = [];

  #show;

  /** @param {(session: Session) => void} show */
  constructor(show) {
    this.#show = show;
  }

  get hasBefore() {
    return this.#before.length > 0;
  }

  get hasAfter() {
    return this.#after.length > 0;
  }

  /**
   * Keeps a page that another takes the place of.
   * @param {Session} session
   */
  keep(session) {
    this.dropAfter();
    session.leave();
    this.#before.push(session);
    if (this.#before.length > MOST_PAGES) {
      this.#before.shift()?.editor.close();
    }
  }

  /**
   * Goes back to the page before one.
   * @param {Session} session
   */
  goBack(session) {
    return this.#go(session, this.#before, this.#after);
  }

  /**
   * Goes on to the page after one.
   * @param {Session} session
   */
  goOn(session) {
    return this.#go(session, this.#after, this.#before);
  }

  /**
   * @param {Session} from
   * @param {Session[]} pages
   * @param {Session[]} others
   */
  #go(from, pages, others) {
    const to = pages.pop();
    if (to) {
      others.push(from);
      this.#show(to);
    }
    return to !== undefined;
  }

  /** Forgets the pages that come after, as something else is done. */
  dropAfter() {
    this.#after.splice(0).forEach(({ editor }) => editor.close());
  }

  /** Forgets all pages. */
  clear() {
    this.dropAfter();
    this.#before.splice(0).forEach(({ editor }) => editor.close());
  }
}
