/**
 * How often a region puts its nodes right, for region.js. A script of the page may undo each of these
 * mends, and each would be answered at once: so the page would never get on.
 */

/** How many mends there are between two frames. */
const MENDS = 8;

/** After how many frames in which a mend waited the region gives in. */
const FRAMES = 30;

/** How many milliseconds a frame takes where the page isn't shown. */
const HIDDEN_FRAME = 100;

/** The mends that a region may make. */
export class Budget {
  #window;

  #mend;

  #giveIn;

  #mends = 0;

  #frames = 0;

  /** Whether a mend waits for the next frame. */
  #isWaiting = false;

  #isWatched = false;

  /** Whether mending rests until the user acts. */
  isSpent = false;

  /**
   * @param {Window} page
   * @param {() => void} mend makes the mend that waited
   * @param {() => void} giveIn is called when mending begins to rest
   */
  constructor(page, mend, giveIn) {
    this.#window = page;
    this.#mend = mend;
    this.#giveIn = giveIn;
  }

  /** Whether a mend may be made now. Otherwise it is made with the next frame, or rests. */
  take() {
    if (this.isSpent || this.#isWaiting) {
      return false;
    }
    this.#watch();
    this.#mends += 1;
    this.#isWaiting = this.#mends > MENDS;
    return !this.#isWaiting;
  }

  /** Begins anew, as when the user acts. */
  reset() {
    this.#mends = 0;
    this.#frames = 0;
    this.#isWaiting = false;
    this.isSpent = false;
  }

  #watch() {
    if (!this.#isWatched) {
      this.#isWatched = true;
      const pass = () => {
        if (this.#isWatched) {
          this.#isWatched = false;
          this.#pass();
        }
      };
      this.#window.requestAnimationFrame(pass);
      this.#window.setTimeout(pass, HIDDEN_FRAME);
    }
  }

  #pass() {
    if (!this.#isWaiting) {
      this.#mends = 0;
      this.#frames = 0;
      return;
    }
    this.#isWaiting = false;
    this.#frames += 1;
    if (this.#frames > FRAMES) {
      this.isSpent = true;
      this.#giveIn();
      return;
    }
    // The next one waits for a frame of its own.
    this.#mends = MENDS;
    this.#watch();
    this.#mend();
  }
}
