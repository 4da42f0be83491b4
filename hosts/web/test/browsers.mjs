/** The browsers that the tests run in. */
import * as runner from "node:test";
import { Chromium } from "./chromium.mjs";
import { Firefox } from "./firefox.mjs";
import { CannotDo, missing } from "./page.mjs";
import { WebKit } from "./webkit.mjs";

const ALL = [Chromium, Firefox, WebKit];

/** The browsers that the environment's HEDIT_BROWSERS names, as `WebKit,Firefox`: by default all. */
const WANTED = process.env.HEDIT_BROWSERS?.split(",") ?? ALL.map(({ name }) => name);

/** The browsers of the tests; where one isn't there, `skip` says so. */
export const BROWSERS = ALL.filter(({ name }) => WANTED.includes(name)).map((Browser) => ({
  Browser,
  name: Browser.name,
  skip: missing(Browser.programs),
}));

/** Whether the long tests run too, as hosts/web/test/all has them. */
export const IS_WHOLE = process.env.HEDIT_TESTS === "all";

/**
 * A test, which is skipped by name from where its browser's driver can't do what it asks.
 * @param {string} name
 * @param {any} options
 * @param {any} test
 */
export function it(name, options, test = options) {
  const settings = test === options ? {} : options;
  return runner.it(name, settings, async (context) => {
    try {
      await test(context);
    } catch (error) {
      if (!(error instanceof CannotDo)) {
        throw error;
      }
      context.skip(error.message);
    }
  });
}
