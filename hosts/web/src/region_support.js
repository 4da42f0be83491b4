/** What a region needs of a browser. */
import { missingFeatures } from "./hedit.js";

/** @type {readonly (readonly [string, () => unknown])[]} */
const NEEDS = [
  ["Intl.Segmenter", () => typeof Intl.Segmenter === "function"],
  ["beforeinput", () => InputEvent.prototype.getTargetRanges],
  ["adoptedStyleSheets", () => "adoptedStyleSheets" in Document.prototype],
  ["getComposedRanges", () => "getComposedRanges" in Selection.prototype],
];

/** The names of what a browser hasn't, and a region needs. */
export function missing() {
  const isMissing = (/** @type {() => unknown} */ isThere) => {
    try {
      return !isThere();
    } catch {
      return true;
    }
  };
  const others = NEEDS.filter(([, isThere]) => isMissing(isThere));
  return [...missingFeatures(), ...others.map(([name]) => name)];
}
