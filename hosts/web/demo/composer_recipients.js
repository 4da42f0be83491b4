/** The addresses that a mail goes to, as its author writes them. */

/** Letters, digits and signs of the part before the at sign, and of a name of a machine. */
const [LOCAL, LABEL] = [
  "[\\p{L}\\p{N}.!#$%&'*+/=?^_`{|}~-]+",
  "[\\p{L}\\p{N}](?:[\\p{L}\\p{M}\\p{N}-]{0,61}[\\p{L}\\p{M}\\p{N}])?",
];

const ADDRESS = new RegExp(`^${LOCAL}@${LABEL}(?:\\.${LABEL})+$`, "u");

/**
 * The parts of a list of addresses, between commas, semicolons and line feeds: those in quotation marks
 * and in angle brackets belong to what stands there.
 * @param {string} list
 */
export function partsOf(list) {
  const parts = list.match(/(?:"(?:\\.|[^"\\])*"?|<[^<>]*>?|[^,;\n"<])+/g) ?? [];
  return parts.map((each) => each.trim()).filter(Boolean);
}

/**
 * Whether it is a mail address, alone or in angle brackets behind a name.
 * @param {string} recipient
 */
export function isRecipient(recipient) {
  const [, inBrackets] = /^[^<>]*<\s*([^<>]*?)\s*>$/.exec(recipient) ?? [];
  const address = inBrackets ?? recipient;
  return address.length <= 254 && ADDRESS.test(address) && !/^\.|\.\.|\.@/.test(address);
}

/**
 * What is wrong with a list of addresses; the empty text if nothing is.
 * @param {string} list
 */
export function faultOf(list) {
  const wrong = partsOf(list).filter((each) => !isRecipient(each));
  const named = wrong.map((each) => `“${each}”`).join(", ");
  if (wrong.length === 0) {
    return "";
  }
  return wrong.length === 1 ? `${named} isn’t a mail address` : `${named} aren’t mail addresses`;
}
