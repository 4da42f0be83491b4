/** The fields above the message: to whom it goes, and what it is on. */
import { part, setFault } from "./composer_page.js";
import { faultOf } from "./composer_recipients.js";

/** @typedef {{ to: string, cc: string, bcc: string, subject: string }} Head */

/** The fields of addresses, in the order of the page. */
const RECIPIENTS = ["to", "cc", "bcc"];

/** The fields of a composer. */
export class Fields {
  /**
   * @param {() => void} changed is called when something else stands in a field
   * @param {() => void} leave goes on to the message
   */
  constructor(changed, leave) {
    for (const name of RECIPIENTS) {
      this.#startRecipients(part(name));
    }
    for (const name of [...RECIPIENTS, "subject"]) {
      part(name).addEventListener("input", () => {
        this.#showSubject();
        changed();
      });
      part(name).addEventListener("keydown", (/** @type {KeyboardEvent} */ event) => {
        if (event.key === "Enter" && !event.isComposing) {
          event.preventDefault();
          (this.#after(name) ?? leave)();
        }
      });
    }
    part("copies").addEventListener("click", () => {
      this.#showCopies();
      part("cc").focus();
    });
  }

  /** @returns {Head} */
  get head() {
    const [to, cc, bcc, subject] = [...RECIPIENTS, "subject"].map((name) => part(name).value);
    return { to, cc, bcc, subject };
  }

  /** @param {Head} head */
  set head(head) {
    part("subject").value = head.subject;
    for (const name of /** @type {const} */ (["to", "cc", "bcc"])) {
      part(name).value = head[name];
      setFault(part(name), faultOf(part(name).value));
    }
    part("fields").classList.toggle("has-copies", head.cc + head.bcc !== "");
    part("copies").hidden = head.cc + head.bcc !== "";
    this.#showSubject();
  }

  /** Whether all addresses are such. Otherwise the first field with another one has the focus. */
  check() {
    const wrong = RECIPIENTS.find((name) => faultOf(part(name).value) !== "");
    if (wrong) {
      setFault(part(wrong), faultOf(part(wrong).value));
      part(wrong).focus();
    }
    return !wrong;
  }

  /** @param {HTMLInputElement} field */
  #startRecipients(field) {
    field.addEventListener("blur", () => setFault(field, faultOf(field.value)));
    field.addEventListener("input", () => {
      // What was wrong is right as soon as it is, and what is being written isn't wrong yet.
      if (field.getAttribute("aria-invalid") === "true") {
        setFault(field, faultOf(field.value));
      }
    });
  }

  /**
   * What goes to the next field; undefined behind the last one.
   * @param {string} name
   */
  #after(name) {
    const shown = [...RECIPIENTS, "subject"].filter((each) => part(each).checkVisibility());
    const next = shown.at(shown.indexOf(name) + 1);
    return next === undefined ? undefined : () => part(next).select();
  }

  #showCopies() {
    part("fields").classList.add("has-copies");
    part("copies").hidden = true;
  }

  #showSubject() {
    const words = part("subject").value.trim() || "New message";
    part("title").textContent = words;
    document.title = words;
  }
}
