/** How pictures come into the message: by the panel, from files, by paste and by drop. */
import { markSelected, part, setFault } from "./composer_page.js";
import { MOST_BYTES, PictureRefused, pictureOf } from "./composer_picture_files.js";
import { isPictureAddress, plainText } from "./composer_text.js";
import { onPopup } from "./composer_toolbar.js";

/** @typedef {import("./composer.js").Composer} Composer */

/** The mark of where the pictures are to be. */
const PLACE = "pictures";

const NOT_KEPT = "This browser doesn’t keep the picture with the draft: save the draft";

const REFUSED_ADDRESS =
  "A picture has an address that begins with https://, or one of data with a PNG, JPEG, GIF or WebP in it.";

/** Inserts pictures into the message of a composer. */
export class PicturePanel {
  #composer;

  /** @param {Composer} composer */
  constructor(composer) {
    this.#composer = composer;
    const [panel, file, field] = ["image-panel", "image-file", "image-address"].map(part);
    const ask = () => {
      markSelected();
      panel.reset();
      setFault(field, "");
      field.focus();
    };
    onPopup(panel, ask, (before) => composer.goBack(before));
    panel.addEventListener("submit", (/** @type {Event} */ event) => {
      event.preventDefault();
      this.#insertFrom(field.value.trim());
    });
    field.addEventListener("input", () => setFault(field, ""));
    part("image-choose").addEventListener("click", () => file.click());
    file.addEventListener("change", () => {
      panel.hidePopover();
      this.insert([...file.files]);
    });
    // Before the region is asked.
    part("paper").addEventListener(
      "paste",
      (/** @type {ClipboardEvent} */ event) => this.#paste(event),
      true,
    );
    composer.region.addEventListener("files", (event) => {
      event.preventDefault();
      if (event.at) {
        composer.region.select(event.at);
      }
      this.insert(event.files);
    });
    this.#startDrops();
  }

  /**
   * Inserts the pictures of files at the caret, one after the other, and says of each that isn't one.
   * @param {readonly File[]} files
   */
  async insert(files) {
    const composer = this.#composer;
    const { region } = composer;
    const { editor } = region;
    region.mark(PLACE);
    composer.say(files.length === 1 ? "Reading the picture" : `Reading ${files.length} files`);
    const refused = [];
    for (const file of files) {
      try {
        const picture = await this.#read(file);
        if (editor === region.editor) {
          this.#insertPicture(picture.address);
        }
        if (!picture.isKept) {
          throw new PictureRefused(NOT_KEPT);
        }
      } catch (error) {
        if (!(error instanceof PictureRefused)) {
          throw error;
        }
        refused.push(error.message);
      }
    }
    region.unmark(PLACE);
    composer.say(refused.join(". "));
  }

  /** @param {File} file */
  async #read(file) {
    const { pictures, region } = this.#composer;
    const picture = await pictureOf(file);
    if (pictures.size(region.html()) + picture.size > MOST_BYTES) {
      throw new PictureRefused(`“${file.name}” isn’t inserted: the mail would be too large to be sent`);
    }
    return pictures.add(picture);
  }

  /**
   * Inserts a picture where the caret was when its file came, whatever was written since.
   * @param {string} address
   */
  #insertPicture(address) {
    this.#composer.act((region) => {
      const place = region.marks().find(({ name }) => name === PLACE);
      if (place) {
        region.select(place.anchor, place.focus);
      }
      const isDone = region.exec("insertImage", address);
      region.mark(PLACE);
      return isDone;
    });
  }

  /** @param {string} address */
  #insertFrom(address) {
    if (isPictureAddress(address)) {
      part("image-panel").hidePopover();
      this.#composer.act((region) => region.exec("insertImage", address));
    } else {
      setFault(part("image-address"), REFUSED_ADDRESS);
      part("image-address").select();
    }
  }

  /**
   * Takes the files of a clipboard that has no text. A picture that was copied from a web page has its
   * HTML too, from which the region would take an address of another server.
   * @param {ClipboardEvent} event
   */
  #paste(event) {
    const files = [...(event.clipboardData?.files ?? [])];
    const html = event.clipboardData?.getData("text/html") ?? "";
    if (files.length > 0 && plainText(html) === "") {
      event.preventDefault();
      event.stopPropagation();
      this.insert(files);
    }
  }

  /** Shows where files are dropped, and has none replace the page. */
  #startDrops() {
    const paper = part("paper");
    const hasFiles = (/** @type {DragEvent} */ event) => event.dataTransfer?.types.includes("Files");
    for (const kind of /** @type {const} */ (["dragenter", "dragover", "dragleave", "drop"])) {
      window.addEventListener(kind, (event) => {
        if (hasFiles(event)) {
          const isOver = kind.startsWith("drag") && paper.contains(/** @type {Node} */ (event.target));
          paper.classList.toggle("is-target", isOver && kind !== "dragleave");
          if (!part("message").contains(/** @type {Node} */ (event.target))) {
            event.preventDefault();
          }
        }
      });
    }
  }
}
