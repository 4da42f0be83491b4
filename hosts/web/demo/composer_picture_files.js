/** Files of pictures, made fit for a mail. */

/** The types that mail programs show. */
const TYPES = new Set(["image/png", "image/jpeg", "image/gif", "image/webp"]);

const MEBIBYTE = 2 ** 20;

/** The largest file that is read, and the largest picture that is taken as it is, in bytes. */
const [LARGEST_FILE, LARGEST_PICTURE] = [25 * MEBIBYTE, MEBIBYTE];

/** The most pixels that a side of a larger picture keeps. */
const LONGEST_SIDE = 1600;

/** The most bytes that the pictures of a message may have. */
export const MOST_BYTES = 15 * MEBIBYTE;

const QUALITY = 0.85;

/** Says why a file isn't inserted. */
export class PictureRefused extends Error {
  name = "PictureRefused";
}

/**
 * How many pixels a side has, as the picture is to be, if it had so many.
 * @param {ImageBitmap} bitmap
 */
function scaleOf({ width, height }) {
  return Math.min(1, LONGEST_SIDE / Math.max(width, height));
}

/**
 * A picture drawn anew, as large as it is to be. Photographs stay such, and others keep what can be seen
 * through.
 * @param {ImageBitmap} bitmap
 * @param {string} type
 * @returns {Promise<Blob | null>}
 */
function drawn(bitmap, type) {
  const scale = scaleOf(bitmap);
  const canvas = document.createElement("canvas");
  canvas.width = Math.max(1, Math.round(bitmap.width * scale));
  canvas.height = Math.max(1, Math.round(bitmap.height * scale));
  const context = canvas.getContext("2d");
  context?.drawImage(bitmap, 0, 0, canvas.width, canvas.height);
  const newType = type === "image/jpeg" ? type : "image/png";
  return new Promise((resolve) => {
    canvas.toBlob(resolve, newType, QUALITY);
  });
}

/**
 * A file as a picture of a mail: a large one is made smaller. What isn't one throws PictureRefused.
 * @param {File} file
 * @returns {Promise<Blob>}
 */
export async function pictureOf(file) {
  const name = file.name ? `“${file.name}”` : "This";
  if (!TYPES.has(file.type)) {
    const isPicture = file.type.startsWith("image/");
    throw new PictureRefused(
      isPicture
        ? `${name} isn’t inserted: mail programs show PNG, JPEG, GIF and WebP pictures only`
        : `${name} isn’t inserted: only pictures can be`,
    );
  }
  if (file.size > LARGEST_FILE) {
    throw new PictureRefused(`${name} isn’t inserted: it has more than ${LARGEST_FILE / MEBIBYTE} MB`);
  }
  const bitmap = await createImageBitmap(file).catch(() => null);
  if (!bitmap) {
    throw new PictureRefused(`${name} isn’t inserted: it can’t be read as a picture`);
  }
  const isFit = scaleOf(bitmap) === 1 && file.size <= LARGEST_PICTURE;
  // Drawn anew, a GIF would move no more.
  const smaller = isFit || file.type === "image/gif" ? null : await drawn(bitmap, file.type);
  bitmap.close();
  return smaller && smaller.size < file.size ? smaller : file;
}
