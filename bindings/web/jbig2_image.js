/**
 * The decoder in the place of pdf.js's own: a class with the interface of its `Jbig2Image`.
 *
 * That interface is synchronous, so the module is loaded before the first page: `await Jbig2Image.load()`.
 */

import { bytesOf } from "./bytes.js";
import { Decoder, isFile } from "./hayro_jbig2.js";
import { Jbig2Error } from "./jbig2_error.js";

const INVALID_HEADER = 2;

/** The bytes of chunks, one after the other: each has `data`, and where in it the bytes `start` and `end`. */
function joined(chunks) {
  const parts = chunks.map(({ data, start, end }) => bytesOf(data).subarray(start, end));
  if (parts.length === 1) return parts[0];
  const bytes = new Uint8Array(parts.reduce((size, part) => size + part.length, 0));
  let place = 0;
  for (const part of parts) bytes.set(part, place), (place += part.length);
  return bytes;
}

export class Jbig2Image {
  static #decoder = null;
  static #options = {};

  /**
   * Loads the decoder for all images.
   * @param options those of `Decoder.decode` that say how it reads: `strict`, `salvage`, `workLimit`
   */
  static async load(source, options = {}) {
    Jbig2Image.#decoder = await Decoder.load(source);
    Jbig2Image.#options = options;
  }

  #decode(bytes, globals) {
    if (!Jbig2Image.#decoder) throw new Error("Jbig2Image.load() has to come first");
    const page = Jbig2Image.#decoder.decode(bytes, { ...Jbig2Image.#options, globals });
    [this.width, this.height] = [page.width, page.height];
    return page;
  }

  /**
   * The packed rows of an image of a PDF file, 1 is black. Of its chunks the last is the image, those before it its
   * globals.
   */
  parseChunks(chunks) {
    const globals = chunks.length > 1 ? joined(chunks.slice(0, -1)) : null;
    const { rows } = this.#decode(joined(chunks.slice(-1)), globals);
    return new Uint8ClampedArray(rows.buffer);
  }

  /** The first page of a file, a byte for each pixel: 0 is black, 255 is white. */
  parse(data) {
    if (!isFile(data)) throw new Jbig2Error(INVALID_HEADER);
    return new Uint8ClampedArray(this.#decode(data, null).toGray().buffer);
  }
}
