/** A page as packed rows, and as the other forms that they can be had in. */

import { orOutOfMemory } from "./jbig2_error.js";

// Opaque black, as the bytes of ImageData make up a number of 32 bits. White is -1, all bits set.
const BLACK = 0xff000000 | 0;

/** Writes the pixels of packed rows over white ones: `black`, or -1 for white. */
function unpack({ width, height, rows }, black, pixels) {
  const stride = (width + 7) >> 3;
  const whole = width >> 3;
  for (let y = 0; y < height; y++) {
    const begin = y * stride;
    let at = y * width;
    for (let place = begin; place < begin + whole; place++, at += 8) {
      const byte = rows[place];
      // Most bytes of a page of text are white.
      if (byte === 0) continue;
      pixels[at] = ((byte >> 7) - 1) | black;
      pixels[at + 1] = (((byte >> 6) & 1) - 1) | black;
      pixels[at + 2] = (((byte >> 5) & 1) - 1) | black;
      pixels[at + 3] = (((byte >> 4) & 1) - 1) | black;
      pixels[at + 4] = (((byte >> 3) & 1) - 1) | black;
      pixels[at + 5] = (((byte >> 2) & 1) - 1) | black;
      pixels[at + 6] = (((byte >> 1) & 1) - 1) | black;
      pixels[at + 7] = ((byte & 1) - 1) | black;
    }
    for (let x = 0; x < (width & 7); x++) pixels[at + x] = (((rows[begin + whole] >> (7 - x)) & 1) - 1) | black;
  }
}

/** The array of a page's pixels, all white: `given`, or a new one. */
const whitePixels = (Pixels, length, given) => orOutOfMemory(() => arrayOf(Pixels, length, given).fill(255));

/** `given`, if it is such an array of this length, or a new one where there is none. */
function arrayOf(Pixels, length, given) {
  if (given === null) return new Pixels(length);
  const isSuch = Object.prototype.toString.call(given) === `[object ${Pixels.name}]`;
  if (isSuch && given.length === length) return given;
  throw new TypeError(`the array of the pixels has to be a ${Pixels.name} of ${length} bytes`);
}

export class DecodedPage {
  #data = null;

  /**
   * `rows`: a bit for each pixel, 1 is black, the leftmost the highest of its byte; (width + 7) >> 3 bytes a row.
   * `passedOver`: of what the page lacks the `count` of segments, and `segment` and `error` of the first.
   * `leftOut`: what reading left out besides.
   */
  constructor(width, height, rows, { passedOver, leftOut }) {
    Object.assign(this, { width, height, rows, passedOver, leftOut });
  }

  /** Whether nothing is known to be missing of the page, or of what it shares with others. */
  get isComplete() {
    return this.passedOver.count === 0 && this.leftOut.passedOver.count === 0;
  }

  /** The pixels as ImageData has them, four bytes for each, made when they are asked for first. */
  get data() {
    return (this.#data ??= this.toRgba());
  }

  /** The pixels as ImageData has them, in `given`, which is an array of their size, or in a new one. */
  toRgba(given = null) {
    const size = this.width * this.height;
    const data = whitePixels(Uint8ClampedArray, 4 * size, given);
    if (data.byteOffset % 4 === 0) unpack(this, BLACK, new Int32Array(data.buffer, data.byteOffset, size));
    // Numbers of 32 bits have no such places.
    else data.set(this.toRgba());
    return data;
  }

  /** A byte for each pixel, 0 is black, 255 is white: in `given`, which is an array of their size, or in a new one. */
  toGray(given = null) {
    const pixels = whitePixels(Uint8Array, this.width * this.height, given);
    unpack(this, 0, pixels);
    return pixels;
  }
}
