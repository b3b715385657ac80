/** The globals of a PDF file's images. */

import { OUT_OF_MEMORY } from "./jbig2_error.js";

// Globals stay decoded as long as all together hold no more bytes than this.
const MOST_HELD = 2 ** 28;

/** Decodes images, and each of their globals once, or seldom: those that were not used for the longest time are closed first. */
export class SharedGlobals {
  #decoder;
  #options;
  // By their bytes: what is open, or the error in its place.
  #opened = new Map();

  constructor(decoder, options) {
    [this.#decoder, this.#options] = [decoder, options];
  }

  /** Decodes an image over its globals' bytes, or null. */
  decode(bytes, globals) {
    try {
      return this.#decoded(bytes, globals);
    } catch (error) {
      if (error.number !== OUT_OF_MEMORY || this.#opened.size === 0) throw error;
    }
    // Without what other images share there may be room.
    this.close();
    return this.#decoded(bytes, globals);
  }

  close() {
    for (const bytes of this.#opened.keys()) this.#close(bytes);
  }

  #decoded(bytes, globals) {
    if (globals === null) return this.#decoder.decode(bytes, this.#options);
    const opened = this.#opened.get(globals) ?? this.#read(globals);
    this.#opened.delete(globals);
    this.#opened.set(globals, opened);
    if (opened instanceof Error) throw opened;
    return opened.decode(bytes);
  }

  #read(globals) {
    for (const oldest of this.#opened.keys()) {
      if (this.#decoder.held <= MOST_HELD) break;
      this.#close(oldest);
    }
    try {
      return this.#decoder.openGlobals(globals, this.#options);
    } catch (error) {
      if (error.number === OUT_OF_MEMORY || !error.number) throw error;
      return error;
    }
  }

  #close(globals) {
    const opened = this.#opened.get(globals);
    this.#opened.delete(globals);
    if (!(opened instanceof Error)) opened.close();
  }
}
