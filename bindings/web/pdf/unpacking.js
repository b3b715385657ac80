/** What streams of a PDF file unpack to. */

import { partsOf } from "./inflating.js";

// In sum for a file, and for each stream once.
export const MOST_BYTES = 2 ** 28;

/** Why a PDF file, or an image in it, is not read. */
export class PdfError extends Error {
  name = "PdfError";
}

/** The parts as one array. */
function joined(parts, size) {
  const whole = new Uint8Array(size);
  let place = 0;
  for (const part of parts) whole.set(part, place), (place += part.length);
  return whole;
}

/** The bytes that streams may still unpack to. */
export class Room {
  #left = MOST_BYTES;
  #counted = new Map();

  /**
   * Begins to unpack a stream, perhaps again, and perhaps beside another unpacking of it: the longest of them counts.
   * @returns what is to be called with the size of each part, and throws where there is no room for it
   */
  begin(stream) {
    let size = 0;
    return (more) => {
      size += more;
      const uncounted = size - (this.#counted.get(stream) ?? 0);
      if (uncounted <= 0) return;
      this.#left -= uncounted;
      this.#counted.set(stream, size);
      if (this.#left < 0) throw new PdfError(`the streams of the PDF file unpack to more than ${MOST_BYTES} bytes`);
    };
  }
}

/**
 * What bytes of zlib unpack to, as far as it goes: bytes after their end, and damage there, take nothing away.
 * @param take is called with the size of each part before it is kept, and may throw
 */
export async function inflated(bytes, take) {
  const parts = [];
  let size = 0;
  const keep = (part) => {
    take(part.length);
    parts.push(part);
    size += part.length;
  };
  const damage = await quickParts(bytes, keep);
  if (damage && !keepRest(bytes, size, keep) && size === 0) throw new PdfError(`a stream can't be unpacked: ${damage.message}`);
  return joined(parts, size);
}

/** Keeps what the browser unpacks, and returns the error that it ends in, or null. Before an error some may be lost. */
async function quickParts(bytes, keep) {
  const reader = new Blob([bytes]).stream().pipeThrough(new DecompressionStream("deflate")).getReader();
  let error = null;
  try {
    for (;;) {
      const { done, value } = await reader.read().catch((caught) => ((error = caught), { done: true }));
      if (done) return error;
      keep(value);
    }
  } finally {
    reader.cancel().catch(() => {});
  }
}

/** Keeps what damaged bytes unpack to after the first `known` bytes, and returns whether they came to their end. */
function keepRest(bytes, known, keep) {
  const parts = partsOf(bytes);
  for (;;) {
    const { done, value } = parts.next();
    if (done) return value;
    const rest = value.subarray(known);
    known = Math.max(known - value.length, 0);
    if (rest.length > 0) keep(rest);
  }
}
