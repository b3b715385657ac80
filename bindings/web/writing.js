/** What `Decoder.encode` hands to the module: the settings as the structure of bindings/c/hayro_jbig2.h. */

import { INVALID_SIDES, Jbig2Error } from "./jbig2_error.js";

const LONGEST_SIDE = 65535;
const SIZE = 16;

const isWhole = (number, least, most) => Number.isSafeInteger(number) && number >= least && number <= most;

export function checkSides(width, height) {
  if (!Number.isSafeInteger(width) || !Number.isSafeInteger(height)) throw new TypeError("the sides have to be whole numbers");
  if (!isWhole(width, 1, LONGEST_SIDE) || !isWhole(height, 1, LONGEST_SIDE)) throw new Jbig2Error(INVALID_SIDES);
}

export function settingsOf(options) {
  const { coding = "arithmetic", template = 0, typical = true, xResolution = 0, yResolution = 0, file = false } = options;
  if (!["arithmetic", "mmr"].includes(coding)) throw new TypeError('the coding has to be "arithmetic" or "mmr"');
  const numbers = [template, xResolution, yResolution];
  if (!numbers.every((number) => isWhole(number, 0, 2 ** 32 - 1))) {
    throw new TypeError("the template and the resolution have to be whole numbers of 32 bits");
  }
  const bytes = new Uint8Array(SIZE);
  const view = new DataView(bytes.buffer);
  numbers.forEach((number, place) => view.setUint32(4 * place, number, true));
  bytes.set([typical, file, coding === "mmr"].map((holds) => (holds ? 1 : 0)), 12);
  return bytes;
}
