/** The errors of the decoder. */

import { ERRORS } from "./errors.js";

export const OUT_OF_MEMORY = 41;
export const WORK_LIMIT = 103;
export const INVALID_SIDES = 104;

/** Why a page is not decoded: `number` and `error` as in hayro_jbig2.h, and its text, or another one, as `message`. */
export class Jbig2Error extends Error {
  constructor(number, message) {
    const [error, text] = ERRORS[number] ?? [`ANSWER_${number}`, "no answer of this library"];
    super(message ?? text);
    this.name = "Jbig2Error";
    this.number = number;
    this.error = error;
  }
}

/** A page, or what pages share, asks for more work than the limit allows: the library's WORK_LIMIT. */
export class WorkLimitReached extends Jbig2Error {
  constructor(limit) {
    super(WORK_LIMIT, `more work than the limit of ${limit} units`);
    this.name = "WorkLimitReached";
    this.error = "WORK_LIMIT_REACHED";
  }
}

/** What a call makes, which can be too large for an array. */
export function orOutOfMemory(make) {
  try {
    return make();
  } catch (error) {
    if (error instanceof RangeError) throw new Jbig2Error(OUT_OF_MEMORY);
    throw error;
  }
}
