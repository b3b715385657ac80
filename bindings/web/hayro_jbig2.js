/**
 * A decoder of JBIG2 (ITU-T T.88): hayro_jbig2.wasm with a heap, in any browser and in Node.
 *
 * What the module computes is proved. What is not: this file, with its heap, and the passes that made the module
 * (README.md says which).
 */

import { bytesOf } from "./bytes.js";
import { DecodedPage } from "./decoded_page.js";
import { Heap } from "./heap.js";
import { Jbig2Error, OUT_OF_MEMORY, WORK_LIMIT, WorkLimitReached, orOutOfMemory } from "./jbig2_error.js";
import { OpenFile, OpenGlobals } from "./opened.js";
import { checkSides, settingsOf } from "./writing.js";

export { DecodedPage, Jbig2Error, OpenFile, OpenGlobals, WorkLimitReached };

const UNEXPECTED_END = 1;
const INVALID_HEADER = 2;
const NO_SUCH_PAGE = 101;
const NO_SEGMENT_NUMBER = 2 ** 32 - 1;
const ENDS_OF_LINE = [0x0a, 0x0d];
// The most bytes that a call writes numbers into: those of what was left out.
const NUMBERS = 40;
// In place of the memory of a caller in C, the heap here; and no limit of work.
const MEMORY = 0n;
const NO_WORK_LIMIT = 2n ** 64n - 1n;
// The usual limit of work: for each pixel of a page, for a page at least, and for what pages share.
const [WORK_OF_PIXEL, LEAST_WORK, SHARED_WORK] = [100, 2 ** 24, 2 ** 28];

// What the identification of a file begins with (Annex D.4.1). The rest of it tells files that were damaged on the way.
const BEGINNING = [0x97, 0x4a, 0x42, 0x32];
// What a PDF file begins with. No segment does: 45, the minus sign, is no type of segments.
const BEGINNING_OF_PDF = [0x25, 0x50, 0x44, 0x46, 0x2d];

const begins = (bytes, beginning) => beginning.every((byte, place) => bytes[place] === byte);

/** Whether bytes begin as a JBIG2 file does. Other bytes are those of an embedded page, as PDF has them. */
export function isFile(source) {
  return begins(bytesOf(source), BEGINNING);
}

/** The bytes of a file, of an embedded page or of globals. Those of a PDF file are refused. */
function dataOf(source) {
  const bytes = bytesOf(source);
  if (!begins(bytes, BEGINNING_OF_PDF)) return bytes;
  throw new Jbig2Error(INVALID_HEADER, "this is a PDF file: pdf.js of this package finds its images");
}

/** The error of a number, or null for 0. */
const errorOf = (number) => (number ? new Jbig2Error(number) : null);

/** The number of a segment, or null where the bytes end within it. */
const numberOf = (segment) => (segment === NO_SEGMENT_NUMBER ? null : segment);

/** What was passed over: how many segments, with the number and the error of the first. */
const passedOver = ([count, segment, error]) => ({
  count,
  segment: count ? numberOf(segment) : null,
  error: errorOf(error),
});

/** What was left out of both, for a page and its globals. */
const joined = (one, other) => ({ ...one, passedOver: other.passedOver, cutOff: one.cutOff ?? other.cutOff });

function checkIndex(page) {
  if (!Number.isSafeInteger(page)) throw new TypeError("the page's index has to be a whole number");
}

/** A limit of work is a whole number or Infinity, or null for the usual one. */
function checkLimit(limit) {
  const isLimit = limit === null || limit === Infinity || (Number.isSafeInteger(limit) && limit >= 0);
  if (!isLimit) throw new TypeError("the limit of work has to be a whole number, or Infinity");
}

const wordOf = (limit) => (limit === Infinity ? NO_WORK_LIMIT : BigInt(limit));

/** The module beside this file: fetched, or read by Node, which fetches no files. */
function ownModule() {
  const place = new URL("hayro_jbig2.wasm", import.meta.url);
  const files = place.protocol === "file:" && globalThis.process?.getBuiltinModule?.("node:fs/promises");
  return files ? files.readFile(place) : fetch(place);
}

const isModule = (source) => Object.prototype.toString.call(source) === "[object WebAssembly.Module]";

/** A module, compiled or as bytes, with its imports. */
async function instanceOf(source, imports) {
  if (typeof source?.arrayBuffer !== "function") {
    const made = await WebAssembly.instantiate(isModule(source) ? source : bytesOf(source), imports);
    return made.instance ?? made;
  }
  if (!source.ok) throw new Error(`hayro_jbig2.wasm could not be loaded: ${source.status} ${source.statusText}`);
  return instanceOf(await source.arrayBuffer(), imports);
}

/** A loaded decoder. One page is decoded at a time; several may be loaded, in workers of their own. */
export class Decoder {
  #heap;
  #exports;
  #isBroken = false;

  /**
   * Loads the module.
   * @param source hayro_jbig2.wasm as bytes, as a Response or as a WebAssembly.Module, or a promise of one of these;
   *   that beside this file where it isn't given (in Node from 20.16 on)
   * @param most the most bytes of memory that decoding may take
   */
  static async load(source = ownModule(), most = 2 ** 31) {
    if (!(typeof most === "number" && most >= 0)) throw new TypeError("the most bytes of memory have to be a number");
    const decoder = new Decoder();
    const heap = (decoder.#heap = new Heap(most));
    const { exports } = await instanceOf(await source, heap.imports);
    decoder.#exports = exports;
    heap.begin(exports.memory);
    return decoder;
  }

  /** How many bytes of its memory are in use: none between two calls, but for what is open. */
  get held() {
    return this.#heap.held;
  }

  /** Whether a call didn't return, as where the module's stack is used up. Only another decoder goes on then. */
  get isBroken() {
    return this.#isBroken;
  }

  /** How many pages a file has. What they share is decoded, within the limit of work. */
  pageCount(bytes, options) {
    const file = this.open(bytes, options);
    try {
      return file.pageCount;
    } finally {
      file.close();
    }
  }

  /**
   * Reads a file once, for several of its pages: `decode` reads all of it for each. What its pages share is decoded now,
   * within the limit of work, and the limit holds for each page too. It takes memory until it is closed.
   * @returns {OpenFile}
   * @throws {WorkLimitReached | Jbig2Error}
   */
  open(bytes, { strict = false, salvage = false, workLimit = null } = {}) {
    checkLimit(workLimit);
    const reading = { strict, salvage, workLimit };
    const { inputs, giveBack } = this.#taken([dataOf(bytes)], 0);
    try {
      const file = this.#newShared("file", inputs[0], reading);
      const draw = (page) => (checkIndex(page), this.#drawnOfFile(file, page, reading));
      const opened = new OpenFile(draw, () => this.#leftOut("file", file), this.#closing(file, giveBack));
      opened.pageCount = Number(this.#run("hayro_jbig2_file_page_count", file));
      return opened;
    } catch (error) {
      giveBack();
      throw error;
    }
  }

  /**
   * Reads globals once, for several embedded pages, within the limit of work, which holds for each page too. They take
   * memory until they are closed.
   * @returns {OpenGlobals}
   * @throws {WorkLimitReached | Jbig2Error}
   */
  openGlobals(bytes, { strict = false, salvage = false, workLimit = null } = {}) {
    checkLimit(workLimit);
    const reading = { strict, salvage, workLimit };
    const globals = this.#with([dataOf(bytes)], 0, ([stream]) => this.#newGlobals(stream, reading));
    const draw = (bytes) => this.#with([dataOf(bytes)], 0, ([stream]) => this.#drawnPage(stream, globals, reading));
    return new OpenGlobals(draw, () => this.#leftOut("globals", globals), this.#closing(globals, () => {}));
  }

  /** Lets a handle stay, and returns what frees it. */
  #closing(handle, giveBack) {
    this.#heap.stay();
    return () => (this.#release(handle), giveBack());
  }

  /**
   * Decodes a page: of a file by its index from 0, or an embedded page with its globals, if it has some. Bytes with
   * globals are an embedded page, others a file where `isFile` says so. An embedded page is page 0; another index is
   * NO_SUCH_PAGE. Bytes are an ArrayBuffer or a view of one; other values are refused by a TypeError.
   *
   * With `strict` the first fault is thrown. With `salvage`, for viewers of damaged files, whatever a lenient decoder
   * refuses is left out. Where that is each page of a file, page 0 is the error of the first.
   *
   * Where the page's `isComplete` is false, `passedOver` tells what its own segments lack, and `leftOut` what else
   * reading left out; a count may be 0. `leftOut` has segments that pages share, as `passedOver`; how many `pages` of
   * a file, with the error of the first as `firstPage`; and as `cutOff` the segment at which a list of segments ends
   * early.
   *
   * `workLimit` is a number of units, for the page and for what it shares with others, or Infinity. Where it isn't
   * given, it is 100 for each pixel of the page, and 2^24 at least; for what pages share it is 2^28.
   * @returns {DecodedPage}
   * @throws {WorkLimitReached | Jbig2Error}
   */
  decode(bytes, { globals = null, page = 0, strict = false, salvage = false, workLimit = null } = {}) {
    checkIndex(page);
    checkLimit(workLimit);
    const reading = { strict, salvage, workLimit };
    const inputs = (globals === null ? [bytes] : [bytes, globals]).map(dataOf);
    const isEmbedded = globals !== null || !isFile(bytes);
    if (isEmbedded && page !== 0) throw new Jbig2Error(NO_SUCH_PAGE);
    return this.#with(inputs, 0, ([stream, shared]) => {
      if (!isEmbedded) {
        const file = this.#newShared("file", stream, reading);
        return this.#held(file, (file) => this.#drawnOfFile(file, page, reading));
      }
      if (globals === null) return this.#drawnPage(stream, null, reading);
      return this.#held(this.#newGlobals(shared, reading), (globals) => this.#drawnPage(stream, globals, reading));
    });
  }

  /**
   * Writes packed rows, as `DecodedPage.rows` has them, as an embedded page, or with `file` as a file. Bits past the width
   * are passed over. Decoding gives the picture back, without a pixel lost.
   *
   * `coding` is "arithmetic", or "mmr" for MMR data (T.6): it mostly takes more bytes, and pages of text are decoded in less
   * time. For the arithmetic coder `template`, from 0 to 3, says which pixels predict a pixel, and with `typical` a row that
   * is as the one above it takes one decision. `xResolution` and `yResolution` are in pixels for each metre; 0 states none.
   * @returns {Uint8Array}
   * @throws {Jbig2Error} INVALID_SIDES, OTHER_SIZE, NO_SUCH_TEMPLATE or OUT_OF_MEMORY
   */
  encode(rows, width, height, options = {}) {
    checkSides(width, height);
    return this.#with([bytesOf(rows), settingsOf(options)], 0, ([packed, [settings]]) => {
      const written = this.#made(Infinity, "hayro_jbig2_written_new", ...packed, width, height, settings);
      return this.#held(written, (written) => {
        const size = Number(this.#run("hayro_jbig2_written_length", written));
        return this.#copied(size, (place) => ["hayro_jbig2_written_bytes", written, place, BigInt(size)]);
      });
    });
  }

  /** A handle of a file, or of globals as they stand. */
  #newShared(kind, stream, { strict, salvage, workLimit }) {
    const limit = workLimit ?? SHARED_WORK;
    const words = [wordOf(limit), ...stream];
    const name = `hayro_jbig2_${kind}_new`;
    return salvage ? this.#made(limit, `${name}_salvaged`, ...words) : this.#made(limit, `${name}_within`, strict ? 1 : 0, ...words);
  }

  #newGlobals(stream, reading) {
    return this.#withoutLineEnd("globals", stream, (bytes) => this.#newShared("globals", bytes, reading));
  }

  #newPage(stream, globals, { strict, salvage }) {
    const name = `jbig2_c_${salvage ? "salvaged" : "page"}_${globals === null ? "alone" : "with"}`;
    const words = [...(salvage ? [] : [strict ? 1 : 0]), ...(globals === null ? [] : [globals])];
    return this.#withoutLineEnd("page", stream, (bytes) => this.#made(Infinity, name, ...words, ...bytes));
  }

  /**
   * A handle of a stream. PDF files may count in the end of a line after the last segment; the module takes it for a segment
   * that is cut off within its number.
   */
  #withoutLineEnd(kind, [place, length], make) {
    for (let end = length; ; end--) {
      const handle = make([place, end]);
      let isWhole = false;
      try {
        isWhole = length - end === 2n || !this.#endsALine(kind, handle, place + end);
        if (isWhole) return handle;
      } finally {
        if (!isWhole) this.#release(handle);
      }
    }
  }

  #endsALine(kind, handle, end) {
    const { cutOff } = this.#leftOut(kind, handle);
    const isInNumber = cutOff?.segment === null && cutOff.error.number === UNEXPECTED_END;
    return isInNumber && ENDS_OF_LINE.includes(this.#view().getUint8(Number(end) - 1));
  }

  /** Draws an embedded page over globals, if it has some, and returns what `decode` does. */
  #drawnPage(stream, globals, reading) {
    return this.#held(this.#newPage(stream, globals, reading), (page) => {
      const drawn = this.#drawn("page", page, [], reading);
      if (globals !== null) drawn.leftOut = joined(drawn.leftOut, this.#leftOut("globals", globals));
      return drawn;
    });
  }

  /** Draws a page of a file, and returns what `decode` does. Of pages that are all left out the first one's error is known. */
  #drawnOfFile(file, page, reading) {
    if (page === 0 && this.#run("hayro_jbig2_file_page_count", file) === 0n) {
      const { firstPage } = this.#leftOut("file", file);
      if (firstPage) throw firstPage;
    }
    return this.#drawn("file", file, [BigInt(page)], reading);
  }

  /** Draws a page of a handle, and returns what `decode` does. */
  #drawn(kind, handle, index, { workLimit }) {
    const [, width, height] = this.#numbers([4, 4, 4], `hayro_jbig2_${kind}_get_info`, handle, ...index);
    const limit = workLimit ?? Math.max(WORK_OF_PIXEL * width * height, LEAST_WORK);
    const draw = (context) => {
      this.#call(Infinity, "hayro_jbig2_context_set_work_limit", context, wordOf(limit));
      this.#call(limit, `hayro_jbig2_${kind}_draw`, handle, ...index, context);
      return new DecodedPage(width, height, this.#rows(context, width, height), {
        passedOver: passedOver(this.#numbers([8, 4, 4], "hayro_jbig2_context_get_passed_over", context)),
        leftOut: this.#leftOut(kind, handle),
      });
    };
    return this.#held(this.#made(Infinity, "hayro_jbig2_context_new"), draw);
  }

  /** What was left out of what a handle holds. */
  #leftOut(kind, handle) {
    const counts = this.#numbers([8, 4, 4, 8, 4, 4, 4], `hayro_jbig2_${kind}_get_left_out`, handle);
    const [, , , pages, firstPage, last, ended] = counts;
    return {
      passedOver: passedOver(counts),
      pages,
      firstPage: errorOf(firstPage),
      cutOff: ended ? { segment: numberOf(last), error: errorOf(ended) } : null,
    };
  }

  /** The packed rows of the page that was drawn last in a context. */
  #rows(context, width, height) {
    const size = Math.ceil(width / 8) * height;
    return this.#copied(size, (place) => ["hayro_jbig2_context_rows", context, 0n, place, BigInt(size)]);
  }

  /** What a call of these words writes into room of this size. */
  #copied(size, words) {
    return this.#with([], size, (_, place) => {
      this.#call(Infinity, ...words(place));
      return orOutOfMemory(() => new Uint8Array(this.#exports.memory.buffer).slice(Number(place), Number(place) + size));
    });
  }

  #view() {
    return new DataView(this.#exports.memory.buffer);
  }

  /** Calls the module. After a call that doesn't return, its stack and its memory are not as they were. */
  #run(name, ...words) {
    this.#check();
    try {
      return this.#exports[name](...words);
    } catch (error) {
      this.#isBroken = true;
      throw error;
    }
  }

  #check() {
    if (this.#isBroken) throw new Error("an earlier call was broken off: load another decoder");
  }

  /** Makes a call of at most `limit` units of work. */
  #call(limit, name, ...words) {
    const answer = this.#run(name, ...words);
    if (answer === WORK_LIMIT) throw new WorkLimitReached(limit);
    if (answer !== 0) throw new Jbig2Error(answer);
  }

  /** Makes a call that writes numbers of these sizes, one after the other, and returns them. */
  #numbers(sizes, name, ...words) {
    return this.#with([], NUMBERS, (_, place) => {
      this.#call(Infinity, name, ...words, place);
      const view = this.#view();
      let at = Number(place);
      return sizes.map((size) => {
        at += size;
        return size === 8 ? Number(view.getBigUint64(at - 8, true)) : view.getUint32(at - 4, true);
      });
    });
  }

  /** A handle that a call of at most `limit` units makes. It is to be released. */
  #made(limit, name, ...words) {
    return this.#with([], 8, (_, place) => {
      this.#view().setBigUint64(Number(place), 0n, true);
      this.#call(limit, name, MEMORY, ...words, place);
      return this.#view().getBigUint64(Number(place), true);
    });
  }

  #release(handle) {
    if (!this.#isBroken) this.#run("jbig2_c_release", handle);
  }

  /** Does work with a handle, and frees it. */
  #held(handle, work) {
    try {
      return work(handle);
    } finally {
      this.#release(handle);
    }
  }

  /** Copies inputs into the module's memory, and takes `room` bytes more. `giveBack` gives all of it back. */
  #taken(inputs, room) {
    this.#check();
    const blocks = [];
    const giveBack = () => blocks.forEach(([block, size]) => this.#heap.give(block, size));
    const take = (size) => {
      const block = this.#heap.take(size);
      if (!block) throw new Jbig2Error(OUT_OF_MEMORY);
      blocks.push([block, size]);
      return block;
    };
    try {
      const copied = inputs.map((bytes) => {
        const block = take(bytes.length);
        new Uint8Array(this.#exports.memory.buffer).set(bytes, block);
        return [BigInt(block), BigInt(bytes.length)];
      });
      return { inputs: copied, place: BigInt(take(room)), giveBack };
    } catch (error) {
      giveBack();
      throw error;
    }
  }

  /** Does work with inputs and room in the module's memory. */
  #with(inputs, room, work) {
    const taken = this.#taken(inputs, room);
    try {
      return work(taken.inputs, taken.place);
    } finally {
      taken.giveBack();
    }
  }
}
