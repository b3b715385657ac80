/**
 * The JBIG2 images of a PDF file (ISO 32000-1, 7.4.7): each image's stream, and that of its globals.
 *
 * Objects are found by their words `N G obj`, and those in object streams with them, so a damaged table of references
 * does no harm. Encrypted files are refused. README.md has the bounds of time and memory.
 */

import { bytesOf } from "./bytes.js";
import { Lexer, NUMBER } from "./pdf/lexer.js";
import { MOST_OBJECTS, scanned } from "./pdf/objects.js";
import { PdfError, Room, inflated } from "./pdf/unpacking.js";
import { isWhole, valueAt } from "./pdf/values.js";

export { PdfError };

// Two of Flate, and that of JBIG2.
const MOST_FILTERS = 3;
const FLATE = new Set(["/FlateDecode", "/Fl"]);
const JBIG2 = "/JBIG2Decode";

const listOf = (value) => (Array.isArray(value) ? value : [value ?? null]);

/** The numbers and the places of the objects in an object stream (7.5.7), in the order of their places. */
function entriesOf(data, count, first) {
  const lexer = new Lexer(data, 0, Math.min(first, data.length));
  const entries = [];
  const most = Math.min(count, MOST_OBJECTS);
  const readNumber = () => (lexer.next() === NUMBER && isWhole(lexer.value) ? lexer.value : NaN);
  for (let read = 0; read < most && lexer.place < lexer.end; read++) {
    const number = readNumber();
    const place = first + readNumber();
    // No comparison holds of what is no number.
    if (number >= 0 && place < data.length) entries.push({ number, place });
  }
  return entries.sort((one, other) => one.place - other.place);
}

/** A PDF file. */
export class Pdf {
  #bytes;
  #objects;
  #room = new Room();
  // The bytes of globals, promised. Many images may share some that take long to unpack.
  #shared = new Map();

  /** What could not be read of the file, as texts: object streams that are damaged, and objects beyond the most. */
  faults = [];

  /**
   * Reads a file.
   * @throws {PdfError} where it is encrypted
   */
  static async open(bytes) {
    const pdf = new Pdf();
    pdf.#bytes = bytesOf(bytes);
    const { objects, isEncrypted } = scanned(pdf.#bytes);
    if (isEncrypted) throw new PdfError("the PDF file is encrypted");
    pdf.#objects = objects;
    await pdf.#addFromStreams();
    if (objects.isFull) pdf.faults.push(`the file has more than ${MOST_OBJECTS} objects`);
    return pdf;
  }

  async #addFromStreams() {
    for (const [number, object] of this.#objects.all()) {
      if (this.#objects.isFull) return;
      if (object.begin === undefined || this.#objects.valueOf(object, "Type") !== "/ObjStm") continue;
      try {
        await this.#addFrom(object);
      } catch (error) {
        if (!(error instanceof PdfError)) throw error;
        this.faults.push(`object stream ${number}: ${error.message}`);
      }
    }
  }

  /** Adds the objects of an object stream, as of the place where that stands in the file. */
  async #addFrom(stream) {
    const [count, first] = ["N", "First"].map((key) => this.#objects.valueOf(stream, key));
    if (!isWhole(count) || !isWhole(first)) throw new PdfError("no number of objects, or no place of the first");
    const data = await this.#data(stream);
    const entries = entriesOf(data, count, first);
    for (const [index, { number, place }] of entries.entries()) {
      if (this.#objects.isFull) return;
      // An object ends where the next one begins. So of several at one place all but the last are empty.
      const value = valueAt(new Lexer(data, place, entries[index + 1]?.place));
      this.#objects.add(number, { place: stream.place, value });
    }
    if (entries.length < count) throw new PdfError(`has ${entries.length} of its ${count} objects`);
  }

  /** The filters of a stream, as far as there may be some. */
  #filters(object) {
    const filters = listOf(this.#objects.valueOf(object, "Filter")).slice(0, MOST_FILTERS + 1);
    return filters.map((filter) => this.#objects.resolved(filter)).filter((filter) => typeof filter === "string");
  }

  /** The parameters of a stream's filters: a dictionary or nothing for each. */
  #parameters(object) {
    const parameters = listOf(this.#objects.valueOf(object, "DecodeParms")).slice(0, MOST_FILTERS);
    const values = parameters.map((some) => this.#objects.resolved(some));
    return values.map((value) => (value instanceof Map ? { value } : {}));
  }

  /** The bytes of a stream, its Flate filters undone. Others, which are rare beside /JBIG2Decode, are refused. */
  async #data(object) {
    const filters = this.#filters(object);
    const parameters = this.#parameters(object);
    const most = filters.at(-1) === JBIG2 ? MOST_FILTERS : MOST_FILTERS - 1;
    if (filters.length > most) throw new PdfError(`more than ${most} filters`);
    let data = this.#bytes.subarray(object.begin, object.end);
    const take = this.#room.begin(object);
    for (const [index, filter] of filters.entries()) {
      if (filter === JBIG2 && index === filters.length - 1) break;
      if (!FLATE.has(filter)) throw new PdfError(`the filter ${filter.slice(1, 40)} is not read here`);
      const predictor = this.#objects.valueOf(parameters[index] ?? {}, "Predictor");
      if (typeof predictor === "number" && predictor > 1) {
        throw new PdfError("predictors of Flate are not read here");
      }
      data = await inflated(data, take);
    }
    return data;
  }

  /** The numbers of the objects that are JBIG2 images, in the file's order. */
  images() {
    const isImage = ([, object]) => object.begin !== undefined && this.#filters(object).includes(JBIG2);
    return this.#objects
      .all()
      .filter(isImage)
      .map(([number]) => number);
  }

  /** The stream of an image's globals, or null where it names none. */
  #globalsOf(object) {
    const named = this.#parameters(object).map(({ value }) => value?.get("/JBIG2Globals") ?? null);
    const globals = named.find((value) => value !== null) ?? null;
    if (globals === null) return null;
    const stream = this.#objects.referred(globals);
    if (stream?.begin === undefined) throw new PdfError("the image's globals are not in the file");
    return stream;
  }

  /** The bytes of globals, unpacked once. */
  #sharedData(object) {
    if (!this.#shared.has(object)) this.#shared.set(object, this.#data(object));
    return this.#shared.get(object);
  }

  /** The bytes of an image, and its globals' or null. */
  async streams(number) {
    const object = this.#objects.get(number);
    if (object?.begin === undefined) throw new PdfError(`the file has no stream ${number}`);
    const shared = this.#globalsOf(object);
    const globals = shared && (await this.#sharedData(shared));
    return { bytes: await this.#data(object), globals };
  }
}

/** Whether bytes begin as a PDF file does. */
export const isPdf = (bytes) => new TextDecoder("latin1").decode(bytesOf(bytes).subarray(0, 1024)).includes("%PDF-");
