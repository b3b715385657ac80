/** The objects of a PDF file (ISO 32000-1, 7.3.10), found by their words `N G obj` from the file's begin to its end. */

import { END, Lexer, NUMBER, WORD } from "./lexer.js";
import { Reference, isWhole, partCount, skipValue, valueAt } from "./values.js";

// With the arrays and dictionaries in them.
export const MOST_OBJECTS = 2 ** 20;

/** Objects by their numbers. Of several with one number, the one that comes last in the file counts. */
export class Objects {
  #byNumber = new Map();
  #count = 0;

  /** Adds an object: its `value`, the `place` of its words, and of a stream where its bytes `begin` and `end`. */
  add(number, object) {
    this.#count += 1 + partCount(object.value);
    const other = this.#byNumber.get(number);
    if (!other || other.place <= object.place) this.#byNumber.set(number, object);
  }

  get isFull() {
    return this.#count >= MOST_OBJECTS;
  }

  get(number) {
    return this.#byNumber.get(number);
  }

  /** The objects with their numbers, in the file's order. */
  all() {
    return [...this.#byNumber].sort(([, one], [, other]) => one.place - other.place);
  }

  /** The object that a value refers to, if it does. */
  referred(value) {
    return value instanceof Reference ? this.#byNumber.get(value.number) : undefined;
  }

  /** What a value refers to, or the value itself. */
  resolved(value) {
    return value instanceof Reference ? this.referred(value)?.value : value;
  }

  /** The value of a key of an object's dictionary. */
  valueOf({ value: dictionary }, key) {
    return dictionary instanceof Map ? this.resolved(dictionary.get(`/${key}`)) : undefined;
  }
}

/** One reading of a file. */
class Scan {
  objects = new Objects();
  isEncrypted = false;
  // Streams whose length was not to be had, or was wrong.
  #searched = [];

  /** `known`: the objects of an earlier reading, since a stream's length may stand after it. */
  constructor(bytes, known = null) {
    this.lexer = new Lexer(bytes);
    this.lengths = known ?? this.objects;
  }

  run() {
    // The last words, where they are numbers, with their places.
    let numbers = [];
    while (!this.objects.isFull && this.lexer.nextOutside() !== END) {
      const { kind, value, begin } = this.lexer;
      if (kind === NUMBER) {
        numbers = [...numbers.slice(-1), { value, begin }];
        continue;
      }
      if (value === "obj" && numbers.length === 2 && isWhole(numbers[0].value)) this.#addObject(numbers[0]);
      else if (value === "trailer") this.#noteEncryption(valueAt(this.lexer));
      numbers = [];
    }
    return this;
  }

  #addObject({ value: number, begin: place }) {
    const { lexer } = this;
    const object = { place, value: valueAt(lexer) };
    skipValue(lexer);
    if (lexer.next() === WORD && lexer.value === "stream") this.#addStream(object);
    else lexer.putBack();
    this.objects.add(number, object);
    if (this.objects.valueOf(object, "Type") === "/XRef") this.#noteEncryption(object.value);
  }

  /** Where a stream ends by its length among these objects, or NaN. Making a number of an array would take long. */
  #endByLength(object, objects) {
    const length = objects.valueOf(object, "Length");
    return isWhole(length) ? object.begin + length : NaN;
  }

  /** Finds the end of a stream: by its length, where `endstream` follows there, else by that word. */
  #addStream(object) {
    const { lexer } = this;
    object.begin = lexer.enterStream();
    object.end = this.#endByLength(object, this.lengths);
    if (!(object.end >= object.begin && lexer.hasEndOfStream(object.end))) {
      object.end = lexer.placeOfEnd();
      this.#searched.push(object);
    }
    lexer.place = object.end;
  }

  /** Looks at the dictionary of a table of references. */
  #noteEncryption(dictionary) {
    if (dictionary instanceof Map && (dictionary.get("/Encrypt") ?? null) !== null) this.isEncrypted = true;
  }

  /**
   * Whether a stream is longer than it was read, by a length that came after it. What else it has may look like
   * objects.
   */
  get hasCutStream() {
    const isCut = (object) => {
      const end = this.#endByLength(object, this.objects);
      return end > object.end && this.lexer.hasEndOfStream(end);
    };
    return this.#searched.some(isCut);
  }
}

/** The objects of a file, and whether it is encrypted. */
export function scanned(bytes) {
  const scan = new Scan(bytes).run();
  return scan.hasCutStream ? new Scan(bytes, scan.objects).run() : scan;
}
