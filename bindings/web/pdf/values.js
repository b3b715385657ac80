/** The values of PDF (ISO 32000-1, 7.3), as far as finding images needs them. */

import { END, NAME, NUMBER, STRING, WORD } from "./lexer.js";

// The keys of dictionaries that are looked at here. What others have is dropped at once.
const KEYS = new Set(
  "/Type /Filter /DecodeParms /Length /N /First /JBIG2Globals /Predictor /Encrypt".split(" "),
);
// Image dictionaries have a few dozen words. An object of more words, or with more brackets open, is passed over.
const MOST_WORDS = 4096;
const MOST_OPEN = 64;
// Of an array that is kept. Lists of filters and of their parameters have a few.
const MOST_ITEMS = 16;
const CONSTANTS = new Map([["true", true], ["false", false], ["null", null]]);
const AFTER_VALUE = new Set(["obj", "endobj", "stream", "endstream", "trailer", "xref", "startxref"]);

export class Reference {
  constructor(number) {
    this.number = number;
  }
}

export const isWhole = (value) => Number.isSafeInteger(value) && value >= 0;

const isAfterValue = ({ kind, value }) => kind === END || (kind === WORD && AFTER_VALUE.has(value));

/** A dictionary of the keys that are looked at. */
function dictionaryOf(items) {
  const dictionary = new Map();
  for (let place = 0; place + 1 < items.length; ) {
    const [key, value] = [items[place], items[place + 1]];
    // What is no name can't be a key: the next one may be.
    place += typeof key === "string" ? 2 : 1;
    if (KEYS.has(key)) dictionary.set(key, value);
  }
  return dictionary;
}

/** Puts a reference in the place of its two numbers. */
function refer(items) {
  const [number, generation] = items.slice(-2);
  if (!isWhole(number) || !isWhole(generation)) return;
  items.length -= 2;
  items.push(new Reference(number));
}

/**
 * The value at a lexer's place: a number, a name as a text with its slash, a `Reference`, an array, a dictionary as a
 * Map, or null for what nobody needs here. Of an array only the first items are kept. A value ends at a word that comes
 * after it, which is put back, or with the bytes. One that is too long is null, and the lexer stays in it.
 */
export function valueAt(lexer) {
  const open = [{ items: [] }];
  const close = () => {
    const { kind, items } = open.pop();
    open.at(-1).items.push(kind === "<<" ? dictionaryOf(items) : items.slice(0, MOST_ITEMS));
  };
  for (let words = 0; words < MOST_WORDS && open.length <= MOST_OPEN; words++) {
    const kind = lexer.next();
    const { items } = open.at(-1);
    if (isAfterValue(lexer)) {
      lexer.putBack();
      while (open.length > 1) close();
      return open[0].items[0] ?? null;
    }
    if (kind === NUMBER || kind === NAME || kind === STRING) items.push(lexer.value);
    else if (kind === "<<" || kind === "[") open.push({ kind, items: [] });
    else if (kind === ">>" || kind === "]") open.length > 1 && close();
    else if (kind === WORD && lexer.value === "R") refer(items);
    else if (kind === WORD) items.push(CONSTANTS.get(lexer.value) ?? null);
  }
  return null;
}

/** Goes on to the end of a value, if the lexer isn't there. */
export function skipValue(lexer) {
  do lexer.next();
  while (!isAfterValue(lexer));
  lexer.putBack();
}

/** How many arrays and dictionaries a value has. */
export function partCount(value) {
  if (value instanceof Map) value = [...value.values()];
  return Array.isArray(value) ? value.reduce((count, part) => count + partCount(part), 1) : 0;
}
