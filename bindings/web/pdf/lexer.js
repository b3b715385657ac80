/**
 * The words of a PDF file's syntax (ISO 32000-1, 7.2 and 7.3) over its bytes, one after the other.
 *
 * Reading all of n bytes takes a time in proportion to n: no byte is read again, but for strings that never close.
 */

const isWhite = new Uint8Array(256);
for (const byte of [0, 9, 10, 12, 13, 32]) isWhite[byte] = 1;
const isDelimiter = new Uint8Array(256);
for (const character of "()<>[]{}/%") isDelimiter[character.charCodeAt(0)] = 1;
const isRegular = isWhite.map((white, byte) => (white || isDelimiter[byte] ? 0 : 1));
const isHexadecimal = new Uint8Array(256);
for (const character of "0123456789ABCDEFabcdef") isHexadecimal[character.charCodeAt(0)] = 1;

const bytesOf = (text) => Uint8Array.from(text, (character) => character.charCodeAt(0));
const [TAB, LINE_FEED, CARRIAGE_RETURN, SPACE] = bytesOf("\t\n\r ");
const [HASH, PERCENT, OPEN, CLOSE, SLASH, LESS, GREATER, BACKSLASH] = bytesOf("#%()/<>\\");
const END_OF_OBJECT = bytesOf("endobj");
const END_OF_STREAM = bytesOf("endstream");
const END_OF_FILE = bytesOf("%%EOF");
const ZERO = "0".charCodeAt(0);
// No word that means something is longer.
const LONGEST_WORD = 32;
// Nor any name, with its escapes. Of a longer one this much is kept.
const LONGEST_NAME = 256;
const SHORT_TEXT = 12;
// Where strings don't close again and again, each is sought less far, but at least as far as this.
const SHORTEST_REACH = 1024;

/** What `kind` says of the word that was read last. A bracket is a kind of its own: "[", "]", "<<", ">>". */
export const [END, NUMBER, NAME, STRING, WORD] = ["end", "number", "name", "string", "word"];

export class Lexer {
  #reach;
  // Where the last two words before this one begin, where they are numbers; else -1.
  #numbers = [-1, -1];

  constructor(bytes, place = 0, end = bytes.length) {
    // What searches for a byte looks no further than the end.
    this.bytes = end < bytes.length ? bytes.subarray(0, end) : bytes;
    this.place = place;
    this.end = end;
    this.begin = place;
    this.kind = END;
    this.value = null;
    this.#reach = end - place;
  }

  /**
   * Reads a word inside of an object. Its kind, and what it means: a number, a name with its slash, or a word's text.
   */
  next() {
    this.#skipWhite();
    const byte = this.#start();
    if (byte < 0 || isRegular[byte]) return this.kind;
    if (byte === SLASH) return this.#set(NAME, this.#name());
    if (byte === OPEN) return this.#string();
    if (byte === LESS && this.bytes[this.place] !== LESS) return this.#hexadecimal();
    const isDoubled = (byte === LESS || byte === GREATER) && this.bytes[this.place] === byte && this.place < this.end;
    if (isDoubled) this.place++;
    return this.#set(String.fromCharCode(byte).repeat(isDoubled ? 2 : 1), null);
  }

  /** Reads a word between two objects, where brackets and strings mean nothing. */
  nextOutside() {
    this.#skipWhite(END_OF_FILE);
    const byte = this.#start();
    return byte < 0 || isRegular[byte] ? this.kind : this.#set(WORD, "");
  }

  /** Puts back the word that was read last, and with `obj` the numbers before it. */
  putBack() {
    const first = this.#numbers[0];
    this.place = this.kind === WORD && this.value === "obj" && first >= 0 ? first : this.begin;
    this.kind = END;
  }

  /** Goes to where the bytes of a stream begin, after the word `stream`. */
  enterStream() {
    let place = this.place;
    while (this.bytes[place] === SPACE || this.bytes[place] === TAB) place++;
    const isReturn = this.bytes[place] === CARRIAGE_RETURN;
    if (isReturn) place++;
    if (this.bytes[place] === LINE_FEED) this.place = place + 1;
    else if (isReturn) this.place = place;
    return this.place;
  }

  /** Whether `endstream` follows at a place, perhaps after the end of a line. */
  hasEndOfStream(place) {
    const most = Math.min(place + 16, this.end);
    while (place < most && isWhite[this.bytes[place]]) place++;
    return this.#has(END_OF_STREAM, place);
  }

  /**
   * The place of the next `endstream` or `endobj`, without the end of the line before it; the end where there is none.
   */
  placeOfEnd() {
    let place = this.#found(this.place, [END_OF_STREAM, END_OF_OBJECT]);
    if (place === this.end) return place;
    if (place > this.place && this.bytes[place - 1] === LINE_FEED) place--;
    if (place > this.place && this.bytes[place - 1] === CARRIAGE_RETURN) place--;
    return place;
  }

  /**
   * Begins a word: the byte that it begins with, or -1 at the end. Where that byte is a regular one, reads the word.
   */
  #start() {
    this.#numbers[0] = this.kind === NUMBER ? this.#numbers[1] : -1;
    this.#numbers[1] = this.kind === NUMBER ? this.begin : -1;
    this.begin = this.place;
    if (this.place >= this.end) {
      this.#set(END, null);
      return -1;
    }
    const byte = this.bytes[this.place];
    if (isRegular[byte]) this.#word();
    else this.place++;
    return byte;
  }

  #set(kind, value) {
    this.value = value;
    return (this.kind = kind);
  }

  #has(word, place) {
    return place + word.length <= this.end && word.every((byte, at) => this.bytes[place + at] === byte);
  }

  /** The first place from here on where one of some words stands that begin with the same byte, or the end. */
  #found(place, words) {
    for (; place < this.end; place++) {
      place = this.bytes.indexOf(words[0][0], place);
      if (place < 0 || place >= this.end) break;
      if (words.some((word) => this.#has(word, place))) return place;
    }
    return this.end;
  }

  /** Skips white space and comments. A comment that begins with `until` ends with it. */
  #skipWhite(until = null) {
    const { bytes, end } = this;
    let place = this.place;
    for (; place < end; place++) {
      const byte = bytes[place];
      if (isWhite[byte]) continue;
      if (byte !== PERCENT) break;
      if (until && this.#has(until, place)) place += until.length - 1;
      else while (place + 1 < end && bytes[place] !== LINE_FEED && bytes[place] !== CARRIAGE_RETURN) place++;
    }
    this.place = place;
  }

  /** A number or another word. `endobj` and `endstream` end where they end, whatever follows. */
  #word() {
    const { bytes, end, begin } = this;
    if (bytes[begin] === END_OF_OBJECT[0]) {
      const word = [END_OF_OBJECT, END_OF_STREAM].find((word) => this.#has(word, begin));
      if (word) return this.#wordUpTo(begin + word.length);
    }
    let place = begin;
    let number = 0;
    let areDigits = true;
    for (; place < end && isRegular[bytes[place]]; place++) {
      const digit = bytes[place] - ZERO;
      if (digit >= 0 && digit <= 9) number = 10 * number + digit;
      else areDigits = false;
    }
    if (!areDigits) return this.#wordUpTo(place);
    this.place = place;
    return this.#set(NUMBER, number);
  }

  #wordUpTo(end) {
    this.place = end;
    const text = end - this.begin > LONGEST_WORD ? "" : this.#text(this.begin, end);
    return /^[-+]?(\d+\.?\d*|\.\d+)$/.test(text) ? this.#set(NUMBER, Number(text)) : this.#set(WORD, text);
  }

  /** Bytes as a text. A long one that grew by characters would take some 30 bytes for each. */
  #text(begin, end) {
    if (end - begin > SHORT_TEXT) return String.fromCharCode.apply(null, this.bytes.subarray(begin, end));
    let text = "";
    for (let place = begin; place < end; place++) text += String.fromCharCode(this.bytes[place]);
    return text;
  }

  /** The rest of a name, with a slash. Two digits after `#` stand for a byte. */
  #name() {
    while (this.place < this.end && isRegular[this.bytes[this.place]]) this.place++;
    const end = Math.min(this.place, this.begin + LONGEST_NAME);
    const text = this.#text(this.begin, end);
    if (!this.bytes.subarray(this.begin, end).includes(HASH)) return text;
    return text.replace(/#([0-9A-Fa-f]{2})/g, (_, digits) => String.fromCharCode(parseInt(digits, 16)));
  }

  /** A string in parentheses, whose text nobody needs here. One that never closes ends with its object. */
  #string() {
    const end = Math.min(this.place + this.#reach, this.end);
    let depth = 1;
    for (let place = this.place; place < end; place++) {
      const byte = this.bytes[place];
      if (byte === BACKSLASH) place++;
      else if (byte === OPEN) depth++;
      else if (byte === CLOSE && --depth === 0) {
        this.place = place + 1;
        return this.#set(STRING, null);
      }
    }
    this.#reach = Math.max(this.#reach >> 1, SHORTEST_REACH);
    this.place = this.#found(this.place, [END_OF_OBJECT]);
    return this.#set(STRING, null);
  }

  /** A string of hexadecimal digits, up to its end or the first other byte. */
  #hexadecimal() {
    const { bytes, end } = this;
    while (this.place < end && (isHexadecimal[bytes[this.place]] || isWhite[bytes[this.place]])) this.place++;
    if (this.place < end && bytes[this.place] === GREATER) this.place++;
    return this.#set(STRING, null);
  }
}
