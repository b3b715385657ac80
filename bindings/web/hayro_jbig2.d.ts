/** The bytes of an ArrayBuffer, or of any view of one. */
export type Bytes = ArrayBuffer | SharedArrayBuffer | ArrayBufferView;

/** The module hayro_jbig2.wasm. */
export type ModuleSource = Bytes | Response | WebAssembly.Module;

/** Why a page is not decoded: `number` and `error` as in hayro_jbig2.h, and its text, or another one, as `message`. */
export class Jbig2Error extends Error {
  constructor(number: number, message?: string);
  readonly number: number;
  /** The name of the number, as "FORMAT_MISSING_PAGE_INFO". */
  readonly error: string;
}

/** A page, or what pages share, asks for more work than the limit allows. `error` is "WORK_LIMIT_REACHED". */
export class WorkLimitReached extends Jbig2Error {
  constructor(limit: number);
}

/**
 * What a page, or what pages share, lacks: segments that are cut off, and those that strict reading refuses, also where
 * they are drawn or kept. Their count, and the number and the error of the first.
 */
export interface PassedOver {
  count: number;
  /** Null where there is none, or where the bytes end within it. */
  segment: number | null;
  error: Jbig2Error | null;
}

/** What reading left out besides what was passed over in the page. */
export interface LeftOut {
  /** Of segments that pages share. */
  passedOver: PassedOver;
  /**
   * How many pages of the file can't begin, with the error of the first. Salvage leaves them out. Where these are all,
   * that error is thrown for page 0.
   */
  pages: number;
  firstPage: Jbig2Error | null;
  /** The segment at which a list of segments ends early; its number is null where it isn't known. */
  cutOff: { segment: number | null; error: Jbig2Error } | null;
}

/** A page as packed rows, and as the other forms that they can be had in. */
export class DecodedPage {
  constructor(width: number, height: number, rows: Uint8Array, lacks: Pick<DecodedPage, "passedOver" | "leftOut">);
  readonly width: number;
  readonly height: number;
  /** A bit for each pixel, 1 is black, the leftmost the highest of its byte; (width + 7) >> 3 bytes a row. */
  readonly rows: Uint8Array;
  /**
   * Whether nothing is known to be missing: no segment of the page is cut off, and strict reading refuses none; nor of
   * its globals, or of what the pages of its file share. Of globals that are cut off a page lacks something only if it
   * refers to the segment that is. Damage within arithmetic data can't be known. Not counted are a file's counts of pages
   * and of ends of pages, an unknown length of another type than 38, a region of page 0, and segments that are missing
   * as a whole.
   */
  readonly isComplete: boolean;
  readonly passedOver: PassedOver;
  readonly leftOut: LeftOut;
  /** The pixels as ImageData has them, made when they are asked for first. */
  readonly data: Uint8ClampedArray;
  /** The pixels as ImageData has them: in `given`, which is an array of their size, or in a new one. */
  toRgba(given?: Uint8ClampedArray | null): Uint8ClampedArray;
  /** A byte for each pixel, 0 is black, 255 is white: in `given`, which is an array of their size, or in a new one. */
  toGray(given?: Uint8Array | null): Uint8Array;
}

export interface WorkOptions {
  /**
   * The most units of work, for a page and for what it shares with others, or Infinity. Where it isn't given: 100 for
   * each pixel of the page, 2^24 at least, and 2^28 for what pages share.
   */
  workLimit?: number | null;
}

export interface ReadingOptions extends WorkOptions {
  /** The first fault is thrown. */
  strict?: boolean;
  /** What is left of damaged data is read. `strict` means nothing then. */
  salvage?: boolean;
}

export interface DecodeOptions extends ReadingOptions {
  /** The globals of an embedded page. */
  globals?: Bytes | null;
  /** The index of a page of a file, from 0. An embedded page is page 0. */
  page?: number;
}

export interface EncodeOptions {
  /** The arithmetic coder is the default. MMR data (T.6) mostly takes more bytes; pages of text are decoded in less time. */
  coding?: "arithmetic" | "mmr";
  /** For the arithmetic coder, which pixels predict a pixel: 0, which is the default, to 3. */
  template?: number;
  /** For the arithmetic coder, whether a row that is as the one above it takes one decision. It is so by default. */
  typical?: boolean;
  /** Pixels for each metre; 0 states none. */
  xResolution?: number;
  yResolution?: number;
  /** A file of one page is written, and not an embedded page. */
  file?: boolean;
}

/** Whether bytes begin as a JBIG2 file does. Other bytes are those of an embedded page, as PDF has them. */
export function isFile(source: Bytes): boolean;

/** A file that `Decoder.open` has read, until it is closed. */
export class OpenFile {
  private constructor();
  /** How many pages the file has. */
  readonly pageCount: number;
  /** What was left out of the file. */
  readonly leftOut: LeftOut;
  /**
   * Decodes a page by its index from 0.
   * @throws {WorkLimitReached | Jbig2Error | TypeError}
   */
  decode(page: number): DecodedPage;
  /** Frees what the file holds. A file may be closed again. */
  close(): void;
}

/** Globals that `Decoder.openGlobals` has read, until they are closed. */
export class OpenGlobals {
  private constructor();
  /** What was left out of them. */
  readonly leftOut: LeftOut;
  /**
   * Decodes an embedded page.
   * @throws {WorkLimitReached | Jbig2Error | TypeError}
   */
  decode(bytes: Bytes): DecodedPage;
  /** Frees what they hold. They may be closed again. */
  close(): void;
}

/** A loaded decoder. One page is decoded at a time; several may be loaded, in workers of their own. */
export class Decoder {
  private constructor();
  /**
   * Loads the module.
   * @param source the module; that beside this file where it isn't given (in Node from 20.16 on)
   * @param most the most bytes of memory that decoding may take
   */
  static load(source?: ModuleSource | Promise<ModuleSource>, most?: number): Promise<Decoder>;
  /** How many bytes of the module's memory are in use: none between two calls, but for what is open. */
  readonly held: number;
  /** Whether a call didn't return, as where the module's stack is used up. Only another decoder goes on then. */
  readonly isBroken: boolean;
  /**
   * Reads a file once, for several of its pages. It takes memory until it is closed.
   * @throws {WorkLimitReached | Jbig2Error | TypeError}
   */
  open(bytes: Bytes, options?: ReadingOptions): OpenFile;
  /**
   * Reads globals once, for several embedded pages. They take memory until they are closed.
   * @throws {WorkLimitReached | Jbig2Error | TypeError}
   */
  openGlobals(bytes: Bytes, options?: ReadingOptions): OpenGlobals;
  /** How many pages a file has. */
  pageCount(bytes: Bytes, options?: ReadingOptions): number;
  /**
   * Decodes a page of a file, or an embedded page with its globals.
   * @throws {WorkLimitReached | Jbig2Error | TypeError}
   */
  decode(bytes: Bytes, options?: DecodeOptions): DecodedPage;
  /**
   * Writes packed rows, as `DecodedPage.rows` has them, as an embedded page or a file.
   * @throws {Jbig2Error | TypeError}
   */
  encode(rows: Bytes, width: number, height: number, options?: EncodeOptions): Uint8Array;
}
