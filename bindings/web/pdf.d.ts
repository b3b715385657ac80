import { Bytes } from "./hayro_jbig2.js";

/** Why a PDF file, or an image in it, is not read. */
export class PdfError extends Error {}

/** A PDF file. */
export class Pdf {
  private constructor();
  /**
   * Reads a file.
   * @throws {PdfError} where it is encrypted
   */
  static open(bytes: Bytes): Promise<Pdf>;
  /** What could not be read of the file, as texts. */
  readonly faults: string[];
  /** The numbers of the objects that are JBIG2 images, in the file's order. */
  images(): number[];
  /**
   * The bytes of an image, and its globals' or null.
   * @throws {PdfError}
   */
  streams(number: number): Promise<{ bytes: Uint8Array; globals: Uint8Array | null }>;
}

/** Whether bytes begin as a PDF file does. */
export function isPdf(bytes: Bytes): boolean;
