import { ModuleSource, ReadingOptions } from "./hayro_jbig2.js";

/** The decoder with the interface of pdf.js's class of this name. */
export class Jbig2Image {
  /** Loads the decoder for all images, before the first. */
  static load(source?: ModuleSource | Promise<ModuleSource>, options?: ReadingOptions): Promise<void>;
  /** The size of the image that was decoded last. */
  width: number;
  height: number;
  /**
   * The packed rows of an image of a PDF file, 1 is black. Of its chunks the last is the image, those before it its
   * globals.
   */
  parseChunks(chunks: { data: Uint8Array; start: number; end: number }[]): Uint8ClampedArray;
  /** The first page of a file, a byte for each pixel: 0 is black, 255 is white. */
  parse(data: Uint8Array): Uint8ClampedArray;
}
