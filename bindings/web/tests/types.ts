// What users of the package write in TypeScript. It is compiled and not run. A line after `@ts-expect-error` has to be refused.
import { DecodedPage, Decoder, Jbig2Error, WorkLimitReached, isFile } from "hayro-jbig2";
import { Jbig2Image } from "hayro-jbig2/jbig2_image.js";
import { Pdf, PdfError, isPdf } from "hayro-jbig2/pdf.js";
import { pngOf } from "hayro-jbig2/png.js";

export async function pagesOf(bytes: ArrayBuffer): Promise<DecodedPage[]> {
  const decoder: Decoder = await Decoder.load(fetch("hayro_jbig2.wasm"), 2 ** 30);
  if (isPdf(bytes)) {
    const pdf = await Pdf.open(bytes);
    const streams = await Promise.all(pdf.images().map((number) => pdf.streams(number)));
    return streams.map(({ bytes, globals }) => decoder.decode(bytes, { globals, workLimit: Infinity }));
  }
  const count: number = isFile(bytes) ? decoder.pageCount(bytes, { salvage: true }) : 1;
  return Array.from({ length: count }, (_, page) => decoder.decode(new Uint8Array(bytes), { page, strict: true }));
}

export function pagesOfFile(decoder: Decoder, bytes: ArrayBuffer): [DecodedPage[], number] {
  const file = decoder.open(bytes, { salvage: true });
  try {
    return [Array.from({ length: file.pageCount }, (_, page) => file.decode(page)), file.leftOut.pages];
  } finally {
    file.close();
  }
}

export async function shown(page: DecodedPage): Promise<[ImageData, Uint8Array, string | undefined]> {
  const data = new ImageData(page.data, page.width, page.height);
  page.toRgba(data.data), page.toGray(new Uint8Array(page.width * page.height));
  return [data, await pngOf(page), page.isComplete ? undefined : page.leftOut.cutOff?.error.message ?? page.passedOver.error?.message];
}

export const described = (error: unknown): string => {
  if (error instanceof WorkLimitReached) return `too much work: ${error.number}`;
  if (error instanceof Jbig2Error) return error.error;
  return error instanceof PdfError ? error.message : "";
};

export async function asPdfJs(data: Uint8Array): Promise<Uint8ClampedArray> {
  await Jbig2Image.load(undefined, { salvage: true });
  const image = new Jbig2Image();
  return image.width > 0 ? image.parse(data) : image.parseChunks([{ data, start: 0, end: data.length }]);
}

export const again = (decoder: Decoder, { rows, width, height }: DecodedPage): Uint8Array =>
  decoder.encode(rows, width, height, { template: 1, typical: false, xResolution: 11811, yResolution: 11811, file: true });

export const byMmr = (decoder: Decoder, { rows, width, height }: DecodedPage): Uint8Array =>
  decoder.encode(rows, width, height, { coding: "mmr" });

export async function refused(decoder: Decoder): Promise<void> {
  // @ts-expect-error: a text is no bytes.
  decoder.decode("page.jb2");
  // @ts-expect-error: an index is a number.
  decoder.decode(new Uint8Array(), { page: "1" });
  // @ts-expect-error: there is no such coding.
  decoder.encode(new Uint8Array(1), 8, 1, { coding: "huffman" });
  // @ts-expect-error: a decoder is loaded.
  new Decoder();
}
