/** Loads pdf.js's decoder from conformance/out/pdf.js. */
import { existsSync } from "node:fs";
import { fileURLToPath } from "node:url";

const MODULE = new URL("../out/pdf.js/src/core/jbig2.js", import.meta.url);

export async function loadJbig2Image() {
  if (!existsSync(fileURLToPath(MODULE))) throw new Error("conformance/peers/pdfjs has to fetch pdf.js first");
  // What pdf.js would put in the place of missing objects of browsers comes from packages that the decoder doesn't need.
  globalThis._pdfjsCompatibilityChecked = true;
  return (await import(MODULE.href)).Jbig2Image;
}
