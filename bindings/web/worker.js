/** Decodes the pages of one file after the other, apart from the page that shows them. */
import { Decoder, isFile } from "./hayro_jbig2.js";
import { Pdf, isPdf } from "./pdf.js";
import { SharedGlobals } from "./shared_globals.js";

let decoder;

/** An image of a PDF file: its name, and how to decode it. */
function imageOf(pdf, number, shared) {
  const decode = ({ bytes, globals }) => shared.decode(bytes, globals);
  return { name: `object ${number}`, decode: () => pdf.streams(number).then(decode) };
}

/** Decodes bytes that may be anything. */
function withHint(decode) {
  try {
    return decode();
  } catch (error) {
    if (error.error !== "FORMAT_MISSING_PAGE_INFO") throw error;
    throw new Error(`neither a JBIG2 file nor a PDF file; as an embedded page: ${described(error)}`);
  }
}

/** The pages of a file, or the images of a PDF file; what of the file could not be read; and what reading left out of it. */
async function contentsOf(bytes, options) {
  // A JBIG2 file may have the words of a PDF file within, as in a comment.
  if (!isFile(bytes) && isPdf(bytes)) {
    const pdf = await Pdf.open(bytes);
    const shared = new SharedGlobals(decoder, options);
    const pages = pdf.images().map((number) => imageOf(pdf, number, shared));
    return { kind: "image", pages, faults: pdf.faults, leftOut: () => null, close: () => shared.close() };
  }
  if (!isFile(bytes)) {
    const decode = () => withHint(() => decoder.decode(bytes, options));
    return { kind: "embedded page", pages: [{ decode }], faults: [], leftOut: () => null };
  }
  const file = decoder.open(bytes, options);
  const pages = Array.from({ length: file.pageCount }, (_, index) => ({ decode: () => file.decode(index) }));
  return { kind: "page", pages, faults: [], leftOut: () => file.leftOut, close: () => file.close() };
}

const described = (error) => (error.error ? `${error.error}: ${error.message}` : String(error.message ?? error));

const counted = (count, what) => `${count} ${what}${count === 1 ? "" : "s"}`;

/** A segment and its fault, as a text. */
function faultOf({ segment, error }) {
  return `${segment === null ? "" : `segment ${segment}, `}${described(error)}`;
}

const missing = (passedOver) => `${counted(passedOver.count, "segment")} missing or damaged (${faultOf(passedOver)})`;

/** What a page lacks, as a text; empty for a complete page. */
function lacking({ isComplete, passedOver, leftOut: { passedOver: shared, cutOff } }) {
  if (isComplete) return "";
  const lacks = [];
  if (passedOver.count) lacks.push(missing(passedOver));
  if (shared.count) lacks.push(`of what pages share, ${missing(shared)}`);
  if (cutOff && passedOver.count > 1) lacks.push(`the segments end early (${faultOf(cutOff)})`);
  return lacks.join("; ");
}

/** Whether what a page lacks says where its list of segments ends early, as `lacking` does. */
function saysEnd({ passedOver: { count, segment, error }, leftOut: { cutOff } }) {
  if (!cutOff || count === 0) return false;
  return count > 1 || (segment === cutOff.segment && error.number === cutOff.error.number);
}

/** What a file lacks that none of its pages says, as texts. `told` says of each page whether it says the end. */
function lackingOfFile({ pages, firstPage, cutOff }, told) {
  const lacks = pages ? [`${counted(pages, "page")} (${described(firstPage)})`] : [];
  return cutOff && !told.includes(true) ? [...lacks, `what comes from a segment on (${faultOf(cutOff)})`] : lacks;
}

/** Decodes a page and sends it to the page that shows it, or its error. Returns whether it says the end. */
async function show(label, decode) {
  try {
    const began = performance.now();
    const page = await decode();
    const milliseconds = performance.now() - began;
    const { width, height, rows } = page;
    postMessage({ ...label, width, height, rows, milliseconds, lacks: lacking(page) }, [rows.buffer]);
    return saysEnd(page);
  } catch (error) {
    postMessage({ ...label, error: described(error) });
    return false;
  }
}

/** Shows the pages of a file, in their order. After a call that didn't return no other page can be decoded. */
async function showPages(kind, pages) {
  const count = pages.length;
  const told = [];
  for (const [index, { name, decode }] of pages.entries()) {
    const number = index + 1;
    const label = { number, count, name: `${kind} ${number} of ${count}${name ? `, ${name}` : ""}` };
    postMessage({ begins: label });
    told.push(await show(label, decode));
    if (decoder.isBroken && number < count) {
      postMessage({ error: `left out of this file: ${counted(count - number, kind)} after it, since the decoder stopped` });
    }
    if (decoder.isBroken) break;
  }
  return told;
}

async function showFile({ bytes, salvage, isLimited }) {
  let close;
  try {
    if (decoder.isBroken) decoder = await loaded();
    const contents = await contentsOf(bytes, { salvage, workLimit: isLimited ? null : Infinity });
    const { kind, pages, faults } = contents;
    close = contents.close;
    // After the pages the decoder may be broken.
    const leftOut = contents.leftOut();
    const told = await showPages(kind, pages);
    const lacks = leftOut ? lackingOfFile(leftOut, told) : [];
    for (const fault of [...faults, ...lacks]) postMessage({ error: `left out of this file: ${fault}` });
    if (pages.length === 0 && !leftOut?.pages) postMessage({ error: "no JBIG2 page in this file" });
  } catch (error) {
    postMessage({ error: described(error) });
  }
  end(close);
  postMessage({ isDone: true });
}

/** Closes a file. Its pages are shown whether or not that succeeds. */
function end(close) {
  try {
    close?.();
  } catch (error) {
    console.error(error);
  }
}

const loaded = () => Decoder.load(fetch(new URL("hayro_jbig2.wasm", import.meta.url)));

// The page that shows them sends a file when the one before is done.
onmessage = ({ data }) => showFile(data);
try {
  decoder = await loaded();
  postMessage({ isReady: true });
} catch (error) {
  postMessage({ error: described(error) });
}
