/**
 * As documents.c by calls on bytes, by the module of bindings/web/: after ten pages, by which V8 has compiled it.
 *
 * usage: node documents_module.mjs 1 PAGES GLOBALS STREAM OUT
 */
import { readFileSync, writeFileSync } from "node:fs";
import { Decoder } from "../../bindings/web/hayro_jbig2.js";

const [pages, ...files] = process.argv.slice(3);
const [shared, stream] = files.slice(0, 2).map((name) => new Uint8Array(readFileSync(name)));
const WARM = 10;
const decoder = await Decoder.load();
const draw = () => decoder.decode(stream, { globals: shared, workLimit: Infinity });

let first;
for (let page = 0; page < WARM; page++) first = draw();
const [began, before] = [process.hrtime.bigint(), process.cpuUsage()];
for (let page = 0; page < Number(pages); page++) {
  if (Buffer.compare(draw().rows, first.rows) !== 0) throw new Error("another page");
}
const { user, system } = process.cpuUsage(before);
console.log(Number(process.hrtime.bigint() - began) / 1e9, (user + system) / 1e6);
writeFileSync(files[2], Buffer.concat([Buffer.from(`P4\n${first.width} ${first.height}\n`), first.rows]));
