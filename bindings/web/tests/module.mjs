/** The module's bytes. Node before 20.16 can't load them by itself. */
import { readFileSync } from "node:fs";

export const module = readFileSync(new URL("../hayro_jbig2.wasm", import.meta.url));
