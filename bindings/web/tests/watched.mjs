/** Watches the calls of modules that are instantiated from here on. */

const instantiate = WebAssembly.instantiate;

/** How often each call was made. */
export const counts = new Map();

/** A call of this name doesn't return, once so many others of it have: null for none. */
export const trap = { name: null, after: 0 };

const watched = (name, call) =>
  (...words) => {
    counts.set(name, (counts.get(name) ?? 0) + 1);
    if (name === trap.name && trap.after-- === 0) throw new WebAssembly.RuntimeError("unreachable");
    return call(...words);
  };

WebAssembly.instantiate = async (...words) => {
  const made = await instantiate.apply(WebAssembly, words);
  const { exports } = made.instance ?? made;
  const calls = Object.entries(exports).map(([name, each]) => [name, typeof each === "function" ? watched(name, each) : each]);
  return { instance: { exports: Object.fromEntries(calls) } };
};

/** A file of small pages, which share nothing. */
export function fileOf(pageCount) {
  const number = (value) => value.toString(16).padStart(8, "0");
  const pages = Array.from({ length: pageCount }, (_, at) => {
    const info = `${number(2 * at)}7000${number(at + 1)}00000013${number(8 + (at % 100))}00000001${"00".repeat(11)}`;
    return `${info}${number(2 * at + 1)}7100${number(at + 1)}00000000`;
  });
  const head = `974A42320D0A1A0A01${number(pageCount)}`;
  return new Uint8Array(Buffer.from(`${head}${pages.join("")}${number(2 * pageCount)}33000000000000`, "hex"));
}
