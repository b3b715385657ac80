/**
 * Files that workers decode, one after the other. Where a file takes long, the next one begins beside it. One that takes
 * too long, or that a user stops, ends its worker.
 */

// A file that has taken so many milliseconds holds up no other.
const PATIENCE = 2000;
const MOST_AT_ONCE = 4;

/** A worker, and the promise that it has loaded the decoder. */
function startedWorker() {
  const worker = new Worker(new URL("worker.js", import.meta.url), { type: "module" });
  const loaded = new Promise((resolve, reject) => {
    const fail = (text) => reject(new Error(`the decoder could not be loaded: ${text}`));
    worker.onmessage = ({ data }) => (data.isReady ? resolve() : fail(data.error));
    worker.onerror = (event) => fail(event.message ?? "no module workers");
  });
  loaded.catch(() => {});
  return { worker, loaded };
}

/** The bytes of a file. A folder that is dropped is a file too, which can't be read. */
async function bytesOfFile(file) {
  try {
    return await file.arrayBuffer();
  } catch (error) {
    throw new Error(`this can't be read (${error.message}); is it a folder?`);
  }
}

/** Has a worker decode a file, and hands each page to its section. */
async function decode(file, { seconds, ...options }, { worker, loaded }, section) {
  const bytes = await bytesOfFile(file);
  await loaded;
  await new Promise((resolve, reject) => {
    let timer;
    const isLate = () => reject(new Error(`stopped, since a page took more than ${seconds} seconds`));
    const watch = () => (clearTimeout(timer), (timer = setTimeout(isLate, 1000 * seconds)));
    worker.onmessage = ({ data }) => {
      watch();
      if (data.isDone) clearTimeout(timer), resolve();
      else section.page(data);
    };
    worker.onerror = (event) => reject(new Error(`the decoder stopped: ${event.message}`));
    watch();
    worker.postMessage({ bytes, ...options }, [bytes]);
  });
}

export class FileQueue {
  #waiting = [];
  /** The files that are decoded: the name of each, how to stop it, and whether it takes long. */
  #running = new Set();
  /** A worker that is done with its file, if there is one. */
  #spare = null;
  #show;

  /**
   * @param show what is called as files are decoded: `begin(file, stop)`, which returns the file's section, with `page(data)`
   *   for what the worker sends, `fail(text)` and `end()`; and `change(running, waiting)` with the names of the files that
   *   are decoded and the number of those that wait
   */
  constructor(show) {
    this.#show = show;
  }

  /** Adds a file. `options`: whether to `salvage`, whether work `isLimited`, and the most `seconds` for a page. */
  add(file, options) {
    this.#waiting.push([file, options]);
    this.#goOn();
  }

  /** Stops the files that are decoded, and those that wait. */
  stopAll() {
    this.#waiting = [];
    for (const { stop } of this.#running) stop();
  }

  /** Begins with files that wait, unless one runs that is quick so far. */
  #goOn() {
    const isFree = () => this.#running.size < MOST_AT_ONCE && [...this.#running].every(({ isSlow }) => isSlow);
    while (this.#waiting.length > 0 && isFree()) this.#run(...this.#waiting.shift());
    this.#show.change([...this.#running].map(({ name }) => name), this.#waiting.length);
  }

  /** Decodes a file until it is done, fails or is stopped. Only a worker that is done is used again. */
  async #run(file, options) {
    const run = { name: file.name, isSlow: false };
    const stopped = new Promise((_, reject) => (run.stop = () => reject(new Error("stopped"))));
    const timer = setTimeout(() => ((run.isSlow = true), this.#goOn()), PATIENCE);
    this.#running.add(run);
    const section = this.#show.begin(file.name, run.stop);
    let started = null;
    try {
      started = this.#spare ?? startedWorker();
      this.#spare = null;
      await Promise.race([decode(file, options, started, section), stopped]);
      if (this.#spare) started.worker.terminate();
      else this.#spare = started;
    } catch (error) {
      section.fail(error.message);
      started?.worker.terminate();
    }
    clearTimeout(timer);
    section.end();
    this.#running.delete(run);
    this.#goOn();
  }
}
