/** What is read once for several pages. */

class Opened {
  #draw;
  #tell;
  #close;

  /** `draw` decodes a page, `tell` says what was left out, and `close` frees what is held for it. */
  constructor(draw, tell, close) {
    [this.#draw, this.#tell, this.#close] = [draw, tell, close];
  }

  /**
   * Decodes a page, as `Decoder.decode` does.
   * @returns {DecodedPage}
   * @throws {WorkLimitReached | Jbig2Error}
   */
  decode(page) {
    this.#check();
    return this.#draw(page);
  }

  /** What reading left out, as `DecodedPage.leftOut`. */
  get leftOut() {
    this.#check();
    return this.#tell();
  }

  #check() {
    if (!this.#close) throw new Error("this is closed already");
  }

  /** Frees what is held. To call it again does nothing. */
  close() {
    const close = this.#close;
    this.#close = null;
    close?.();
  }
}

/** A file that `Decoder.open` has read. `decode` takes the index of a page, from 0, below `pageCount`. */
export class OpenFile extends Opened {}

/** Globals that `Decoder.openGlobals` has read. `decode` takes the bytes of an embedded page. */
export class OpenGlobals extends Opened {}
