// What is shown follows what is typed: one call of the worker at a time, always of the last text.

/** A source of more lines is read once nothing was typed for a while: its results are long too. */
const LONG = 5_000;
const WHILE = 250;

export class Updates {
  #engine;
  #page;
  #started;
  #runs = false;
  #asked = false;
  #timer;

  /** `page` has source(), lineCount(), result(), options(), onVerdict(text, fault) and
   * onFailure(error). */
  constructor(engine, page) {
    this.#engine = engine;
    this.#page = page;
    this.#started = engine.call('start');
  }

  request() {
    clearTimeout(this.#timer);
    this.#timer = setTimeout(() => this.#run(), this.#page.lineCount() > LONG ? WHILE : 0);
  }

  async #run() {
    this.#asked = true;
    if (this.#runs) return;
    this.#runs = true;
    try {
      await this.#started;
      while (this.#asked) {
        this.#asked = false;
        await this.#once();
      }
    } catch (error) {
      this.#page.onFailure(error);
    } finally {
      this.#runs = false;
    }
  }

  async #once() {
    const text = this.#page.source();
    const fault = await this.#engine.call('load', text);
    this.#page.onVerdict(text, fault);
    await this.#page.result().update(this.#engine, this.#page.options());
  }
}
