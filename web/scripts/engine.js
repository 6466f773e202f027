// The library in a worker: calls that return promises.

export class Engine {
  #worker = new Worker(new URL('worker.js', import.meta.url), { type: 'module' });
  #waiting = new Map();
  #next = 0;

  constructor() {
    this.#worker.addEventListener('message', ({ data }) => {
      const { resolve, reject } = this.#waiting.get(data.id);
      this.#waiting.delete(data.id);
      if (data.failed) reject(new Error(data.failed));
      else resolve(data.value);
    });
    this.#worker.addEventListener('error', (event) => this.#fail(event.message));
  }

  /** What the function `name` of the worker returns. */
  call(name, ...args) {
    const id = this.#next++;
    return new Promise((resolve, reject) => {
      this.#waiting.set(id, { resolve, reject });
      this.#worker.postMessage({ id, name, args });
    });
  }

  #fail(message) {
    for (const { reject } of this.#waiting.values()) {
      reject(new Error(message ?? 'the worker does not start'));
    }
    this.#waiting.clear();
  }
}
