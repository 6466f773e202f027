// The tab with the tokens: a table of which only the rows in sight are made.

import { count, milliseconds } from './figures.js';

/** So many rows are made before and after those in sight. */
const SPARE = 30;

export class Tokens {
  name = 'tokens';
  #panel;
  #scroll;
  #table;
  #body;
  #engine;
  #count = 0;
  #source;
  #shown = '';

  constructor(panel, source) {
    this.#panel = panel;
    this.#scroll = panel.querySelector('.scroll');
    this.#table = panel.querySelector('table');
    this.#body = panel.querySelector('tbody');
    this.#source = source;
    this.#scroll.addEventListener('scroll', () => this.#show());
    this.#body.addEventListener('click', ({ target }) => {
      const { start, end } = target.closest('tr').dataset;
      if (end) source.choose(Number(start), Number(end));
    });
    new ResizeObserver(() => this.#show()).observe(this.#scroll);
  }

  refresh() {}

  async update(engine, { comments }) {
    this.#engine = engine;
    const found = await engine.call('tokens', comments);
    this.#panel.classList.toggle('is-old', Boolean(found.fault));
    if (found.fault) return;
    this.#count = found.count;
    this.#table.ariaRowCount = String(found.count + 1);
    this.#shown = '';
    await this.#show();
    this.#panel.querySelector('.figures').textContent =
      `${count(found.count)} tokens in ${milliseconds(found.time)}`;
  }

  /** Makes the rows in sight, and a high empty one for those before and after them. */
  async #show() {
    if (this.#count === 0) {
      this.#body.replaceChildren();
      return;
    }
    const height = 1.5 * parseFloat(getComputedStyle(document.documentElement).fontSize);
    const first = Math.max(0, Math.floor(this.#scroll.scrollTop / height) - SPARE);
    const shown = Math.ceil(this.#scroll.clientHeight / height) + 2 * SPARE;
    const last = Math.min(this.#count, first + shown);
    if (this.#shown === `${first} ${last}`) return;
    this.#shown = `${first} ${last}`;
    const rows = await this.#engine.call('tokenRows', first, last);
    this.#body.replaceChildren(
      space(first * height),
      ...rows.map((row, at) => this.#row(row, first + at)),
      space((this.#count - last) * height),
    );
  }

  #row({ place, kind, text, start, end }, index) {
    const row = document.createElement('tr');
    row.ariaRowIndex = String(index + 2);
    Object.assign(row.dataset, { start, end });
    for (const part of [place, kind, text]) row.insertCell().textContent = part;
    return row;
  }
}

function space(height) {
  const row = document.createElement('tr');
  row.className = 'space';
  row.setAttribute('aria-hidden', 'true');
  row.insertCell().style.height = `${height}px`;
  return row;
}
