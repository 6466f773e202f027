// The tab with the syntax tree: rows that open, of which the worker is asked when they do.

import { milliseconds } from './figures.js';

/** So many rows of a list are added at once. */
const STEP = 200;

const ROW = '[role="treeitem"]';

export class Tree {
  name = 'tree';
  #panel;
  #place;
  #engine;
  #source;
  #facts = new WeakMap();

  constructor(panel, source) {
    this.#panel = panel;
    this.#place = panel.querySelector('[role="tree"]');
    this.#source = source;
    this.#place.addEventListener('click', ({ target }) => this.#press(target.closest(ROW)));
    this.#place.addEventListener('keydown', (event) => this.#move(event));
  }

  refresh() {}

  async update(engine) {
    this.#engine = engine;
    const found = await engine.call('tree');
    this.#panel.classList.toggle('is-old', Boolean(found.fault));
    if (found.fault) return;
    const root = this.#row({ ...found.root, key: null }, [], 0);
    this.#place.replaceChildren(root);
    root.tabIndex = 0;
    await this.#open(root);
    const lists = [...this.#place.children].filter((row) => row.ariaLevel === '2');
    for (const row of lists) await this.#open(row);
    this.#panel.querySelector('.figures').textContent = `Read in ${milliseconds(found.time)}`;
  }

  #row({ name, kind, text, open, span }, path, depth) {
    const row = document.createElement('div');
    row.role = 'treeitem';
    row.tabIndex = -1;
    row.ariaLevel = String(depth + 1);
    row.ariaSelected = 'false';
    row.style.setProperty('--depth', depth);
    if (open) row.ariaExpanded = 'false';
    for (const [style, part] of [['field-name', name], ['kind', kind], ['value', text]]) {
      if (part) row.append(styled(style, part), ' ');
    }
    this.#facts.set(row, { path, depth, span });
    return row;
  }

  #press(row) {
    if (!row) return;
    this.#choose(row);
    if (row.dataset.from) this.#addMore(row);
    else if (row.ariaExpanded === 'true') this.#close(row);
    else if (row.ariaExpanded === 'false') this.#open(row);
  }

  #choose(row) {
    for (const other of this.#place.querySelectorAll('[tabindex="0"]')) {
      other.tabIndex = -1;
      other.ariaSelected = 'false';
    }
    row.tabIndex = 0;
    row.ariaSelected = 'true';
    row.focus();
    const { span } = this.#facts.get(row);
    if (span) this.#source.choose(span.start, span.end);
    else this.#source.clearChosen();
  }

  async #open(row) {
    row.ariaExpanded = 'true';
    const { path, depth } = this.#facts.get(row);
    row.after(...await this.#rowsOf(path, depth + 1, 0));
  }

  /** The rows of what is in a node from an index, and one more for what is after them. */
  async #rowsOf(path, depth, from) {
    const { rows, count } = await this.#engine.call('children', path, from, from + STEP);
    const made = rows.map((row) => this.#row(row, [...path, row.key], depth));
    const next = from + STEP;
    if (next < count) {
      const more = this.#row({ text: `${count - next} more` }, path, depth);
      more.dataset.from = next;
      made.push(more);
    }
    return made;
  }

  async #addMore(row) {
    const { path, depth } = this.#facts.get(row);
    const rows = await this.#rowsOf(path, depth, Number(row.dataset.from));
    row.replaceWith(...rows);
    this.#choose(rows[0]);
  }

  #close(row) {
    row.ariaExpanded = 'false';
    const { depth } = this.#facts.get(row);
    let next = row.nextElementSibling;
    while (next && this.#facts.get(next).depth > depth) {
      next.remove();
      next = row.nextElementSibling;
    }
  }

  #move(event) {
    const row = event.target.closest(ROW);
    const step = row && this.#steps(row)[event.key];
    if (!step) return;
    event.preventDefault();
    step();
  }

  #steps(row) {
    const go = (to) => { if (to) this.#choose(to); };
    return {
      ArrowDown: () => go(row.nextElementSibling),
      ArrowUp: () => go(row.previousElementSibling),
      Home: () => go(this.#place.firstElementChild),
      End: () => go(this.#place.lastElementChild),
      ArrowRight: () => (row.ariaExpanded === 'false' ? this.#open(row) : go(this.#first(row))),
      ArrowLeft: () => (row.ariaExpanded === 'true' ? this.#close(row) : go(this.#above(row))),
      Enter: () => this.#press(row),
      ' ': () => this.#press(row),
    };
  }

  #first(row) {
    return row.ariaExpanded === 'true' ? row.nextElementSibling : null;
  }

  #above(row) {
    const { depth } = this.#facts.get(row);
    let before = row.previousElementSibling;
    while (before && this.#facts.get(before).depth >= depth) before = before.previousElementSibling;
    return before;
  }
}

function styled(style, text) {
  const made = document.createElement('span');
  made.className = style;
  made.textContent = text;
  return made;
}
