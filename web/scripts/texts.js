// The three tabs with a text: formatted, canonical and minified.

import { bytes, change, count, milliseconds } from './figures.js';

/** Of a minified text no more characters and names are shown: a line of very many is slow. */
const MOST_SHOWN = 20_000;
const MOST_NAMES = 400;

/** What each text has: where it is shown, its figures, and the button that copies it. */
class Shown {
  text = null;

  constructor(panel) {
    this.panel = panel;
    this.figures = panel.querySelector('.figures');
    this.copy = panel.querySelector('.copy');
    this.copy.disabled = true;
    panel.classList.add('is-empty');
  }

  /** Shows what the worker returned, or that there is a fault and this is an older text. */
  show(found) {
    this.panel.classList.toggle('is-old', Boolean(found.fault));
    if (found.fault) {
      const isEmpty = this.text === null;
      this.figures.textContent = isEmpty ? 'No text yet' : 'Of the last source without a fault';
      return;
    }
    this.text = found.text;
    this.copy.disabled = false;
    this.panel.classList.remove('is-empty');
    this.write(found);
    this.figures.textContent = this.figure(found);
  }
}

/** A text in an editor that only shows it, however long it is. */
class Lines extends Shown {
  #editor;

  constructor(panel) {
    super(panel);
    this.#editor = CodeMirror(panel.querySelector('.view'), {
      mode: 'wgsl',
      theme: 'lilac',
      lineNumbers: true,
      readOnly: true,
      screenReaderLabel: panel.id,
      extraKeys: { Tab: false, 'Shift-Tab': false },
    });
  }

  refresh() {
    this.#editor.refresh();
  }

  write({ text }) {
    const { left, top } = this.#editor.getScrollInfo();
    if (this.#editor.getValue('\n') !== text.replaceAll('\r\n', '\n')) this.#editor.setValue(text);
    this.#editor.scrollTo(left, top);
  }

  figure({ sizes, time }) {
    return `${bytes(sizes.bytes)}, gzipped ${bytes(sizes.gzipped)}, in ${milliseconds(time)}`;
  }
}

export class Formatted extends Lines {
  name = 'formatted';

  constructor(panel, onReplace) {
    super(panel);
    panel.querySelector('.replace').addEventListener('click', () => {
      if (this.text !== null) onReplace(this.text);
    });
  }

  async update(engine, options) {
    this.show(await engine.call('tidy', options));
  }
}

export class Canonical extends Lines {
  name = 'canonical';

  async update(engine) {
    this.show(await engine.call('format'));
  }
}

export class Minified extends Shown {
  name = 'minified';
  #code;
  #rest;
  #cells;
  #names;

  constructor(panel) {
    super(panel);
    this.#code = panel.querySelector('code');
    this.#code.className = 'cm-s-lilac';
    this.#rest = panel.querySelector('.rest');
    this.#cells = panel.querySelectorAll('.sizes td + td, .sizes th + td');
    this.#names = panel.querySelector('.names');
    this.#names.hidden = true;
  }

  refresh() {}

  async update(engine, options) {
    this.show(await engine.call('minify', options));
  }

  write({ text, names, source, sizes }) {
    CodeMirror.runMode(text.slice(0, MOST_SHOWN), 'wgsl', this.#code);
    this.#rest.hidden = text.length <= MOST_SHOWN;
    this.#rest.textContent = `and ${count(text.length - MOST_SHOWN)} more characters`;
    const cells = [
      count(source.bytes), count(source.gzipped), count(sizes.bytes), count(sizes.gzipped),
      change(source.bytes, sizes.bytes), change(source.gzipped, sizes.gzipped),
    ];
    this.#cells.forEach((cell, at) => { cell.textContent = cells[at]; });
    this.#showNames(names);
  }

  #showNames(names) {
    const pairs = Object.entries(names);
    this.#names.hidden = pairs.length === 0;
    this.#names.querySelector('summary').textContent = `${count(pairs.length)} new names`;
    const entries = pairs.slice(0, MOST_NAMES).map(([old, given]) => {
      const entry = document.createElement('div');
      entry.append(element('dt', old), element('dd', given));
      return entry;
    });
    this.#names.querySelector('dl').replaceChildren(...entries);
    const more = this.#names.querySelector('.note');
    more.hidden = pairs.length <= MOST_NAMES;
    more.textContent = `and ${count(pairs.length - MOST_NAMES)} more`;
  }

  figure({ time }) {
    return `In ${milliseconds(time)}`;
  }
}

function element(name, text) {
  const made = document.createElement(name);
  made.textContent = text;
  return made;
}
