// The editor of the source, with its fault and what is chosen in a tree or a list marked. All its
// line breaks are LF.

// Tab leaves the editor, so that whoever has no mouse can
const KEYS = {
  Tab: false,
  'Shift-Tab': false,
  'Ctrl-/': 'toggleComment',
  'Cmd-/': 'toggleComment',
};

export class Source {
  #editor;
  #fault = null;
  #chosen = null;
  #faultLine = null;

  constructor(place, onChange) {
    this.#editor = CodeMirror(place, {
      mode: 'wgsl',
      theme: 'lilac',
      indentUnit: 4,
      lineNumbers: true,
      matchBrackets: true,
      screenReaderLabel: 'Source',
      extraKeys: KEYS,
    });
    this.#editor.on('change', onChange);
  }

  get text() {
    return this.#editor.getValue('\n');
  }

  get lineCount() {
    return this.#editor.lineCount();
  }

  set text(text) {
    this.#editor.setValue(text);
  }

  /** Underlines a fault, or none. */
  showFault(fault) {
    this.#fault?.mark.clear();
    if (this.#faultLine) this.#editor.removeLineClass(this.#faultLine, 'wrap', 'fault-line');
    this.#fault = null;
    this.#faultLine = null;
    if (!fault?.place) return;
    const start = firstShown(this.text, fault.place.start);
    const mark = this.#mark(start, Math.max(fault.place.end, start + 1), {
      className: 'fault', title: fault.message,
    });
    this.#fault = { mark, start };
    this.#faultLine = this.#editor.addLineClass(this.#place(start).line, 'wrap', 'fault-line');
  }

  goToFault() {
    this.#editor.setCursor(this.#place(this.#fault.start));
    this.#editor.focus();
  }

  /** Marks the part of the text from `start` to `end`, and shows it. */
  choose(start, end) {
    this.clearChosen();
    this.#chosen = this.#mark(start, end, { className: 'chosen' });
    const [from, to] = [this.#place(start), this.#place(end)];
    this.#editor.scrollIntoView(to.line - from.line > 8 ? from : { from, to }, 60);
  }

  clearChosen() {
    this.#chosen?.clear();
    this.#chosen = null;
  }

  #place(at) {
    return this.#editor.posFromIndex(at);
  }

  #mark(start, end, how) {
    return this.#editor.markText(this.#place(start), this.#place(end), how);
  }
}

/** Where the line below a fault begins: at the character before it, if it has none of its own. */
function firstShown(text, start) {
  return start > 0 && /^\s?$/.test(text.charAt(start)) ? start - 1 : start;
}
