// The options of the tabs: read from their forms, and written into links and back.

/** The values of the forms below `place` by their names. */
function fieldsOf(place) {
  return [...place.querySelectorAll('form.options [name]')];
}

const valueOf = (field) => (field.type === 'checkbox' ? String(field.checked) : field.value);

const standardOf = (field) => {
  if (field.type === 'checkbox') return String(field.defaultChecked);
  if (field instanceof HTMLSelectElement) {
    return [...field.options].find((it) => it.defaultSelected).value;
  }
  return field.defaultValue;
};

export class Options {
  #fields;

  constructor(place, onChange) {
    this.#fields = fieldsOf(place);
    for (const form of place.querySelectorAll('form.options')) {
      form.addEventListener('submit', (event) => event.preventDefault());
      form.addEventListener('input', onChange);
    }
  }

  /** What differs from the standard, by the names of the fields. */
  get changed() {
    const changed = this.#fields.filter((field) => valueOf(field) !== standardOf(field));
    return Object.fromEntries(changed.map((field) => [field.name, valueOf(field)]));
  }

  /** Takes values by the names of fields; what is not named becomes the standard. */
  take(values) {
    for (const field of this.#fields) {
      const value = values[field.name] ?? standardOf(field);
      if (field.type === 'checkbox') field.checked = value === 'true';
      else field.value = value;
      // a list takes no value that it does not have
      if (field.selectedIndex < 0) field.value = standardOf(field);
    }
  }

  /** What the calls of the tabs take. */
  get calls() {
    const values = Object.fromEntries(this.#fields.map((field) => [field.name, valueOf(field)]));
    const indent = values.indent === 'tab' ? 'tab' : Number(values.indent);
    return {
      formatted: { width: widthOf(values.width), indent, newlines: values.newlines },
      minified: { names: values.names, keep: values.keep.split(/[\s,]+/).filter(Boolean) },
      tokens: { comments: values.comments === 'true' },
    };
  }
}

/** A width as a number; 100 if it is none that a layout can have. */
function widthOf(text) {
  const width = Number(text);
  return text !== '' && Number.isInteger(width) && width >= 0 && width <= 9999 ? width : 100;
}
