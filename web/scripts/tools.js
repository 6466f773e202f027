// The tools at the top: examples, files, links, and what is copied.

const at = (id) => document.getElementById(id);

/** For so long a button says what it did. */
const SAID = 1600;

/** The example that was chosen last. */
let last;

/** Connects the buttons; `fragment` returns that of a link to what is shown. */
export function connectTools(source, fragment) {
  at('example').addEventListener('change', async ({ target }) => {
    if (target.value) await openExample(source, target.value);
    target.value = '';
  });
  at('open').addEventListener('click', () => at('file').click());
  at('file').addEventListener('change', async ({ target }) => {
    const [file] = target.files;
    if (file) source.text = await file.text();
    target.value = '';
  });
  at('share').addEventListener('click', async ({ currentTarget }) => {
    history.replaceState(null, '', await fragment());
    await copy(currentTarget, location.href);
  });
  const about = at('about');
  at('about-button').addEventListener('click', () => about.showModal());
  at('about-close').addEventListener('click', () => about.close());
  return { copy, openExample: (name) => openExample(source, name) };
}

/** Shows an example, unless another is chosen before its text is there. */
async function openExample(source, name) {
  last = name;
  const response = await fetch(`examples/${name}.wgsl`);
  const text = await response.text();
  if (response.ok && last === name) source.text = text;
}

/** Copies a text, and says on the button for a while whether it could. */
async function copy(button, text) {
  const label = button.dataset.label ??= button.textContent;
  const done = await navigator.clipboard.writeText(text).then(() => true, () => false);
  button.textContent = done ? 'Copied' : 'Not copied';
  clearTimeout(button.timer);
  button.timer = setTimeout(() => { button.textContent = label; }, SAID);
}
