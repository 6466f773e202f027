// The page: what is typed goes to the worker, and what that returns is shown.

import './mode.js';
import { Engine } from './engine.js';
import { bytes } from './figures.js';
import { fragmentOf, readFragment } from './link.js';
import { Options } from './options.js';
import { Source } from './source.js';
import { Tabs } from './tabs.js';
import { Canonical, Formatted, Minified } from './texts.js';
import { connectTheme } from './theme.js';
import { Tokens } from './tokens.js';
import { Tree } from './tree.js';
import { Updates } from './updates.js';
import { connectTools } from './tools.js';

const at = (id) => document.getElementById(id);

const source = new Source(at('source'), () => updates.request());
const results = [
  new Formatted(at('formatted'), (text) => { source.text = text; }),
  new Canonical(at('canonical')),
  new Minified(at('minified')),
  new Tree(at('tree'), source),
  new Tokens(at('tokens'), source),
];
const byName = Object.fromEntries(results.map((result) => [result.name, result]));
const options = new Options(document, () => updates.request());
const tabs = new Tabs(at('tabs'), (name) => {
  byName[name].refresh();
  source.clearChosen();
  updates.request();
});
const updates = new Updates(new Engine(), {
  source: () => source.text,
  lineCount: () => source.lineCount,
  result: () => byName[tabs.chosen],
  options: () => options.calls[tabs.chosen],
  onVerdict: showVerdict,
  onFailure: ({ message }) => showVerdict(source.text, { message, place: null }),
});

function showVerdict(text, fault) {
  if (text === source.text) source.showFault(fault);
  at('verdict').classList.toggle('is-fault', fault !== null);
  const place = fault?.place;
  const told = [place && `${place.line}:${place.column}: `, fault?.message ?? 'A module of WGSL'];
  at('verdict').replaceChildren(...withCode(told.filter(Boolean).join('')));
  showButton(Boolean(place));
  at('source-size').textContent = bytes(new Blob([text]).size);
}

/** Shows or hides the button to the fault, from which the focus goes on to the tabs as it hides. */
function showButton(isShown) {
  const button = at('to-fault');
  if (!isShown && button === document.activeElement) tabs.focus();
  button.hidden = !isShown;
}

/** The parts of a message; those in backquotes are code. */
function withCode(message) {
  return message.split('`').map((part, index) => {
    if (index % 2 === 0) return part;
    const code = document.createElement('code');
    code.textContent = part;
    return code;
  });
}

/** Shows what a link has, or the first example where it has no text. */
async function open(fragment) {
  const { text, chosen } = await readFragment(fragment);
  options.take(chosen);
  tabs.choose(chosen.tab ?? 'formatted');
  if (text !== null) source.text = text;
  else if (source.text === '') await tools.openExample('waves');
}

const tools = connectTools(source, async () => {
  const chosen = { tab: tabs.chosen, ...options.changed };
  return fragmentOf(source.text, chosen);
});

connectTheme(at('theme'));
at('to-fault').addEventListener('click', () => source.goToFault());
for (const result of results) {
  result.copy?.addEventListener('click', () => tools.copy(result.copy, result.text));
}
addEventListener('hashchange', () => open(location.hash));
tabs.choose('formatted');
await open(location.hash);
