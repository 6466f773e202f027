// A list of tabs, as ARIA describes it: one is in the order of Tab, arrow keys choose.

const STEPS = { ArrowLeft: -1, ArrowRight: 1 };

export class Tabs {
  /** The tabs in `list`, each with the panel that its `aria-controls` names. */
  constructor(list, onChoice) {
    this.tabs = [...list.querySelectorAll('[role="tab"]')];
    this.onChoice = onChoice;
    for (const tab of this.tabs) {
      tab.dataset.label = tab.textContent;
      tab.addEventListener('click', () => this.choose(tab.getAttribute('aria-controls')));
    }
    list.addEventListener('keydown', (event) => this.#move(event));
  }

  get #chosenTab() {
    return this.tabs.find((tab) => tab.ariaSelected === 'true');
  }

  get chosen() {
    return this.#chosenTab.getAttribute('aria-controls');
  }

  focus() {
    this.#chosenTab.focus();
  }

  /** Shows the panel with the id `name`; any other name changes nothing. */
  choose(name) {
    if (!this.tabs.some((tab) => tab.getAttribute('aria-controls') === name)) return;
    for (const tab of this.tabs) {
      const panel = tab.getAttribute('aria-controls');
      tab.ariaSelected = String(panel === name);
      tab.tabIndex = panel === name ? 0 : -1;
      document.getElementById(panel).hidden = panel !== name;
    }
    this.onChoice(name);
  }

  #move(event) {
    const last = this.tabs.length - 1;
    const at = this.tabs.indexOf(document.activeElement);
    let next;
    if (event.key in STEPS) next = (at + STEPS[event.key] + this.tabs.length) % this.tabs.length;
    else if (event.key === 'Home') next = 0;
    else if (event.key === 'End') next = last;
    else return;
    event.preventDefault();
    this.tabs[next].focus();
    this.tabs[next].scrollIntoView({ block: 'nearest', inline: 'nearest' });
    this.choose(this.tabs[next].getAttribute('aria-controls'));
  }
}
