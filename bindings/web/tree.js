// Trees as plain objects, read from packed forms and written as these by the data in packed.js
// alone, which docs/TREE.md describes.

import { notPacked, Reader, Writer } from './bytes.js';
import data from './packed.js';

const numbers = new Map(data.rules.map((rule, number) => [rule.name, number]));
const sorts = new Map();
const NOTHING = numbers.get('nothing');

/** A text. */
class TextSort {
  isShort = true;

  isThere(value) {
    return typeof value === 'string';
  }

  read(from, into, key) {
    const text = from.text();
    if (!this.isThere(text)) throw notPacked(`\`${text}\` is no ${this.name}`);
    into[key] = text;
  }

  write(to, value) {
    if (!this.isThere(value)) throw new TypeError(`${value} is no ${this.name}`);
    to.text(value);
  }
}

/** A text that is one of some words. */
class WordSort extends TextSort {
  constructor({ words }) {
    super();
    this.words = new Set(words);
  }

  isThere(value) {
    return this.words.has(value);
  }
}

/** Nothing, whatever the node is. */
class NothingSort {
  isShort = true;

  read(from) {
    if (from.rule() !== NOTHING) throw notPacked('something is where nothing has to be');
  }

  write(to) {
    to.rule(NOTHING);
  }
}

/** What is at a place: a sort, after a span or without one. */
class Place {
  constructor({ field, sort, spanned = false }) {
    this.field = field;
    this.name = sort;
    this.spanned = spanned;
  }

  get sort() {
    return sorts.get(this.name);
  }

  /** Reads what is at the place into an object or an array. */
  read(from, into, key) {
    const span = this.spanned ? from.span() : undefined;
    this.sort.read(from, into, key, span);
  }

  write(to, value) {
    if (this.spanned) to.span(value?.span);
    this.sort.write(to, value);
  }

  /** Reads the field of a node, or those of a group. */
  fill(from, node) {
    if (this.field === undefined) this.sort.read(from, node);
    else this.read(from, node, this.field);
  }

  /** Writes the field of a node, or those of a group. */
  writeOf(to, node) {
    this.write(to, this.field === undefined ? node : node[this.field]);
  }
}

/** Does something at each of some places, one after another, and leaves what may nest for later. */
function inTurn(steps, places, act, start = 0) {
  for (let at = start; at < places.length; at += 1) {
    const place = places[at];
    if (!place.sort.isShort) {
      steps.later(() => inTurn(steps, places, act, at + 1));
      steps.later(() => act(place));
      return;
    }
    act(place);
  }
}

/** Returns whether a value has all that a pattern has. What is not there is as `null`. */
function fits(value, pattern) {
  if (typeof pattern !== 'object' || pattern === null) return (value ?? null) === pattern;
  if (typeof value !== 'object' || value === null) return false;
  return Object.entries(pattern).every(([field, wanted]) => fits(value[field], wanted));
}

/** A form of a node: its rule, and what fills the places of that. */
class Form {
  constructor({ rule, places, values, left, if: conditions }, { type, types = {} }) {
    this.rule = numbers.get(rule);
    this.places = places.map((place) => new Place(place));
    this.values = values;
    this.left = left;
    this.conditions = conditions;
    this.type = type;
    this.typeOf = new Map(Object.entries(types));
    this.words = new Map([...this.typeOf].map(([word, it]) => [it, word]));
  }

  get types() {
    return this.type === undefined ? [...this.words.keys()] : [this.type];
  }

  /** Reads the node after the number of the rule, and after what is left of it in a chain. */
  read(from, into, key, span, left) {
    const node = { type: this.type };
    if (span !== undefined) node.span = span;
    if (this.left !== undefined) node[this.left] = left;
    into[key] = node;
    if (this.type === undefined || this.values !== undefined) from.later(() => this.finish(node));
    inTurn(from, this.places, (place) => place.fill(from, node));
  }

  /** Gives a node what no place fills. */
  finish(node) {
    if (this.type === undefined) node.type = this.namedType(node.type);
    if (this.values !== undefined) Object.assign(node, this.values);
  }

  namedType(word) {
    if (!this.typeOf.has(word)) throw notPacked(`\`${word}\` names no node`);
    return this.typeOf.get(word);
  }

  isOf(node) {
    if (this.values !== undefined && !fits(node, this.values)) return false;
    return this.conditions?.some((pattern) => fits(node, pattern)) ?? true;
  }

  /** Writes what fills the places. */
  write(to, node) {
    const type = this.words.get(node.type);
    const named = type === undefined ? node : { ...node, type };
    inTurn(to, this.places, (place) => place.writeOf(to, named));
  }
}

/** A node of one of some types, each with its forms. */
class NodeSort {
  constructor({ type, types, forms = [], any = [], chain, links = [] }) {
    this.own = forms.map((form) => ({ form: new Form(form, { type, types }), before: [] }));
    this.ruleless = this.own.find(({ form }) => form.rule === undefined)?.form;
    this.any = any;
    this.chain = numbers.get(chain);
    this.links = links;
  }

  /** Returns the forms, each with the rules that come before. */
  choices() {
    const others = this.any.flatMap(({ sort, before }) => {
      const rules = before === undefined ? [] : [numbers.get(before)];
      const choices = sorts.get(sort).choices();
      return choices.map((it) => ({ form: it.form, before: [...rules, ...it.before] }));
    });
    return [...this.own, ...others];
  }

  /** Finds its forms by their rules and types, once all sorts are there. */
  finish() {
    const choices = this.choices();
    const links = this.links.flatMap((sort) => sorts.get(sort).choices());
    this.byRule = byRule(choices);
    this.byType = byType(choices);
    this.linkByRule = byRule(links);
    this.linkByType = byType(links);
  }

  read(from, into, key, span) {
    if (this.ruleless !== undefined) return this.ruleless.read(from, into, key, span);
    const rule = from.rule();
    if (rule !== this.chain) return this.readAfter(from, rule, into, key, span);
    const whole = {};
    from.later(() => this.readLinks(from, whole, into, key, span));
    this.readAfter(from, from.rule(), whole, 'node', { start: 0, end: 0 });
  }

  /** Reads the node after the number of its first rule. */
  readAfter(from, rule, into, key, span) {
    let found = this.byRule.get(rule);
    while (found instanceof Map) found = found.get(from.rule());
    if (found === undefined) throw notPacked(`after rule ${rule} is no ${this.name}`);
    found.read(from, into, key, span);
  }

  /** Reads what follows a node in a chain, each after the span of what is before it. */
  readLinks(from, whole, into, key, span) {
    const { node } = whole;
    const rule = from.rule();
    if (rule === NOTHING) {
      if (span === undefined) delete node.span;
      else node.span = span;
      into[key] = node;
      return;
    }
    const form = this.linkByRule.get(rule);
    if (form === undefined) throw notPacked(`rule ${rule} does not follow ${this.name}`);
    node.span = from.span();
    from.later(() => this.readLinks(from, whole, into, key, span));
    form.read(from, whole, 'node', { start: 0, end: 0 }, node);
  }

  write(to, node) {
    if (linkOf(this.linkByType, node) === undefined) this.writeFirst(to, node);
    else this.writeChain(to, node);
  }

  /** Writes a node that is not a chain. */
  writeFirst(to, node) {
    const choice = this.byType.get(node?.type)?.find(({ form }) => form.isOf(node));
    if (choice === undefined) throw new TypeError(`${node?.type ?? node} is no ${this.name}`);
    for (const rule of choice.before) to.rule(rule);
    if (choice.form.rule !== undefined) to.rule(choice.form.rule);
    choice.form.write(to, node);
  }

  writeChain(to, last) {
    const links = [];
    let first = last;
    let form = linkOf(this.linkByType, first);
    while (form !== undefined) {
      links.push({ form, node: first });
      first = first[form.left];
      form = linkOf(this.linkByType, first);
    }
    to.rule(this.chain);
    to.later(() => this.writeLinks(to, links));
    this.writeFirst(to, first);
  }

  /** Writes the links that are left of a chain, the next of which is last, and its end. */
  writeLinks(to, links) {
    const link = links.pop();
    if (link === undefined) return to.rule(NOTHING);
    to.rule(link.form.rule);
    to.span(link.node[link.form.left]?.span);
    to.later(() => this.writeLinks(to, links));
    link.form.write(to, link.node);
  }
}

/** Returns the forms of choices by their rules, those that come after others in maps. */
function byRule(choices) {
  const found = new Map();
  for (const { form, before } of choices) {
    let inside = found;
    for (const rule of before) {
      if (!inside.has(rule)) inside.set(rule, new Map());
      inside = inside.get(rule);
    }
    inside.set(form.rule, form);
  }
  return found;
}

/** Returns the choices by the types that they are of. */
function byType(choices) {
  const found = new Map();
  for (const choice of choices) {
    for (const type of choice.form.types) found.set(type, [...(found.get(type) ?? []), choice]);
  }
  return found;
}

/** Returns the form of a node that has something before it in a chain, or nothing. */
function linkOf(links, node) {
  return links.get(node?.type)?.find(({ form }) => form.isOf(node))?.form;
}

/** A list. */
class ListSort {
  constructor({ list, empty, ...roles }) {
    this.item = new Place(list);
    this.empty = empty;
    const rules = Object.entries(roles).map(([role, rule]) => [role, numbers.get(rule)]);
    this.roles = new Map(rules);
    this.ends = new Set([this.roles.get('end'), this.roles.get('none')]);
    this.more = new Set([this.roles.get('before'), this.roles.get('first')]);
  }

  read(from, into, key) {
    into[key] = [];
    this.readItems(from, into[key]);
  }

  /** Reads the items that are left. */
  readItems(from, items) {
    const rule = from.rule();
    if (this.ends.has(rule)) return;
    const isLast = rule === this.roles.get('last');
    if (!isLast) from.later(() => this.readItems(from, items));
    if (rule === this.roles.get('void')) {
      items.push({ type: this.empty, span: from.span() });
    } else if (isLast || this.more.has(rule)) {
      this.item.read(from, items, items.length);
    } else {
      throw notPacked(`rule ${rule} is in no ${this.name}`);
    }
  }

  write(to, items) {
    if (!Array.isArray(items)) throw new TypeError(`${items} is no ${this.name}`);
    this.writeItems(to, items, 0, 0);
  }

  /** Writes the items from one on, after so many that are printed, and the end. */
  writeItems(to, items, at, printed) {
    const item = items[at];
    if (at === items.length) {
      if (printed === 0) to.rule(this.roles.get('none'));
      else if (this.roles.has('end')) to.rule(this.roles.get('end'));
    } else if (this.empty !== undefined && item?.type === this.empty) {
      to.later(() => this.writeItems(to, items, at + 1, printed));
      to.rule(this.roles.get('void'));
      to.span(item.span);
    } else {
      to.later(() => this.writeItems(to, items, at + 1, printed + 1));
      to.rule(this.ruleOf(printed, at === items.length - 1));
      this.item.write(to, item);
    }
  }

  /** Returns the rule of an item after so many that are printed. */
  ruleOf(printed, isLast) {
    const role = printed === 0 && this.roles.has('first') ? 'first' : 'before';
    return this.roles.get(isLast && this.roles.has('last') ? 'last' : role);
  }
}

/** Returns whether something is there: a rule or, if not, `nothing`. */
function has(from, rule) {
  const next = from.rule();
  if (next !== rule && next !== NOTHING) throw notPacked(`rule ${next} is not ${rule}`);
  return next === rule;
}

/** What may be left out. */
class OptionSort {
  constructor({ option, rule }) {
    this.there = new Place(option);
    this.rule = numbers.get(rule);
  }

  read(from, into, key) {
    if (has(from, this.rule)) this.there.read(from, into, key);
    else into[key] = null;
  }

  write(to, value) {
    if (value === null || value === undefined) return to.rule(NOTHING);
    to.rule(this.rule);
    this.there.write(to, value);
  }
}

/** Fields that are left out together. */
class GroupSort {
  constructor({ group, rule }) {
    this.places = group.map((place) => new Place(place));
    this.rule = numbers.get(rule);
  }

  /** Reads the fields of a node. */
  read(from, node) {
    if (has(from, this.rule)) return inTurn(from, this.places, (place) => place.fill(from, node));
    for (const place of this.places) node[place.field] = place.sort instanceof ListSort ? [] : null;
  }

  /** Writes the fields of a node; where one that has to be there is not, none. */
  write(to, node) {
    const wanted = this.places.filter(
      ({ sort }) => !(sort instanceof ListSort || sort instanceof OptionSort),
    );
    if (wanted.some(({ field }) => node[field] === null || node[field] === undefined)) {
      return to.rule(NOTHING);
    }
    to.rule(this.rule);
    inTurn(to, this.places, (place) => place.writeOf(to, node));
  }
}

/** Returns what reads and writes a sort. */
function sortOf(sort) {
  if ('text' in sort) return new TextSort();
  if ('nothing' in sort) return new NothingSort();
  if ('words' in sort) return new WordSort(sort);
  if ('list' in sort) return new ListSort(sort);
  if ('option' in sort) return new OptionSort(sort);
  if ('group' in sort) return new GroupSort(sort);
  return new NodeSort(sort);
}

for (const [name, sort] of Object.entries(data.sorts)) {
  sorts.set(name, Object.assign(sortOf(sort), { name }));
}
const nodes = [...sorts.values()].filter((sort) => sort instanceof NodeSort);
for (const sort of nodes) sort.finish();

/** Returns the sort by which a node of a type is written by itself. */
function wholeOf(type) {
  const isOf = (sort) => sort.byType.has(type) || sort.linkByType.has(type);
  const found = nodes.filter(isOf);
  return found.find((sort) => sort.any.length > 0) ?? found[0];
}

/** Returns the tree of a kind that a packed form is of, with what `offsets` has for its places. */
export function treeOf(bytes, offsets, kind = 'TranslationUnit') {
  const sort = sorts.get(kind);
  if (!(sort instanceof NodeSort)) throw new TypeError(`${kind} is no kind of trees`);
  const from = new Reader(bytes, offsets);
  const whole = {};
  sort.read(from, whole, 'tree');
  from.run();
  if (from.at !== bytes.length) throw notPacked('more follows it');
  return whole.tree;
}

/** Returns the packed form of a node. A span that is not there is 0 to 0. */
export function packed(node) {
  const sort = wholeOf(node?.type);
  if (sort === undefined) throw new TypeError(`${node?.type ?? node} is no node`);
  // a node without a rule is what is at its place, which by itself has no span
  if (sort.ruleless !== undefined) return packed(node[sort.ruleless.places[0].field]);
  const to = new Writer();
  sort.write(to, node);
  to.run();
  return to.bytes.slice(0, to.size);
}
