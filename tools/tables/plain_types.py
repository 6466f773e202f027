"""The types of plain trees, from the fields and variants of nodes."""
import re

from node_specs import cycle
from node_table import separated, snake
from plain_files import comment, spaced, spoken
from plain_trees import CONSTRUCTED, INLINE, OWN, RENAMED, UNATTRIBUTED, constructor, is_apart
from tree_codes import plain_doc

SIMPLE = {"String": "List ℕ", "Ident": "List ℕ", "bool": "Bool", "u32": "ℕ", "i32": "ℤ",
          "i64": "ℤ", "TemplateArg": "ExpressionNode"}


def enclosed(text):
    return f"({text})" if " " in text else text


def type_of(table, held, own=False):
    """The plain type of what a field holds; in a tree made by constructors some are its own."""
    kind = table.by_name.get(held)
    if own and held in OWN:
        return OWN[held][0]
    if held == "Attribute*":
        return "Attributes"
    if held[-1] in "?*":
        return f"{'Option' if held[-1] == '?' else 'List'} {enclosed(type_of(table, held[:-1]))}"
    if held.startswith("("):
        return " × ".join(type_of(table, part) for part in separated(held[1:-1]))
    if kind and kind.is_spanned:
        return f"{held}Node" if cycle(table, held) else f"Spanned {held}"
    return SIMPLE.get(held) or (f"Attributed {held}" if is_apart(kind) else held)


def parts_of(kind):
    """The parts of a struct in its plain tree, in order, with the types of their fields."""
    fields = {RENAMED.get(name, name): held for name, held in kind.parts}
    names = CONSTRUCTED[kind.name].split()[1:] if kind.name in CONSTRUCTED else fields
    return {name: fields[name] for name in names if name != "attributes" or not is_apart(kind)}


def held_types(table, held):
    """The plain types of what a variant holds: of a block its parts but for its attributes."""
    kind = table.by_name.get(held)
    if held in INLINE:
        return [type_of(table, of, True) for of in parts_of(kind).values()]
    if kind and kind.form == "struct" and kind.parts[0][0] == "attributes":
        parts = {name: of for name, of in parts_of(kind).items() if name != "attributes"}
        if not is_apart(kind):
            return [type_of(table, of, True) for of in parts.values()]
        return [kind.name] * bool(parts)
    return [type_of(table, held)] if held else []


def data(doc, name, made):
    """A type and its constructors: those of one group on a line, each with what they hold."""
    lines = [f"  {names} : {' → '.join([*held, name])}" for names, held in made]
    return [*comment(doc), f"pub data {name} : Type 0 where", *lines, ""]


def enum(table, kind, doc=None):
    """An enum; variants that hold the same are on one line."""
    lines = {}
    for name, held in kind.parts:
        key = bool(held), *held_types(table, held)
        lines.setdefault(key, []).append(constructor(kind, name))
    made = [(" ".join(names), held) for (_, *held), names in lines.items()]
    return data(doc or plain_doc(kind.doc), UNATTRIBUTED.get(kind.name, kind.name), made)


def record(table, kind):
    """A struct in no cycle of types."""
    lines = [*comment(plain_doc(kind.doc)), f"pub record {kind.name} : Type 0 where"]
    for name, held in parts_of(kind).items():
        if f"{kind.name}.{name}" in table.docs:
            lines.append(f"  -- {plain_doc(table.doc(kind, name))}")
        lines.append(f"  pub {name} : {type_of(table, held)}")
    return [*lines, ""]


def doc_of(kind):
    """What a struct is, with its parts in order if it is made of those."""
    *others, last = [spaced(name) for name in parts_of(kind)]
    parts = f"{', '.join(others)} and {last}" if others else last
    doc = plain_doc(kind.doc)
    return f"{doc}{';' if ':' in doc else ':'} its {parts}" if kind.name in CONSTRUCTED else doc


def struct(table, kind):
    """A struct in a cycle of types, made of its parts in order."""
    held = [type_of(table, held, True) for held in parts_of(kind).values()]
    return data(doc_of(kind), kind.name, [(CONSTRUCTED[kind.name].split()[0], held)])


def own_types(around):
    """The lists and optional parts of a cycle, one for each type."""
    helds = {OWN[held][0]: held for held in reversed(OWN) if held.rstrip("*?") in around}
    return [held for held in OWN if held in helds.values()]


def several(table, held):
    """A list or an optional part that has a type of its own."""
    type_, none, one = OWN[held]
    item = type_of(table, held[:-1], True)
    if held.endswith("?"):
        return data(f"{spoken(held[:-1])}, or none", type_, [(none, []), (one, [item])])
    return data(spoken(held), type_, [(none, []), (one, [item, type_])])


def spanned(kind):
    """A node of a cycle, which has its span, and its attributes before what else it is."""
    name, node = kind.name, snake(kind.name)
    lines = data(f"{spoken(name)} with its place", f"{name}Node",
                 [(f"{node}_node", [name, "Span"])])
    if name in UNATTRIBUTED:
        lines += data(f"{spoken(name)}: its attributes, and what is after them", name,
                      [(node, ["Attributes", UNATTRIBUTED[name]])])
    return lines


def in_order(kinds):
    """Kinds in the order of the table, each after those that its parts name."""
    done = []

    def add(kind):
        named = re.findall(r"\w+", " ".join(held for _, held in kind.parts))
        for it in kinds:
            if it.name in named:
                add(it)
        if kind not in done:
            done.append(kind)

    for kind in kinds:
        add(kind)
    return done
