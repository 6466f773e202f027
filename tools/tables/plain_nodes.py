"""Writes the plain trees, from the fields and variants of nodes.

How plain trees differ from these is in plain_trees.py. What makes a statement of its parts it
leaves out where Statements.antt has that. By hand, each node would be in two more files.
"""
import re
from pathlib import Path

import inputs
from node_specs import cycle
from node_table import TABLE, snake
from plain_files import names_only, pass_on, public_names, spoken, texts
from plain_statements import changes, makers, mutual, of_several
from plain_trees import CONSTRUCTED, FILES, NODES, UNATTRIBUTED, constructor, kinds_of
from plain_types import (
    enum, in_order, own_types, parts_of, record, several, spanned, struct, type_of)
from tree_codes import plain_doc
from tree_words import is_operator

READS = (inputs.NODES,)
WRITES = ("crates/wgsl_model/specs/Trees/[AESU]*s.antt",
          "crates/wgsl_model/specs/Trees/[AESU]*Nodes.antt")

FOLDER = Path("crates/wgsl_model/specs/Trees")
PRELUDE = ["Bool", "ℕ", "ℤ", "List", "[]", "◌∷◌", "Option", "Some", "None", "codes",
           "if◌then◌else◌"]
TREES = "wgsl_model.specs.Trees"
# the attributes that are a name, and what they have
NAMED = {"Expression": ("OneArgument", "with_argument", "with one argument"),
         "": ("NoArgument", "without_argument", "without arguments")}


def named(kind, held):
    """The names of the attributes that hold the same, with their texts and their list."""
    type_, _, what = NAMED[held]
    names = [name for name, of in kind.parts if of == held]
    values = [constructor(kind, name) for name in names]
    stem = snake(type_)
    return [
        *names_only(f"an attribute {what}", type_, values),
        *texts(f"the name of an attribute {what}", f"{stem}_text", type_,
               zip(values, map(snake, names))),
        f"-- the attributes {what}", f"abbrev pub {stem}_attributes : List {type_}",
        f"{stem}_attributes = {' '.join(f'{value} ∷' for value in values)} []", ""]


def attribute(table, kind):
    """The attributes: names, and what else a variant holds."""
    made = [f"  {made} : {type_} →{f' {type_of(table, held)} →' if held else ''} {kind.name}"
            for held, (type_, made, _) in NAMED.items()]
    made += [f"  {constructor(kind, name)} : {type_of(table, held)} → {kind.name}"
             for name, held in kind.parts if held not in NAMED]
    return [*(line for held in NAMED for line in named(kind, held)),
            f"-- {plain_doc(kind.doc)}", f"pub data {kind.name} : Type 0 where", *made, ""]


def alone(table, kind):
    """A kind in no cycle of types."""
    if kind.name == "Attribute":
        return attribute(table, kind)
    if kind.form == "struct":
        return record(table, kind) if parts_of(kind) else []
    if kind.name not in UNATTRIBUTED:
        return enum(table, kind)
    part, doc = UNATTRIBUTED[kind.name], plain_doc(kind.doc)
    return [*enum(table, kind, f"{doc}, without its attributes"),
            f"-- {doc}: its attributes, and what is after them",
            f"abbrev pub {kind.name} : Type 0", f"{kind.name} = Attributed {part}", ""]


def trees(table, file, by_hand):
    """The trees of a file, what makes those in a cycle of types, and what changes statements."""
    name = file.removesuffix("s")
    around = cycle(table, name) if name in table.by_name else []
    apart = [it for it in kinds_of(file) if it.name not in around]
    lines = [line for kind in in_order(apart) for line in alone(table, kind)]
    if not around:
        return lines
    whole = table.by_name[name]
    structs = [it for it in kinds_of(file) if it.name in CONSTRUCTED]
    lists = own_types(around)
    doc = f"{spoken(name)} without its attributes" if name in UNATTRIBUTED else None
    lines += ["mutual", *mutual([
        *spanned(whole), *enum(table, whole, doc),
        *(line for kind in structs for line in struct(table, kind)),
        *(line for held in lists for line in several(table, held))])]
    lines += [line for held in lists for line in of_several(table, held)]
    if name == "Statement":
        lines += [*makers(table, by_hand), *changes(table, structs, lists)]
    return lines


def homes():
    """Where the types are that a file may name."""
    found = {"Span": "grammar.specs.Tokens"}
    found |= {name: f"{TREES}.{name}" for name in ("Spanned", "Attributed", "Attributes")}
    for kind in NODES.of_form("words"):
        found[kind.name] = f"{TREES}.{'Operators' if is_operator(kind) else 'NamedValues'}"
    for file in FILES:
        for kind in kinds_of(file):
            found |= dict.fromkeys([kind.name, f"{kind.name}Node"], f"{TREES}.{file}")
    return found


def uses(text):
    """The lines that import the names in a text."""
    words = set(re.findall(r"[^\s(){},:→]+", re.sub(r"^ *--.*", "", text, flags=re.M)))
    words -= set(public_names(text))
    names = [it for it in PRELUDE if it.strip("◌").split("◌")[0] in words]
    yield f"use Rattle.std.specs.Prelude.{{{', '.join(names)}}}"
    found = homes()
    for module in dict.fromkeys(found.values()):
        names = [name for name, home in found.items() if home == module and name in words]
        if names:
            yield f"use Rattle.{module}.{{{', '.join(names)}}}"


def main():
    for file in FILES:
        hand, name = FOLDER / f"{file}.antt", f"{file.removesuffix('s')}Nodes"
        by_hand = set(re.findall(r"^abbrev pub (\w+) :", hand.read_text(), re.M))
        text = "\n".join(trees(NODES, file, by_hand))
        title = f"Written by tools/tables/plain_nodes.py from {TABLE}: the trees of {file.lower()}."
        (FOLDER / f"{name}.antt").write_text("\n".join([f"-- {title}", *uses(text), "", text]))
        pass_on(hand, f"Trees.{name}", public_names(text))
