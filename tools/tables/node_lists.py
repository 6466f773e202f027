"""Writes what the nodes of wgsl_tree_node say of themselves, each from its fields: its name, its
`ident`, and its list of attributes, its `attributes`. An enum has those of what it holds.

Written by hand are the nodes without attributes, and that a node has no name although it holds one
(bare.rt).
"""
import re
import textwrap
from pathlib import Path

import inputs
from node_specs import CRATES, cycle, head_of, homes, imports, place
from node_table import TABLE, Table, snake

READS = (inputs.NODES, inputs.SOURCES, "crates/wgsl_tree_node/src/bare.rt")
WRITES = ("crates/wgsl_tree_node/src/*_nodes.rt", "crates/wgsl_tree_node/specs/*Nodes.antt")

CRATE = Path("crates/wgsl_tree_node")
SPECS = f"Rattle.{CRATE.name}.specs"
WRITTEN = f"Written by tools/tables/node_lists.py from {TABLE}"
# the crates whose nodes can have attributes, and what these nodes are
NODES = {
    "simple": "declarations of values and statements that hold no others",
    "statement": "statements that hold others, and their clauses",
    "unit": "directives and declarations of modules, and their parts",
}
INDENT = 4 * " "


class Nodes:
    """The nodes that have attributes."""

    def __init__(self, table):
        self.table, self.homes = table, homes()
        by_hand = (CRATE / "src/bare.rt").read_text()
        self.unnamed = set(re.findall(r"^impl \w+ for (\w+)", by_hand, re.M))
        self.cycles = {it.name: cycle(table, it.name) for it in table.of_form("enum")}

    def has(self, name, field):
        """Whether a kind has a field of this name, or an enum a variant that holds such a kind."""
        kind = self.table.by_name.get(name)
        if kind and kind.form == "enum":
            return any(self.has(held, field) for _, held in kind.parts)
        return bool(kind) and field in dict(kind.parts)

    def named(self, kind):
        return kind.name not in self.unnamed and self.has(kind.name, "ident")

    def of(self, crate):
        """The nodes of a crate that have attributes."""
        return [it for it in self.table.kinds if it.form != "words"
                and self.homes[it.name][0] == crate and self.has(it.name, "attributes")]

    def enums(self, crate):
        return [it for it in self.of(crate) if it.form == "enum"]

    def root(self, name):
        """The enum in whose cycle of types a kind is, if it is in one."""
        return next((root for root, those in self.cycles.items() if name in those), None)

    def record(self, name):
        """`node` as a record."""
        return f"(out-{name} node)" if self.root(name) else "node"

    def with_list(self, name):
        """`node` with another list of attributes."""
        made = f"record {self.record(name)} {{ attributes = list }}"
        return f"roll-{name} ({made})" if self.root(name) else made

    def views(self, names):
        """What makes records of nodes in a cycle, and nodes of records, by modules."""
        for name in filter(self.root, names):
            root = self.root(name)
            module = f"{place(root, self.homes[root])}.TheViews"
            yield from ((module, f"out-{name}"), (module, f"roll-{name}"))


def word(kind):
    """The word that begins the names of what is defined of an enum."""
    return snake(kind.name).split("_")[-1]


def method(nodes, kind, name, field, shown, mut=""):
    """A method that returns a field of a node, if it has one."""
    body = f"Some(&{mut}self.{field})"
    if kind.form == "enum":
        arms = [f"{kind.name}::{it}(node) => Some(&{mut}node.{field})," if nodes.has(held, field)
                else f"{kind.name}::{it}{'(_)' * bool(held)} => None," for it, held in kind.parts]
        body = f"match self {{ {' '.join(arms)} }}"
    return f"fn {name}(&{mut}self) -> Option<&{mut}{shown}> {{ {body} }}\n"


def name_impl(nodes, kind):
    """What says the name of a node."""
    if not nodes.named(kind):
        return "" if kind.name in nodes.unnamed else f"impl UnnamedNode for {kind.name} {{}}\n"
    own = f"λ node. Some (ident_name {nodes.record(kind.name)}.ident)"
    own = "declared_name" if kind.form == "enum" else own
    return (f"impl NodeName for {kind.name} {{\nghost own_name = {{ {own} }};\n\n"
            f"{method(nodes, kind, 'own_ident', 'ident', 'Ident')}}}\n")


def list_impl(nodes, kind):
    """What says the list of attributes of a node."""
    own = f"λ node. Some {nodes.record(kind.name)}.attributes"
    changed = f"λ node list. {nodes.with_list(kind.name)}"
    if kind.form == "enum":
        own, changed = f"{word(kind)}_list", f"{word(kind)}_with_list"
    return (f"impl NodeAttributes for {kind.name} {{\nghost list_of = {{ {own} }};\n\n"
            f"ghost with_list = {{ {changed} }};\n\n"
            f"{method(nodes, kind, 'own_attributes', 'attributes', 'Attributes')}\n"
            f"{method(nodes, kind, 'own_attributes_mut', 'attributes', 'Attributes', 'mut ')}}}\n")


def module(nodes, crate):
    """The impls of the nodes of a crate."""
    made = nodes.of(crate)
    impls = "\n".join(impl(nodes, it) for it in made for impl in (name_impl, list_impl))
    ghosts = {("Rattle.std.specs.Prelude", "Some"), (f"{SPECS}.NamedNodes", "declared_name"),
              ("Rattle.wgsl_tree_expression.specs.View", "ident_name"),
              *nodes.views(it.name for it in made if it.form == "struct")}
    for kind in nodes.enums(crate):
        specs = f"{SPECS}.{crate.capitalize()}Nodes"
        ghosts |= {(specs, f"{word(kind)}_list"), (specs, f"{word(kind)}_with_list")}
    traits = ("NodeAttributes", "NodeName", "UnnamedNode")
    uses = {("wgsl_tree_attribute", "Attributes"), ("wgsl_tree_expression", "Ident"),
            *(("crate::node_parts", it) for it in traits),
            *((CRATES[crate], it.name) for it in made)}
    ghosts, uses = ({it for it in those if re.search(rf"\b{it[1]}\b", impls)}
                    for those in (ghosts, uses))
    head = textwrap.fill(f"{WRITTEN}: the names and attributes of {NODES[crate]}.", 96)
    return "\n".join([textwrap.indent(head, "//! "), "", head_of(ghosts, uses), "", impls])


def equation(left, right):
    """An equation, in several lines if it is too long for one."""
    line = f"{left} = {right}"
    inside = textwrap.fill(right, 100, initial_indent=INDENT, subsequent_indent=2 * INDENT)
    return line if len(line) <= 100 else f"{left} =\n{inside}"


def by_variant(nodes, kind, left, field, there, elsewhere):
    """The equations of a definition by the variants of an enum: what it is where a variant holds a
    node with a field, and elsewhere."""
    prefix = "layer" if nodes.root(kind.name) else word(kind)
    for variant, held in kind.parts:
        name = f"{prefix}.{variant}"
        pattern = f"({name} node)" if held else name
        right = there(name, held) if nodes.has(held, field) else elsewhere(pattern)
        yield equation(left.format(pattern), right)


def lists(nodes, kind, type_, own, changed):
    """The definitions of the list of an enum, and of it with another list."""
    return [
        f"-- the list of a {word(kind)}, if it has attributes",
        f"abbrev pub {own} : {type_} → Option AttributeList",
        *by_variant(nodes, kind, f"{own} {{}}", "attributes",
                    lambda _, held: f"Some {nodes.record(held)}.attributes", lambda _: "None"),
        "", "-- it with another list in place of its own",
        f"abbrev pub {changed} : {type_} → AttributeList → {type_}",
        *by_variant(nodes, kind, f"{changed} {{}} list", "attributes",
                    lambda name, held: f"{name} ({nodes.with_list(held)})",
                    lambda pattern: pattern.strip("()")),
        ""]


def lists_in_cycle(nodes, kind):
    """The same of an enum in a cycle of types, by those of what it is as a record."""
    name, layer = kind.name, f"{kind.name}Layer"
    own, changed = f"{word(kind)}_list", f"{word(kind)}_with_list"
    return [
        f"-- a {word(kind)} of one kind", f"abbrev pub {layer} : Type 0",
        equation(layer, f"layer.{name}-F {' '.join(nodes.cycles[name])}"), "",
        *lists(nodes, kind, layer, "list_of_kind", "kind_with_list"),
        f"abbrev pub {own} : {name} → Option AttributeList",
        f"{own} node = list_of_kind (out-{name} node)", "",
        f"abbrev pub {changed} : {name} → AttributeList → {name}",
        f"{changed} node list = roll-{name} (kind_with_list (out-{name} node) list)", ""]


def enum_imports(nodes, kind):
    """What the definitions of an enum import: its variants, and the nodes in its cycle."""
    at = place(kind.name, nodes.homes[kind.name])
    if not nodes.root(kind.name):
        return [f"{at}.{{{kind.name}}}", f"{at}.TheVariants as {word(kind)}"]
    types = {(place(it, nodes.homes[it]), it) for it in nodes.cycles[kind.name]}
    views = nodes.views([kind.name, *(held for _, held in kind.parts)])
    return [*imports(types), f"{at}.TheOpen as layer", *imports(views)]


def definitions(said, uses, lines):
    """A module of definitions."""
    return "\n".join([f"-- {WRITTEN}: {said}.", *(f"use {it}" for it in uses), "", *lines, ""])


def list_definitions(nodes, crate):
    """The lists of the enums of a crate."""
    uses = ["Rattle.std.specs.Prelude.{Option, Some, None}", f"{SPECS}.Parts.{{AttributeList}}"]
    lines = []
    for kind in nodes.enums(crate):
        uses += enum_imports(nodes, kind)
        if nodes.root(kind.name):
            lines += lists_in_cycle(nodes, kind)
        else:
            names = (f"{word(kind)}_list", f"{word(kind)}_with_list")
            lines += lists(nodes, kind, kind.name, *names)
    return definitions("lists of attributes by variants", uses, lines[:-1])


def name_definition(nodes):
    """The name of the enum that has one."""
    kind, = [it for crate in NODES for it in nodes.enums(crate) if nodes.named(it)]
    uses = ["Rattle.std.specs.Prelude.{ℕ, List, Option, Some, None}",
            "Rattle.wgsl_tree_expression.specs.View.{ident_name}", *enum_imports(nodes, kind)]
    lines = by_variant(nodes, kind, "declared_name {}", "ident",
                       lambda _, held: f"Some (ident_name {nodes.record(held)}.ident)",
                       lambda _: "None")
    return definitions("names by variants", uses, [
        f"-- the name that a {word(kind)} of a module declares, if it declares one",
        f"abbrev pub declared_name : {kind.name} → Option (List ℕ)", *lines])


def main():
    nodes = Nodes(Table())
    for crate in NODES:
        (CRATE / f"src/{crate}_nodes.rt").write_text(module(nodes, crate))
        if nodes.enums(crate):
            path = CRATE / f"specs/{crate.capitalize()}Nodes.antt"
            path.write_text(list_definitions(nodes, crate))
    (CRATE / "specs/NamedNodes.antt").write_text(name_definition(nodes))
