"""The kinds that contain statements and that statements contain: the parts of their structs, what
each is as plain data and as a code, and files about them. For the tools that write what follows
from the fields of such kinds."""
import re
from dataclasses import dataclass

from antt import import_of
from node_specs import cycle
from node_table import TREES, snake
from plain_trees import CONSTRUCTED, OWN, RENAMED, coded, is_apart, maker
from tree_codes import value
from tree_nodes import Plain, View, use_lines, views
from tree_terms import bracketed, exports

ROOT = "Statement"
CRATE = "Rattle.wgsl_tree_statement"
# the definitions of the types, and the module of their plain trees
DECLARED = f"{CRATE}.specs.declared.statement.{ROOT}"
FILE = "Trees.Statements"
STATEMENTS = f"Rattle.wgsl_model.specs.{FILE}"
LAYERS = f"{DECLARED}.TheViews as layers"
COMMON = "Rattle.std.proofs.Common"
# where types and functions of the library are, but for those of nodes
LIBRARY = {"Rattle.std.specs.Option": ["option_map"],
           "Rattle.std.specs.declared.vec.Vec": ["Vec"],
           "Rattle.std.specs.declared.alloc.Global": ["Global"],
           "Rattle.wgsl_span.specs.declared.Spanned": ["Spanned"]}


@dataclass(frozen=True)
class Part:
    """A field of a struct, or what a variant holds: its name, and its type in the table."""

    name: str
    held: str

    @property
    def item(self):
        """The kind of the value, of each value of a list, or of a value that may be left out."""
        return self.held.rstrip("*?")

    @property
    def is_list(self):
        return self.held.endswith("*")

    @property
    def is_optional(self):
        return self.held.endswith("?")


class Cycle:
    """Statements and the kinds that contain them and that they contain, in the order of the table,
    and their lists and optional parts, each once."""

    def __init__(self, table, at):
        names = cycle(table, ROOT)
        self.table, self.at, self.root = table, at, table.by_name[ROOT]
        self.kinds = [kind for kind in table.kinds if kind.name in names]
        self.structs = [kind for kind in self.kinds if kind.form == "struct"]
        self.views = {name: view for it in TREES for name, view in views(it).items()}
        self.views |= {name: View(f"{snake(name)}_view", name, FILE) for name in names}
        self.trees = Plain(FILE).text
        parts = [part for kind in self.structs for part in self.parts(kind) if self.is_own(part)]
        self.own_parts = list({part.held: part for part in parts}.values())
        self.lists = [part for part in self.own_parts if part.is_list]
        self.optional = [part for part in self.own_parts if part.is_optional]

    def parts(self, kind):
        """The fields of a struct, or the variants of an enum."""
        return [Part(*part) for part in kind.parts]

    def has(self, part):
        """Whether a part is of the cycle."""
        return part.item in {kind.name for kind in self.kinds}

    def is_own(self, part):
        """Whether a part is a list or an optional part of the cycle, with functions of its own."""
        return self.has(part) and part.held in OWN

    def is_spanned(self, part):
        """Whether each value of a part has its span."""
        return self.table.by_name[part.item].is_spanned

    def node(self, part):
        """The type of each value of a part in the library."""
        return f"{part.item}{'Node' * self.is_spanned(part)}"

    def split(self, kind):
        """Whether the lemma about a layer takes its parts, since some may be left out."""
        return any(self.is_own(part) and part.is_optional for part in self.parts(kind))

    def rolled(self, kind):
        """The lemma about a layer, at its arguments."""
        return f"{snake(kind.name)}_roll{' _' * (len(kind.parts) if self.split(kind) else 1)}"

    def stem(self, held):
        """What the functions and lemmas of a type are named by."""
        if held in OWN:
            return coded(OWN[held][0]).removesuffix("_code")
        if held == "Attribute*":
            return "attributes"
        if held[-1] in "*?":
            stem = self.stem(held[:-1])
            return f"{stem}s" if held.endswith("*") else f"maybe_{stem}"
        return coded(held).removesuffix("_code")

    def view(self, name):
        """The view of a kind, with its span if it has one."""
        if name in self.views and not self.table.by_name[name].is_spanned:
            return self.views[name].name
        return f"{snake(name)}{'_node' * self.table.by_name[name].is_spanned}_view"

    def whole_code(self, name):
        """The code of what the view of a kind gives, without its span."""
        code = coded(name)
        return f"attributed_code {code}" if is_apart(self.table.by_name[name]) else code

    def code(self, held, place):
        """The code of a value of a type as plain data."""
        return value(self.table, held, f"({self.shown(held, place)})", True)

    def made_of(self, held):
        """The function of plain trees that makes a list or optional part that has its own type."""
        return maker(held)

    def seen(self, held, place):
        """A value of a type as plain data, with a list and an optional part of the cycle as lists
        and options are; such a list is not a vector."""
        part = Part("", held)
        if held == "Attribute*":
            return f"attributes_view {place}.items"
        if part.is_list and self.is_own(part) and self.table.by_name[part.item].is_spanned:
            return f"{snake(part.item)}_nodes_view {place}"
        if part.is_list:
            return f"map {self.view(part.item)} {place}{'' if self.is_own(part) else '.items'}"
        if part.is_optional:
            return f"option_map {self.view(part.item)} {place}"
        return f"{self.view(held)} {place}"

    def as_own(self, held, seen):
        """What is seen of a value, as it is in a plain tree."""
        part = Part("", held)
        if not self.is_own(part) or part.is_list and self.table.by_name[part.item].is_spanned:
            return seen
        return f"{self.made_of(held)} ({seen})"

    def shown(self, held, place):
        """A value of a type as plain data."""
        return self.as_own(held, self.seen(held, place))

    def tree(self, kind, values):
        """The plain tree of a struct of the cycle, whose parts are given by their names, without
        attributes that are apart."""
        maker, *names = CONSTRUCTED[kind.name].split()
        given = {RENAMED.get(name, name): bracketed(value) for name, value in values.items()}
        return " ".join([f"plain.{maker}", *(given[name] for name in names)])

    def made(self, kind, values):
        """The plain tree of a struct of the cycle, with its attributes."""
        tree = self.tree(kind, values)
        return (f"with_attributes {bracketed(values['attributes'])} ({tree})" if is_apart(kind)
                else tree)

    def type(self, held):
        """A type as the definitions write it; a list of the cycle is not a vector."""
        part = Part("", held)
        item = f"Spanned {part.item}" if self.table.by_name[part.item].is_spanned else part.item
        bracketed = f"({item})" if " " in item else item
        if part.is_list:
            return f"List {bracketed}" if self.is_own(part) else f"Vec {bracketed} Global"
        return f"Option {bracketed}" if part.is_optional else item

    def uses(self, words):
        """The lines that import the types of the crate that are among words."""
        found = {}
        for name in words & set(self.at):
            if self.at[name].crate == self.at[ROOT].crate:
                found.setdefault(f"crate::{self.at[name].module}", []).append(name)
        return use_lines(found)

    def file(self, head, body, modules, others, *uses):
        """A file of definitions or proofs, which uses names of modules, and others."""
        lines = [*imports(body, self, modules, others), *(f"use {it}" for it in uses)]
        return "\n".join([f"-- {head}", *lines, "", body])

    def invariants(self, head, invariant, modules, others, given):
        """The file of the invariants of the loops over lists: of the name and what is said of
        each, where the module of what is given has their types."""
        lines = []
        for part in self.lists:
            name, said = invariant(part)
            lines += [f"abbrev pub {name} : goal.{name}", f"{name} l = {said}", ""]
        return self.file(head, "\n".join(lines), modules, others, f"{given}.Given as goal")


def imports(text, cycle, modules, others):
    """The lines that import the names of a text: types of the library, what modules export, the
    last ones first, and the names of others, which are given by their modules."""
    words = set(re.findall(r"(?<![\w.:-])[\w:-]+", text)) - set(re.findall(r"let (\w+)", text))
    words -= set(re.findall(r"^(?:abbrev )?(?:pub )?(\w+) :", text, re.M))
    signs = {f"◌{it}◌" for it in re.findall(r"(?<=\s)([^\s\w()\[\]{};,._]+)(?=\s)", text)}
    signs |= {"[]"} if "[]" in text else set()
    for module, names in others.items():
        yield from import_of(module, [it for it in names if it in words | signs])
    found = {}
    for module in reversed(modules):
        names = exports(module.removeprefix("Rattle.").replace(".", "/"))
        found[module] = sorted(names & words - set(cycle.at))
        words -= set(found[module])
    for module in modules:
        yield from import_of(module, found[module])
    for name in sorted(words & set(cycle.at)):
        yield f"use {cycle.at[name].declared}.{name}.{{{name}}}"
