"""Reads which parts the packed forms of statements have, in order, for
tools/tables/packed_statements.py and tools/tables/packed_rows.py."""
import re
from dataclasses import dataclass
from pathlib import Path

from antt import Module, last, term
from node_groups import in_cycle
from node_specs import only
from plain_trees import CONSTRUCTED, OWN, RENAMED, constructor, is_apart, short

ROOT = "Statement"
SPECS = Path("crates/wgsl_model_packed/specs/Statements.antt")
# the fields whose names are others in plain trees
FIELDS = {plain: name for name, plain in RENAMED.items()}


@dataclass(frozen=True)
class Part:
    """A part of a packed form: the function that gives it, what that is given but for a field, and
    the field. A rule has no field; that of a whole node is empty."""

    function: str
    given: tuple
    field: str | None

    @property
    def rules(self):
        """The rules that are given, as their constants are named."""
        return [it.removesuffix("_rule").upper() for it in self.given if it.endswith("_rule")]


def joined(sum_):
    """The terms that a term has one after another."""
    if sum_[0] == "op":
        return [*joined(sum_[2]), *joined(sum_[3])]
    return [] if sum_ == ("name", "[]") else [sum_]


def head(made):
    """The name that a term is or begins with."""
    return made[1][1] if made[0] == "app" else made[1]


def part_of(made, fields):
    """The part that a term gives, by the fields that its names are."""
    if made[0] == "name":
        return Part("rule", (made[1],), None)
    _, function, arguments = made
    given, field = [*map(head, arguments[:-1])], arguments[-1]
    while field[0] == "app":
        given.append(head(field))
        field = field[2][-1]
    return Part(function[1].removeprefix("packed_"), tuple(given),
                fields.get(field[1], last(field[1])))


def fields_of(kind, pattern):
    """The fields that the names in the pattern of a struct are; a record has no such names."""
    if pattern[0] == "name":
        return {}
    names = [FIELDS.get(it, it) for it in CONSTRUCTED[kind.name].split()[1:]]
    return dict(zip(map(head, pattern[2]), names))


class Equations:
    """The equations of the packed forms of statements and of what is in them."""

    def __init__(self, table):
        self.root = table.by_name[ROOT]
        self.by_name = table.by_name
        # the kinds of statements and of their parts in which there may be statements
        self.nesting = in_cycle(table, ROOT)
        self.module = Module(SPECS)
        # the lists and optional parts that have functions of their own
        self.own = {short(type_): held for held, (type_, _, _) in OWN.items()}
        comments = re.findall(r"^ *-- (.*)\n *pub packed_(\w+) :", SPECS.read_text(), re.M)
        self.comments = {name: comment for comment, name in comments}

    def clauses(self, function):
        """The patterns of each clause of a function, and the terms that it gives."""
        return [(patterns, joined(term(made)))
                for patterns, made in self.module.clauses[f"packed_{function}"]]

    def functions(self):
        """The functions in their order, each with the type that it takes last."""
        for name, _, type_ in self.module.signatures:
            yield name.removeprefix("packed_"), type_.split(" → ")[-2]

    def of_struct(self, kind, function):
        """The parts of a struct, by the function of its own."""
        [((pattern,), terms)] = self.clauses(function)
        return [part_of(it, fields_of(kind, pattern)) for it in terms]

    def of_variant(self, name):
        """The parts of a variant of a statement."""
        held, made = dict(self.root.parts)[name], constructor(self.root, name)
        kind = self.by_name.get(held)
        if kind and not is_apart(kind):
            return self.of_struct(kind, short(held))
        terms = only([terms for (_, pattern), terms in self.clauses("after")
                      if head(pattern) == made], f"packed_after .. {made}")
        parts = [part_of(it, {}) for it in terms]
        if parts[-1].function == short(held):
            parts[-1:] = self.of_struct(kind, short(held))
        return parts

    def of_one(self, held):
        """The parts of what may be left out, if it is there, or of an item of a list."""
        patterns, terms = self.clauses(short(OWN[held][0]))[1]
        item = patterns[-1][2][0]
        fields = {head(item): ""}
        if item[0] == "app":
            fields = dict(zip(map(head, item[2]), ["node()", "span()"]))
        return [part_of(it, fields) for it in terms[:-1 if held.endswith("*") else None]]

    def of_none(self, held):
        """What is there if nothing else is, or after all items."""
        return part_of(self.clauses(short(OWN[held][0]))[0][1][0], {})

    def ends(self, part):
        """The rules of which one is after a list: if that is empty, and if not."""
        if not part.given:
            return self.of_none(self.own[part.function]).given * 2
        [function] = part.given
        return tuple(head(term(made)) for _, made in self.module.clauses[function])

    def by_items(self, part):
        """A list or optional part by what gives its items, if that alone is after their rule."""
        held = self.own.get(part.function)
        if not held or len(self.of_one(held)) > 2:
            return part
        rule, item = self.of_one(held)
        item = f"packed_{item.function}"
        if held.endswith("?"):
            return Part("optional", (*rule.given, item), part.field)
        return Part("clauses", (*rule.given, *self.ends(part), item), part.field)

    def unended(self):
        """The patterns of the statements that no `;` ends, the constructor of each first."""
        for (pattern, _), _ in self.module.clauses["ended"]:
            if pattern[0] == "app":
                yield " ".join([head(pattern), *map(head, pattern[2])])

    def is_ended(self, name):
        """Whether a `;` ends a variant of a statement."""
        return constructor(self.root, name) not in [it.split()[0] for it in self.unended()]
