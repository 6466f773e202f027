"""What Names of wgsl_model_names says of each kind of node, as steps: the parts with names, the
uses, the declarations and the scopes, each with its place in the node."""
import re
from dataclasses import dataclass

from antt import last, term
from names_defined import Defined, owners
from plain_trees import CONSTRUCTED, RENAMED, is_apart, short

# the names in the variants of the enums whose attributes are apart
VARIANTS = {"Statement": "unattributed_names", "GlobalDeclaration": "content_names"}


@dataclass(frozen=True)
class Step:
    """A step: to "put" the names of a part, as uses or as "unknown" ones, to "use" a name, to
    declare the names of a list, "all", or the "start" or the "end" of a scope."""

    what: str
    place: str = ""


def variables(pattern, table, kind):
    """The variables of a pattern, each with the place in a node of what it is."""
    if pattern[0] == "name":
        return {pattern[1]: ""}
    if pattern[0] == "tuple":
        return {name: name for _, name in pattern[1]}
    maker, arguments = last(pattern[1][1]), pattern[2]
    shape, fields = CONSTRUCTED.get(kind.name, "").split(), dict(kind.parts)
    if shape[:1] != [maker]:
        return {name: place for part in arguments
                for name, place in variables(part, table, kind).items()}
    names = {RENAMED.get(name, name): name for name in fields}
    found = {}
    for field, part in zip([names[it] for it in shape[1:]], arguments):
        inside = variables(part, table, table.by_name.get(fields[field], kind))
        found |= {name: f"{field}.{place}".strip(".") for name, place in inside.items()}
    return found


def words_in(said):
    """The names in a term."""
    if said[0] == "name":
        return {said[1]}
    return {name for part in said if isinstance(part, tuple) and part for name in words_in(part)}


def steps_of(said, where):
    """The steps of a term, by the places of its variables."""
    if said[0] == "op":
        return steps_of(said[2], where) + steps_of(said[3], where)
    if said == ("name", "nothing"):
        return []
    function, arguments = said[1][1], said[2]
    if function == "scope":
        return [Step("start"), *steps_of(arguments[0], where), Step("end")]
    name, *fields = arguments[-1][1].split(".")
    place = ".".join(it for it in [where[name], *fields] if it and it != "node")
    if function == "each" and arguments[0][1].endswith("_declared"):
        return [Step("all", place)]
    if function == "used":
        return [Step("use", place)]
    return [Step("unknown" if "unknown" in words_in(said) else "put", place)]


class Said:
    """What the definitions say of the kinds of nodes."""

    def __init__(self, table):
        self.table, self.defined = table, Defined("Names")

    def of_struct(self, kind):
        """What is said of a struct, if anything but its attributes: the function, if it has one of
        its own, its pattern, and the tokens of the right side."""
        for before in ("Attributed ", "Spanned ", ""):
            name = self.defined.of_type(kind.name, before)
            if name:
                patterns, right = self.defined.clauses[name][0]
                return name, patterns[-1], right
        found = [self.defined.clause("attribute_names", short(kind.name)),
                 *(self.defined.clause(VARIANTS[owner], made)
                   for owner, made in owners(self.table, kind) if owner in VARIANTS)]
        return next(((None, *it) for it in found if it), None)

    def is_whole(self, name):
        """Whether a function gives the names of a node with its attributes, although apart."""
        return name and re.match(r"Attributed |Spanned ", self.defined.types[name])

    def steps(self, kind):
        """The steps of a struct."""
        found, attributes = self.of_struct(kind), [Step("put", "attributes")] * is_apart(kind)
        if not found:
            return attributes
        name, pattern, right = found
        steps = self.of_clause((pattern, right), kind)
        return steps if self.is_whole(name) else attributes + steps

    def of_clause(self, clause, kind):
        """The steps of a clause, by the places in a node of a kind."""
        pattern, right = clause
        return steps_of(term(list(right)), variables(pattern, self.table, kind))

    def of_variant(self, enum, made, struct):
        """The steps of a variant that holds a struct: a step without a place is of the whole."""
        clause = enum.name in VARIANTS and self.defined.clause(VARIANTS[enum.name], made)
        if not clause:
            return [Step("put", "attributes")]
        steps = self.of_clause(clause, struct)
        return steps if Step("put") in steps else [Step("put")]

    def names(self, kind):
        """The definition of the names of a kind."""
        if kind.form != "struct":
            spanned = kind.is_spanned and kind.name != "Statement"
            return self.defined.of_type(kind.name, "Spanned " * spanned)
        name, pattern, right = self.of_struct(kind)
        if self.is_whole(name) or not is_apart(kind):
            return name
        if not name:
            text = re.sub(r"(?<=\() | (?=\))", "", " ".join(right))
            name = f"(λ {pattern[2][0][1]}. {text})"
        return f"attributed {name}"
