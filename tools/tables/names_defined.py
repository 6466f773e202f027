"""Reads the definitions of wgsl_model_names: what each says of a kind of node. For the tools that
write functions that do so: also what these import."""
import re
from pathlib import Path

from antt import Module, last
from plain_trees import UNATTRIBUTED, constructor
from tree_nodes import use_lines

SPECS = Path("crates/wgsl_model_names/specs")
# the crates with nodes that have names, each with the file of its plain trees
PLAIN = {"attribute": "Attributes", "simple": "Statements", "statement": "Statements",
         "unit": "Units"}
# the clauses and definitions in code
GHOST = re.compile(r"ghost .*?;\n|ensures \{.*?\) \}\n", re.S)


def owners(table, kind):
    """The enums with attributes apart that have a variant of a kind, each with its constructor."""
    for name in UNATTRIBUTED:
        enum = table.by_name[name]
        for variant, held in enum.parts:
            if held == kind.name:
                yield name, constructor(enum, variant)


def clauses_in(code):
    """The clauses and definitions in code, and the words in them."""
    text = " ".join(GHOST.findall(code))
    return text, set(re.findall(r"\w+", text))


def uses(code, crate, places, functions):
    """The lines that import what the code of a crate names: nodes, and other things, each with its
    module and with what shows that it is used, if that is not its name."""
    code = GHOST.sub("", code)
    words, found = set(re.findall(r"(?<!::)\b\w+", code)), {}
    for name, (module, *sign) in functions.items():
        is_used = sign[0] in code if sign else name in words
        if is_used and module != f"crate::{crate}_nodes":
            found.setdefault(module, []).append(name)
    for name in words & set(places):
        if places[name].crate in (crate, "words"):
            found.setdefault(f"wgsl_tree_{places[name].crate}", []).append(name)
    return use_lines(found)


def begins(pattern, made):
    """Whether a pattern is of what is made by a constructor, or by one of one of its arguments."""
    if pattern[0] != "app":
        return False
    names = [last(part[1]) for part in (pattern[1], *pattern[2]) if part[0] == "name"]
    return names[:len(made)] == list(made)


class Defined:
    """The functions of a file of definitions: the type of each, and its clauses, each of patterns
    and the tokens of its right side."""

    def __init__(self, file):
        module = Module(SPECS / f"{file}.antt")
        self.types = {name: held for name, _, held in module.signatures}
        self.clauses = module.clauses

    def of_type(self, type_, before=""):
        """The first function of the nodes of a type, if there is one."""
        form = rf"(?:Renaming → )?{before}(?:\w+\.)?{type_} →"
        return next((name for name, held in self.types.items() if re.match(form, held)), None)

    def clause(self, name, *made):
        """The clause of a function for what is made by a constructor, if there is one: its pattern
        and the tokens of its right side."""
        return next(((patterns[-1], right) for patterns, right in self.clauses[name]
                     if begins(patterns[-1], made)), None)

    def argument(self, name, made):
        """The right side of the clause for an attribute whose argument is an expression."""
        return (self.clause(name, "with_argument", made)
                or self.clause(name, "with_argument", "name"))[1]
