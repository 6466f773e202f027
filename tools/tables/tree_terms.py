"""Lemmas about the codes of plain trees: their items, the terms of their parts, and their
imports."""
import re
from dataclasses import dataclass
from pathlib import Path

from antt import import_of, last
from node_table import separated
from plain_trees import CONSTRUCTED, RENAMED, is_apart
from tree_codes import function, groups, parenthesized

PROOFS = Path("crates/wgsl_tree_code/proofs")
CODES = "Rattle.wgsl_tree_code"
TREES = "Rattle.wgsl_model.specs.Trees"
PRELUDE = "Rattle.std.specs.Prelude"
# where the names are that lemmas use, beside those of generated files
MODULES = ["wgsl_model/specs/Trees/Spanned", "wgsl_model/specs/Trees/Attributed",
           "wgsl_model/specs/Trees/Attributes", "wgsl_model/specs/Trees/WithoutSpans",
           "wgsl_model/specs/Trees/StatementsWithoutSpans", "wgsl_tree_code/specs/Code",
           "wgsl_tree_code/specs/Same", "wgsl_tree_code/specs/Laws",
           "wgsl_tree_code/proofs/Reading", "wgsl_tree_code/proofs/Spanless"]
NAMES = ["[]", "◌∷◌", "Option", "None", "Some", "map", "codes", "true", "◌≡◌", "◌↔◌"]
STATED = re.compile(r"^ *(?:abbrev )?pub (?:data |record )?(\w+)(?: \([^)]*\))? :", re.M)
CONSTRUCTORS = re.compile(r"^    (\w+) :", re.M)


@dataclass(frozen=True)
class Item:
    """A definition or a lemma: its type and its clauses."""

    name: str
    type: str
    clauses: list
    is_lemma: bool = False

    def text(self, front=""):
        """Its text."""
        clauses = [" ".join(f"{self.name} {left} = {right}".split())
                   for left, right in self.clauses]
        return "\n".join([f"{front}pub {self.name} : {self.type}", *clauses])

    def calls(self):
        """The names that its clauses have."""
        return set(re.findall(r"\w+", " ".join(right for _, right in self.clauses)))


def bracketed(text):
    """A term as an argument."""
    return text if re.fullmatch(r"[\w.-]+", text) else f"({text})"


def applied(function, *arguments):
    """A function with its arguments."""
    is_group = function.startswith("(") and not function.startswith("(λ")
    return " ".join([function[1:-1] if is_group else function, *arguments])


def place_of(kind, name):
    """Where a part of a struct is in the clause of a lemma."""
    is_named = kind.name in CONSTRUCTED or (is_apart(kind) and name == "attributes")
    return RENAMED.get(name, name) if is_named else f"n.{name}"


def pattern_of(kind):
    """How the plain tree of a struct is matched in the clause of a lemma."""
    return f"(plain.{CONSTRUCTED[kind.name]})" if kind.name in CONSTRUCTED else "n"


class Codes:
    """The functions that give the codes of values."""

    def __init__(self, table):
        self.table = table

    def code(self, held):
        """That of a type, as an argument."""
        if held.endswith("?"):
            return f"(optional {self.code(held[:-1])})"
        if held.startswith("("):
            first, second = separated(held[1:-1])
            return f"(λ p. pair_of ({self.code(first)} p.0) ({self.code(second)} p.1))"
        return parenthesized(function(self.table, held))


def bodies(items, front):
    """The texts of items, each after those that it uses; those that use one another are mutual."""
    for group, is_mutual in groups(items):
        lines = "\n\n".join(it.text("" if is_mutual else front) for it in group)
        if is_mutual:
            lines = f"{front}mutual\n" + re.sub(r"^(?=.)", "  ", lines, flags=re.M)
        yield lines


def exports(module):
    """The names of a module that others may use."""
    text = Path(f"crates/{module}.antt").read_text()
    passed = " ".join(re.findall(r"^pub use \S+\.\{([^}]*)\}", text, re.M))
    # the fields of a record are not names of the module
    text = re.sub(r"^(pub record .*\n)(?:  .*\n)+", r"\1", text, flags=re.M)
    names = [*STATED.findall(text), *CONSTRUCTORS.findall(text), *re.findall(r"[\w.]+", passed)]
    return set(map(last, names))


def imports(text, module, homes):
    """What imports the names of a text, whose plain trees are in a module."""
    words = set(re.findall(r"(?<![.\w])\w+", text))
    names = [it for it in NAMES if it in words or (it in ("[]", "◌∷◌", "◌≡◌", "◌↔◌")
                                                  and it.strip("◌") in text)]
    yield from import_of(PRELUDE, names)
    yield from import_of("Rattle.std.proofs.Common", ["refl"] * ("refl" in words))
    changes = sorted(it for it in words if it.startswith("changed_"))
    yield from import_of(f"{TREES}.Statements", changes)
    yield f"use {TREES}.{module} as plain"
    known = {f"Rattle.{it.replace('/', '.')}": exports(it) for it in MODULES}
    for name, home in homes.items():
        known.setdefault(home, set()).add(name)
    for home, names in known.items():
        yield from import_of(home, sorted(names & words))


def file_text(head, module, items, homes):
    """The text of a file of definitions and lemmas."""
    definitions = bodies([it for it in items if not it.is_lemma], "abbrev ")
    lemmas = bodies([it for it in items if it.is_lemma], "")
    text = "\n\n".join([*definitions, *lemmas])
    others = {name: home for name, home in homes.items() if name not in {it.name for it in items}}
    return "\n".join([f"-- {head}", *imports(text, module, others), "", text, ""])
