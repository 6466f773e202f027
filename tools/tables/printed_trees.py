"""Reads the trees of statements, how they are changed and printed; writes terms of these."""
import re
from pathlib import Path
from types import SimpleNamespace

import antt
from antt import enclosed, match
from rule_names import COMMON, Names

MODEL = Path("crates/wgsl_model/specs")
PRINTED = MODEL / "Printed/Statements.antt"
CHANGES = sorted((MODEL / "Trees").glob("Statement*.antt"))


class Law:
    """What is known of a term: a pattern, its variables, and the text of a proof of them."""

    def __init__(self, pattern, variables, proof):
        self.pattern, self.variables, self.proof = antt.term(pattern), variables, proof

    def at(self, term):
        """The proof for a term, if it has the form of the pattern."""
        found = {}
        if not match(self.pattern, term, set(self.variables), found):
            return None
        return self.proof.format(*(found[name][1] for name in self.variables))


class Written(Names):
    """Writes terms with their names imported; a term ("text", TEXT) is written already."""

    def __init__(self, files):
        super().__init__(SimpleNamespace(rules=(), module=files[0]), files[1:])
        for file in files:
            for name, _, _ in file.signatures:
                file.clauses.setdefault(name, [])
        for name in "refl", "[]", "◌≡◌", "◌∷◌", "◌++◌":
            self.cite(COMMON, name)

    def term(self, term, of_values=False):
        """A term as it is written; signs that bind to the right need no parentheses."""
        if term[0] == "text" or term[1][:1] == '"':
            return term[1]
        if term[0] == "app":
            texts = [(part[1][:1] == '"', self.term(part)) for part in (term[1], *term[2])]
            return " ".join(text if plain else enclosed(text) for plain, text in texts)
        if term[0] == "op" and term[3][:2] == term[:2]:
            left = self.term(term[2])
            left = enclosed(left) if term[2][0] == "op" else left
            return f"{left} {term[1]} {self.term(term[3])}"
        return super().term(term, of_values)

    def file(self, body):
        """The text of a file: what it imports, and its definitions and lemmas."""
        self.local = set(re.findall(r"^ *(?:abbrev )?(?:pub )?(\w+) :", body, re.M))
        self.cite_all(body)
        return "\n".join([*self.lines(body), "", body])


class Printed:
    """The functions of the trees of statements that change them, and those that print them."""

    def __init__(self):
        self.prints = antt.Module(PRINTED)
        self.trees = [antt.Module(path) for path in CHANGES]
        self.constructors = set(self.prints.uses)
        # the function that changes each type
        self.changes = {}
        for file in self.trees:
            for name, _, says in file.signatures:
                first, *types = " ".join(says.split()).split(" → ")
                if first == "Change" and len(types) == 2 and types[0] == types[1]:
                    self.changes[types[0]] = name
        # the type that each function prints, and its clauses by what they print
        self.types = {name: says.split(" → ")[0] for name, _, says in self.prints.signatures
                      if says.partition(" → ")[2] in ("List ℕ", "List (List ℕ)")
                      and says.split(" → ")[0] in self.changes}

    def is_variable(self, pattern):
        """Whether a pattern is a variable."""
        return pattern[0] == "name" and pattern[1] not in self.constructors

    def changed(self, kind):
        """The clauses of the function that changes a type: what is changed, and into what."""
        name = self.changes[kind]
        clauses = [it for file in self.trees for it in file.clauses.get(name, [])]
        return [(patterns[1], body) for patterns, body in clauses]

    def statement_of(self, pattern):
        """The pattern of a statement of a kind."""
        return ("app", ("name", "statement"), (("name", "attributes"), pattern))

    def printed(self, name, pattern):
        """The clause of a function that prints what has a form: its pattern and its body."""
        clauses = [(patterns[0], body) for patterns, body in self.prints.clauses[name]]
        return next(it for it in clauses if self.is_variable(it[0])
                    or constructor(it[0]) == constructor(pattern))


def constructor(pattern):
    """The constructor of a pattern."""
    return (pattern[1] if pattern[0] == "app" else pattern)[1]


def variables(pattern, constructors):
    """The variables of a pattern, in their order."""
    if pattern[0] == "app":
        return [name for part in pattern[2] for name in variables(part, constructors)]
    return [] if pattern[1] in constructors else [pattern[1]]


def follows(term, laws):
    """A term with proofs in the places of what laws are about."""
    proof = next((it for it in (law.at(term) for law in laws) if it), None)
    if proof:
        return ("text", proof)
    if term[0] == "app":
        return ("app", term[1], tuple(follows(part, laws) for part in term[2]))
    if term[0] == "op":
        return (*term[:2], *(follows(side, laws) for side in term[2:]))
    return term


def fields(text, record):
    """The fields of a record, with what they say."""
    block = re.search(rf"^pub record {record} .*\n((?:  .*\n)+)", text, re.M)[1]
    return [field.split(" : ", 1) for field in re.split(r"^  pub ", block, flags=re.M)[1:]]


def module(head, *blocks):
    """A module with parameters, and the blocks in it."""
    return "\n\n".join([head, *(re.sub("^(?=.)", "  ", it, flags=re.M) for it in blocks)])


def mutual(lemmas):
    """Lemmas that cite each other."""
    return module("mutual", *lemmas).replace("mutual\n\n", "mutual\n")
