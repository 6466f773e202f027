"""Writes terms and values in a file of a theory, and the imports of the names in them."""
import antt
from antt import bound, enclosed, import_of, last, names_in
from rule_grammar import ByHand

SYMBOLS = "Rattle.wgsl_model.specs.Grammar.Symbols"
TREES = "Rattle.wgsl_model.specs.Trees"
COMMON = "Rattle.std.proofs.Common"


class Names:
    """The names that a file imports, from the files of its theory and the grammar."""

    def __init__(self, grammar, files, span=""):
        self.grammar, self.files = grammar, files
        # the variable of a span, where values keep their spans
        self.span = span
        self.symbols = set(grammar.rules)
        # names by module, modules with their short names, and names of variables
        self.imports, self.aliases, self.local = {}, set(), set()

    def cite(self, module, name):
        """Imports a name, from one module only."""
        if not any(name in names for names in self.imports.values()):
            self.imports.setdefault(module, set()).add(name)

    def cite_all(self, says):
        """Imports the names of a signature."""
        for token in antt.tokens(says):
            if token[0].isalpha() and token not in ("λ", "n", "b"):
                self.name(token)

    def name(self, name, of_values=False):
        """A name as it is written; among values the name of a symbol is that of a tree."""
        if name.partition(".")[0] in self.local:
            return name
        if name in self.symbols and of_values:
            return self.made(*self.grammar.module.home(name))
        if name in self.symbols:
            self.cite(SYMBOLS, name)
            return name
        for file in (self.grammar.module, *self.files):
            module, entry = file.home(name)
            if module != file.name or last(name) in file.clauses:
                typed = "." in entry and entry == name and not name.startswith("Grammar.")
                self.cite(module, entry.partition(".")[0] if typed else entry)
                return name if typed else last(name)
        return last(name)

    def made(self, module, name):
        """The name of what makes a tree, after a short name of its module."""
        if not module.startswith(TREES):
            if name[0] != '"':
                self.cite(module, name)
            return name
        alias = module.rpartition(".")[2].lower().rstrip("s") + "_trees"
        self.aliases.add((module, alias))
        return f"{alias}.{name}"

    def sign(self, sign):
        """A sign between terms, with spaces."""
        self.cite(COMMON, f"◌{sign}◌")
        return f" {sign} "

    def term(self, term, of_values=False):
        """A term as it is written."""
        kind = term[0]
        if kind == "name":
            return self.name(term[1], of_values)
        if kind == "app":
            parts = (term[1], *term[2])
            return " ".join(enclosed(self.term(part, of_values)) for part in parts)
        if kind == "op":
            sides = [(side[0], self.term(side, of_values)) for side in term[2:]]
            return self.sign(term[1]).join(
                enclosed(text) if of in ("op", "lambda") else text for of, text in sides)
        if kind == "tuple":
            return "(" + ", ".join(self.term(part, of_values) for part in term[1]) + ")"
        if kind == "record":
            return record((name, self.term(part, of_values)) for name, part in term[1])
        self.local = self.local | names_in(term[1])
        return bound([self.term(name) for name in term[1]], self.term(term[2], of_values))

    def value(self, value, at=""):
        """A value as it is written, with its parts at a place of a path."""
        kind = value[0]
        if kind == "path":
            return value[1] + at
        if kind == "span":
            return self.span or self.name("no_span")
        if kind == "tuple":
            return "(" + ", ".join(self.value(part, at) for part in value[1]) + ")"
        if kind == "record":
            return record((name, self.value(part, at)) for name, part in value[1])
        if kind == "op":
            return self.sign(value[1]).join(enclosed(self.value(part, at)) for part in value[2:])
        if kind != "made":
            raise ByHand
        parts = [enclosed(self.value(part, at)) for part in value[3]]
        return " ".join([self.made(value[1], value[2]), *parts])

    def lines(self, text):
        """The lines that import what a text names."""
        named = {part for token in antt.tokens(text)
                 for part in (token, f"◌{token}◌", token.partition(".")[0])}
        for module, alias in sorted(self.aliases):
            if alias in named:
                yield f"use {module} as {alias}"
        for module, names in sorted(self.imports.items()):
            yield from import_of(module, sorted(it for it in names if last(it) in named))


def record(fields):
    """A record as it is written."""
    return "record { " + "; ".join(f"{name} = {text}" for name, text in fields) + " }"
