"""Writes the tables of the factored grammar: what each symbol can begin with, whether it can be
empty, what could go on after it, its rank and its height.

It names each place where one token does not decide. Half of it reads the rules for `dialect` too.
"""
import re
import sys
from dataclasses import dataclass
from pathlib import Path

import antt
import inputs
import token_table

READS = (inputs.TOKENS, inputs.FACTORED)
WRITES = ("crates/wgsl_theory_grammar/specs/Tables.antt",)

THEORY = Path("crates/wgsl_theory_grammar")
MODEL = Path("crates/wgsl_model/specs")
CLASSES = MODEL / "Tokens" / "ClassTable.antt"
PARTS = ["ExpressionParts", "StatementParts", "UnitParts", "Written"]
# the language that is parsed, and the smaller one of a text that is recognised and not parsed
DIALECTS = ["parsed", "recognized"]


@dataclass(frozen=True)
class Node:
    """A right side: `kind` is the constructor's name."""

    kind: str
    parts: tuple = ()
    data: object = None


EMPTY = Node("empty")


def node(kind, *parts):
    return Node(kind, parts)


def token(classes):
    return Node("token", (), tuple(classes))


def mapped(*parts):
    """Parts one after another, of which something is made."""
    return node("mapped", parts[0] if len(parts) == 1 else node("sequence", *parts))


# what the words of the notation make of their arguments, and its signs of their sides: what is on
# the right of some is not read
WORDS = {
    "empty": lambda value: EMPTY,
    "token": token,
    "one_token": lambda it: token([it]),
    "left_chain": lambda action, first, item: node("left_chain", first, item),
    "optional": lambda part: node("choice", mapped(part), EMPTY),
    "many": lambda part: node("left_chain", EMPTY, part),
    "several": lambda part: node("left_chain", mapped(part), part),
    "lifted": lambda part: part,
}
ALONE = {
    "means": lambda it: mapped(token([it])),
    "gives": mapped,
    "makes": lambda it: node("node", it),
    "with_check": lambda it: node("checked", it),
}
SIDES = {
    "∷": lambda first, others: [first, *others],
    "then": lambda first, second: node("sequence", first, second),
    "or": lambda first, second: node("choice", first, second),
    "▹": lambda first, second: mapped(token([first]), second),
    "◃": lambda first, second: mapped(first, token([second])),
}


class Rules:
    """Evaluates right sides in one dialect; what is no rule has no value."""

    def __init__(self, paths, classes, dialect):
        self.found, self.classes, self.dialect = {}, classes, dialect
        for path in paths:
            for name, clauses in antt.Module(path).clauses.items():
                self.found.setdefault(name, []).extend(clauses)

    def is_met(self, pattern):
        """Whether a pattern is a name, and this dialect's where it is the name of one."""
        return pattern[0] == "name" and (pattern[1] not in DIALECTS or pattern[1] == self.dialect)

    def value(self, term, names):
        """The value of a term, in which names have values."""
        if term[0] == "name":
            return self.call(term[1], [], names)
        if term[0] == "app" and term[1][0] == "name":
            return self.call(term[1][1], [it for it in term[2] if it[1][:1] != "{"], names)
        if term[0] == "op" and term[1] in ALONE:
            return ALONE[term[1]](self.value(term[2], names))
        if term[0] == "op" and term[1] in SIDES:
            return SIDES[term[1]](*(self.value(side, names) for side in term[2:]))
        return None

    def call(self, name, arguments, names):
        """The value of a name at terms."""
        if name in names and not arguments:
            return names[name]
        if name in self.classes:
            return name
        if name == "[]":
            return []
        if name == "symbol":
            return Node("symbol", (), symbol(arguments[0]))
        values = [self.value(argument, names) for argument in arguments]
        if name in WORDS:
            return WORDS[name](*values)
        clauses = [it for it in self.found.get(name, []) if all(map(self.is_met, it[0]))]
        if len(clauses) == 1 and len(clauses[0][0]) == len(arguments):
            patterns, body = clauses[0]
            return self.value(antt.term(body), dict(zip((it[1] for it in patterns), values)))
        return None

    def clauses(self, name):
        """The clauses of a function of a dialect and a symbol that are this dialect's, by the
        pattern of the symbol."""
        return [(patterns[1], body) for patterns, body in self.found[name]
                if self.is_met(patterns[0])]


def symbol(term):
    """A symbol: whether it is a written or a further one, and its name."""
    return ("of", term[1]) if term[0] == "name" else (term[1][1], term[2][0][1])


def rules(dialect):
    """The right side of each symbol in a dialect, in the order of the symbols."""
    factored = THEORY / "specs/Factored.antt"
    parts = [MODEL / "Grammar" / f"{part}.antt" for part in PARTS]
    reader = Rules([CLASSES, *parts, factored], set(token_table.Table().classes), dialect)
    own = {}
    for pattern, body in reader.clauses("factored"):
        if pattern[2][0][1] not in ("n", "x"):
            own[symbol(pattern)] = body
    for pattern, body in reader.clauses("further_body"):
        own["further", pattern[1]] = body
    for pattern, body in reader.clauses("rules"):
        own.setdefault(("of", pattern[1]), body)
    order = [("of", n) for n in antt.constructors(MODEL / "Grammar" / "Symbols.antt", "Symbol")]
    order += [("further", x) for x in antt.constructors(factored, "Further")]
    missing = [n for n in order if n not in own]
    assert not missing, f"no rule for {missing}"
    return {n: reader.value(antt.term(own[n]), {}) for n in order}


class Tables:
    """The least tables of some rules."""

    def __init__(self, table):
        self.table = table
        self.empty = dict.fromkeys(table, False)
        self.first = {n: frozenset() for n in table}
        self.more = {n: frozenset() for n in table}
        self.rank = dict.fromkeys(table, 0)
        self.height = dict.fromkeys(table)
        for values, of in [(self.empty, self.nullable), (self.first, self.begins),
                           (self.more, self.goes_on), (self.rank, self.left_rank),
                           (self.height, self.least_height)]:
            self.close(values, of)

    def close(self, values, of):
        for _ in range(200):
            changed = False
            for n, right_side in self.table.items():
                value = of(right_side)
                changed |= value != values[n]
                values[n] = value
            if not changed:
                return
        sys.exit("the rules are left-recursive through symbols: the ranks have no end")

    def nullable(self, g):
        if g.kind == "symbol":
            return self.empty[g.data]
        if g.kind in ("empty", "token"):
            return g.kind == "empty"
        if g.kind == "sequence":
            return all(map(self.nullable, g.parts))
        if g.kind == "choice":
            return any(map(self.nullable, g.parts))
        return self.nullable(g.parts[0])

    def begins(self, g):
        if g.kind == "symbol":
            return self.first[g.data]
        if g.kind in ("empty", "token"):
            return frozenset(g.data or ())
        sets = list(map(self.begins, g.parts))
        if g.kind in ("sequence", "left_chain"):
            return sets[0] | (sets[1] if self.nullable(g.parts[0]) else frozenset())
        return frozenset().union(*sets)

    def goes_on(self, g):
        if g.kind == "symbol":
            return self.more[g.data]
        if g.kind in ("empty", "token"):
            return frozenset()
        sets = list(map(self.goes_on, g.parts))
        if g.kind == "sequence":
            return sets[1] | (sets[0] if self.nullable(g.parts[1]) else frozenset())
        if g.kind == "choice":
            first = self.begins(g.parts[0]) if self.nullable(g.parts[1]) else frozenset()
            return sets[0] | sets[1] | first
        if g.kind == "left_chain":
            return self.begins(g.parts[1]) | sets[1] | sets[0]
        return sets[0]

    def left_rank(self, g):
        if g.kind == "symbol":
            return self.rank[g.data] + 1
        if g.kind in ("empty", "token"):
            return 0
        ranks = list(map(self.left_rank, g.parts))
        if g.kind in ("sequence", "left_chain"):
            return max(ranks[0], ranks[1] if self.nullable(g.parts[0]) else 0)
        return max(ranks)

    def least_height(self, g):
        if g.kind == "symbol":
            return None if self.height[g.data] is None else self.height[g.data] + 1
        if g.kind in ("empty", "token"):
            return 0
        heights = list(map(self.least_height, g.parts))
        if g.kind == "sequence":
            return None if None in heights else max(heights)
        if g.kind == "choice":
            return min((h for h in heights if h is not None), default=None)
        return heights[0]

    def all_ranks(self, g):
        if g.kind == "symbol":
            return self.rank[g.data] + 1
        return max(map(self.all_ranks, g.parts), default=0)

    def conflicts(self, g):
        """The places in a right side where one token does not decide, in words."""
        for part in g.parts:
            yield from self.conflicts(part)
        both = None
        if g.kind == "sequence":
            both, where = self.goes_on(g.parts[0]) & self.begins(g.parts[1]), "goes on or ends"
        elif g.kind == "choice":
            both, where = self.begins(g.parts[0]) & self.begins(g.parts[1]), "begins two cases"
            if self.nullable(g.parts[0]):
                yield "a first case can be empty"
        elif g.kind == "left_chain":
            both = (self.goes_on(g.parts[0]) | self.goes_on(g.parts[1])) & self.begins(g.parts[1])
            where = "goes on or begins an item"
            if self.nullable(g.parts[1]):
                yield "an item can be empty"
        elif g.kind in ("node", "checked") and self.nullable(g.parts[0]):
            yield "a part with a span can be empty"
        elif g.kind == "token" and not g.data:
            yield "a token has no class"
        if both:
            yield f"{' '.join(sorted(both))} {where}"


def pattern(n):
    return f"({n[0]} {n[1]})"


class Writer:
    """Writes the tables as definitions; long sets that several symbols have get a name."""

    def __init__(self, tables, classes):
        self.tables = tables
        self.order = list(tables.table)
        self.place = {c: i for i, c in enumerate(classes)}
        self.lines = []

    def set_text(self, classes):
        return " ∷ ".join(sorted(classes, key=self.place.get) + ["[]"])

    def sets(self, name, prefix, says, values):
        users = {}
        for n in self.order:
            users.setdefault(values[n], []).append(n)
        shared = {}
        for classes, symbols in users.items():
            if len(symbols) > 1 and len(classes) > 2:
                shared[classes] = f"{prefix}_{symbols[0][1]}"
                self.define(f"{says} {', '.join(n[1] for n in symbols)}", shared[classes], "List ℕ")
                self.lines.append(f"{shared[classes]} = {self.set_text(classes)}")
        self.define(f"{says} each symbol", name, "FactoredSymbol → List ℕ")
        self.clauses(name, {n: shared.get(values[n]) or self.set_text(values[n])
                            for n in self.order})

    def define(self, says, name, type_):
        """The lines before the clauses of a definition."""
        self.lines += ["", f"-- {says}", f"abbrev pub {name} : {type_}"]

    def clauses(self, name, texts):
        """A clause for each symbol, and one for all that have the value which most have."""
        most = max(texts.values(), key=list(texts.values()).count)
        self.lines += [f"{name} {pattern(n)} = {text}" for n, text in texts.items() if text != most]
        self.lines += [f"{name} n = {most}"]

    def numbers(self, name, says, values):
        self.define(says, name, "FactoredSymbol → ℕ")
        self.clauses(name, {n: str(values[n]) for n in self.order})

    def text(self):
        tables = self.tables
        self.sets("firsts", "begin", "the classes that begin", tables.first)
        self.define("the symbols that can be empty", "empties", "FactoredSymbol → Bool")
        self.clauses("empties", {n: str(tables.empty[n]).lower() for n in self.order})
        self.sets("mores", "after", "the classes that could go on after", tables.more)
        self.numbers("ranks", "how many symbols can follow one another before a token is taken",
                     tables.rank)
        self.numbers("heights", "how many symbols are within one another at least", tables.height)
        self.define("the greatest rank of a part", "rank_limit", "ℕ")
        self.lines.append(f"rank_limit = {max(map(tables.all_ranks, tables.table.values()))}")
        self.define("all of them", "tables", "Tables FactoredSymbol")
        self.lines += ["tables = record { first = firsts; empty = empties; more = mores; "
                       "rank = ranks }", ""]
        body = "\n".join(self.lines)
        words = set(re.findall(r"\w+", body))
        used = [it for it in self.place if it in words]
        symbols, further = ([f"{type_}.{n[1]}" for n in self.order
                             if n[0] == kind and pattern(n) in body]
                            for type_, kind in (("Symbol", "of"), ("Further", "further")))
        further = ["FactoredSymbol", "FactoredSymbol.of", "FactoredSymbol.further", *further]
        return "\n".join([
            "-- The tables of the factored grammar, written by tools/tables/tables.py.",
            "use Rattle.std.specs.Prelude.{ℕ, Bool, true, false, List, [], ◌∷◌}",
            "use Rattle.grammar.specs.Tables.{Tables}",
            f"use Rattle.wgsl_model.specs.Tokens.ClassTable.{{{', '.join(used)}}}",
            f"use Rattle.wgsl_model.specs.Grammar.Symbols.{{{', '.join(symbols)}}}",
            f"use Rattle.{THEORY.name}.specs.Factored.{{{', '.join(further)}}}",
            body])


def main():
    tables = Tables(rules("parsed"))
    found = [(n, text) for n, g in tables.table.items() for text in tables.conflicts(g)]
    for n, text in found:
        print(f"{n[1]}: {text}")
    bare = [n for n in tables.table if tables.height[n] is None]
    for n in bare:
        print(f"{n[1]}: derives no list of tokens")
    if found or bare:
        sys.exit(1)
    writer = Writer(tables, token_table.Table().classes)
    (THEORY / "specs/Tables.antt").write_text(writer.text())
