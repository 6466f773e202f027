"""Reads the written grammar: its rules, and what the functions in them make of their parts."""
from pathlib import Path

import antt
from antt import last, substituted

MODEL = Path("crates/wgsl_model/specs")
PARTS = ("ExpressionParts", "StatementParts", "UnitParts")


class ByHand(Exception):
    """A part of a rule of which no term is found."""


class Grammar:
    """The written grammar: its rules, and the definitions that they name."""

    def __init__(self):
        names = ["Grammar/Written", *(f"Grammar/{part}" for part in PARTS), "Grammar/TokenValues"]
        paths = [MODEL / f"{name}.antt" for name in names]
        paths += sorted((MODEL / "Trees").glob("*.antt"))
        files = [antt.Module(path, whole=True) for path in paths]
        self.modules = {file.name: file for file in files}
        self.functions = {name for file in files[1:] for name in file.clauses}
        self.module, *parts = files[:len(PARTS) + 1]
        for part in parts:
            for name, uses in part.uses.items():
                self.module.uses.setdefault(name, uses)
            self.module.uses.update({name: [(part.name, name)] for name in part.clauses})
        self.parts = {name: (patterns, self.named(part, body))
                      for part in parts for name, ((patterns, body), *_) in part.clauses.items()}
        self.rules = {symbol[1]: parsed(antt.term(body))
                      for (dialect, symbol), body in self.module.clauses["rules"]
                      if dialect != ("name", "recognized")}
        self.types = self.types_of(parts)

    def types_of(self, parts):
        """The types of the values of symbols and of parts, as tokens."""
        values = antt.Module(MODEL / "Grammar" / "Symbols.antt").clauses["Value"]
        symbols = {("app", ("name", "symbol"), tuple(patterns)): body for patterns, body in values}
        said = [(name, antt.tokens(text)) for part in parts for name, _, text in part.signatures]
        return symbols | {("name", name): kind for name, (of, *kind) in said if of == "Rule"}

    def type_of(self, rule):
        """The type of a rule's value, as tokens, where a symbol or a part shows it."""
        ways = ("optional", "many", "several", "list", "list_or_none")
        if rule[0] == "app" and rule[1][1] in ways:
            part = self.type_of(rule[2][-1])
            return part and ["Option" if rule[1][1] == "optional" else "List", *part]
        if rule[0] == "op" and rule[1] in ("▹", "◃", "or"):
            sides = [rule[2]] * (rule[1] != "▹") + [rule[3]] * (rule[1] != "◃")
            return next((kind for kind in map(self.type_of, sides) if kind), None)
        return self.types.get(rule)

    def named(self, part, tokens):
        """The tokens of a part, with names of modules that mean the same in each part."""
        for alias, module in part.aliases.items():
            known = module.rpartition(".")[2]
            self.module.aliases[known] = module
            tokens = [known + t[len(alias):] if t.startswith(alias + ".") else t for t in tokens]
        return tokens

    def unfolded(self, rule):
        """A part of rules by its definition, where it has one."""
        head, arguments = (rule[1], rule[2]) if rule[0] == "app" else (rule, ())
        if head[0] != "name" or head[1] not in self.parts:
            return None
        patterns, body = self.parts[head[1]]
        found = {pattern[1]: part for pattern, part in zip(patterns, arguments)}
        return parsed(substituted(antt.term(body), found))


def parsed(rule):
    """A rule in the dialect that is parsed."""
    if not isinstance(rule, tuple):
        return rule
    if rule == ("name", "L"):
        return ("name", "parsed")
    if rule[0] == "app" and rule[1] == ("name", "led"):
        return ("app", ("name", "attributed"), tuple(parsed(part) for part in rule[2][1:]))
    return tuple(parsed(part) for part in rule)


# ---- values: ("path", text) is a part of a rule, ("span",) where it is, ("made", module, name,
# arguments) what a constructor or a function that is not opened makes; the others are as terms


def has_path(value):
    """Whether a value is made of some part of a rule."""
    return isinstance(value, tuple) and (value[:1] == ("path",) or any(has_path(v) for v in value))


class Values:
    """What the functions in rules make of the parts of a rule, by their definitions."""

    def __init__(self, grammar, views, kept):
        # views are left out at a part, kept functions are not opened
        self.grammar, self.views, self.kept = grammar, views, kept

    def bind(self, pattern, value, known):
        """Adds the names of a pattern; whether the value has its form."""
        if pattern[0] == "name":
            known[pattern[1]] = value
            return True
        if value[0] == "path":
            value = ("tuple", tuple(("path", f"{value[1]}.{place}") for place in range(2)))
        return pattern[0] == value[0] == "tuple" and all(
            self.bind(p, v, known) for p, v in zip(pattern[1], value[1]))

    def call(self, head, arguments, module):
        """A function, by its name in a module, at values."""
        home, name = module.home(head)
        name = last(name)
        if name in self.views and arguments and arguments[-1][0] == "path":
            return arguments[-1]
        if arguments and all(value == ("span",) for value in arguments):
            return ("span",)
        known, home_module = {}, self.grammar.modules.get(home)
        clauses = home_module.clauses.get(name, []) if home_module else []
        if len(clauses) == 1 and name not in self.kept and len(arguments) >= len(clauses[0][0]):
            patterns, body = clauses[0]
            names = antt.names_in(tuple(patterns))
            projects = any(token.partition(".")[0] in names for token in body if "." in token)
            if not projects and all(self.bind(p, a, known) for p, a in zip(patterns, arguments)):
                made = self.value(antt.term(body), known, home_module)
                return self.apply(made, arguments[len(patterns):])
        return ("made", home, name, tuple(arguments))

    def chooses(self, value):
        """Whether a value is made by a function that has a clause for each form of its argument."""
        if not isinstance(value, tuple):
            return False
        module = self.grammar.modules.get(value[1]) if value[:1] == ("made",) else None
        return bool(module and value[2] in module.clauses and len(module.clauses[value[2]]) > 1) \
            or any(map(self.chooses, value))

    def apply(self, value, arguments):
        """A value at further values."""
        if not arguments:
            return value
        if value[0] == "made" and value[1] in self.grammar.modules:
            module = self.grammar.modules[value[1]]
            return self.call(value[2], [*value[3], *arguments], module)
        if value[0] != "closure":
            raise ByHand
        _, patterns, body, known, module = value
        known = dict(known)
        if not all(self.bind(p, a, known) for p, a in zip(patterns, arguments)):
            raise ByHand
        return self.apply(self.value(body, known, module), arguments[len(patterns):])

    def value(self, term, known, module=None):
        """The value of a term of a module, of the grammar's own if none is given."""
        module = module or self.grammar.module
        if term[0] == "name":
            return known[term[1]] if term[1] in known else self.call(term[1], [], module)
        if term[0] == "app":
            arguments = [self.value(part, known, module) for part in term[2]]
            if term[1][0] == "name" and term[1][1] not in known:
                return self.call(term[1][1], arguments, module)
            return self.apply(self.value(term[1], known, module), arguments)
        if term[0] == "tuple":
            return ("tuple", tuple(self.value(part, known, module) for part in term[1]))
        if term[0] == "record":
            return ("record", tuple((name, self.value(of, known, module)) for name, of in term[1]))
        if term[0] == "op":
            return ("op", term[1], *(self.value(part, known, module) for part in term[2:]))
        return ("closure", term[1], term[2], known, module)
