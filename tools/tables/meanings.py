"""Writes what the further symbols mean, from the rules of both forms of the grammar.

What is after the attributes in a factored rule means what is after them in the written rule. What
is made of further symbols means the same of what these mean. The others are in Meaning.antt. By
hand, each statement would be in three definitions more.
"""
import re
from pathlib import Path

import antt
import inputs
from antt import enclosed, import_of

READS = (inputs.GRAMMAR, inputs.FACTORED, "crates/wgsl_theory_grammar/specs/Meaning.antt")
WRITES = ("crates/wgsl_theory_grammar/specs/Meaning[CR]*.antt",)

THEORY = Path("crates/wgsl_theory_grammar/specs")
WRITTEN = Path("crates/wgsl_model/specs/Grammar/Written.antt")
FACTORED, BY_HAND = THEORY / "Factored.antt", THEORY / "Meaning.antt"
OTHERS = "other_meaning"
# what is before a part in a factored rule, and in a written one
BEFORE = "attributes_before|leading_before L", "attributed|led L"


def bodies(path, head):
    """The texts of the right sides of a function's clauses, by the last name on the left."""
    found = {}
    for item in antt.items(path.read_text()):
        left, _, right = item.partition(" =")
        if re.match(rf"{head} (?!:)", left):
            name = re.findall(r"\w+", left.removesuffix(" h"))[-1]
            found.setdefault(name, " ".join(right.split()))
    return found


class Meanings:
    """The meanings of the further symbols that follow from the rules."""

    def __init__(self):
        self.by_hand, self.texts = bodies(BY_HAND, OTHERS), {}
        self.values = bodies(FACTORED, "FurtherValue")
        written, factored = bodies(WRITTEN, "rules"), bodies(FACTORED, "factored")
        for symbol, body in factored.items():
            part = re.fullmatch(rf"(?:{BEFORE[0]}) (\w+) \(symbol \(further (\w+)\)\)", body)
            rule = part and re.fullmatch(rf"(?:{BEFORE[1]}) {part[1]} \((.*)\)", written[symbol])
            if rule and part[2] not in self.by_hand:
                self.texts[part[2]] = rule[1]
        for symbol, body in bodies(FACTORED, "further_body").items():
            if symbol not in self.texts and symbol not in self.by_hand:
                self.texts[symbol] = self.made(body)

    def made(self, body):
        """The meaning of what is made of further symbols."""
        body = re.sub(r"symbol \(of (\w+)\)", r"symbol \1", body.replace("lifted ", ""))
        return re.sub(r"symbol \(further (\w+)\)", lambda it: self.name(it[1]), body)

    def name(self, symbol):
        """The meaning of a symbol in others."""
        if symbol not in self.texts:
            return enclosed(self.by_hand[symbol])
        return f"({rule(symbol)} L)" if self.takes(symbol) else rule(symbol)

    def takes(self, symbol):
        """Whether the meaning of a symbol depends on the dialect."""
        return re.search(r"\bL\b", self.texts[symbol])

    def definition(self, symbol):
        """The definition of a meaning."""
        front, taken = ("Dialect → ", " L") if self.takes(symbol) else ("", "")
        return (f"abbrev pub {rule(symbol)} : {front}Rule {enclosed(self.values[symbol])}\n"
                f"{rule(symbol)}{taken} = {self.texts[symbol]}")

    def meaning(self):
        """What each further symbol means."""
        yield "-- what each further symbol means"
        yield "abbrev pub meaning : Dialect → (x : Further) → Rule (FurtherValue x)"
        for symbol in self.texts:
            yield f"meaning L {symbol} = {self.name(symbol).strip('()')}"
        yield f"meaning L x = {OTHERS} L x tt"

    def cases(self):
        """Whether the meaning of a symbol is written by hand."""
        yield "abbrev pub IsOther : Further → Type 0"
        yield from (f"IsOther {symbol} = ⊥" for symbol in self.texts)
        yield "IsOther x = Unit {0}"


def rule(symbol):
    """The name of the meaning of a symbol."""
    return f"{symbol.removesuffix('_part')}_rule"


def imports(body, own, paths):
    """What imports the names in a body but its own, from where files have them."""
    files, used = [antt.Module(path) for path in paths], {}
    for token in dict.fromkeys(antt.tokens(body)):
        for name in {token, token.partition(".")[0], f"◌{token}◌"} - own:
            for module, entry in homes(name, files):
                used.setdefault(module, set()).add(entry)
    for module, names in sorted(used.items()):
        yield from import_of(module, sorted(names))


def homes(name, files):
    """Where a name is: as a symbol, or a further one, and as a name in one of some files, of which
    the last are the factored and the written grammar."""
    *_, factored, written = files
    yield from (it for it in written.uses.get(name, []) if it[1].startswith("Symbol."))
    if name in bodies(FACTORED, "FurtherValue"):
        yield factored.name, f"Further.{name}"
        return
    for file in files:
        if any(name == it for it, public, _ in file.signatures if public):
            yield file.name, name
            return
        others = [it for it in file.uses.get(name, []) if not it[1].startswith("Symbol.")]
        if others:
            yield from others
            return


def own_names(body):
    """The names that a body defines, and those that a λ binds, if they are grammar's too."""
    bound = {name for it in re.findall(r"λ ([^.]*)\.", body) for name in re.findall(r"\w+", it)}
    known = set(bodies(FACTORED, "FurtherValue")) | set(antt.Module(FACTORED).clauses)
    return {*re.findall(r"^abbrev pub (\w+)", body, re.M), *(bound & known)}


def write(name, says, body):
    """Writes a file."""
    body = "\n".join(body) + "\n"
    head = [f"-- Written by tools/tables/meanings.py from Written and Factored: {says}."]
    uses = imports(body, own_names(body), [BY_HAND, FACTORED, WRITTEN])
    text = "\n".join([*head, *uses, "", body])
    (THEORY / f"{name}.antt").write_text(text)


def main():
    """Writes which meanings follow from the rules, and all meanings."""
    found = Meanings()
    write("MeaningCases", "which meanings do not follow", found.cases())
    definitions = [line for symbol in found.texts for line in (found.definition(symbol), "")]
    write("MeaningRules", "what the further symbols mean", [*definitions, *found.meaning()])
