"""Writes, for each rule of the written grammar, the proof terms that follow the rule's shape.

Five theories have lemmas for the ways to write a rule, and a file RuleTerms.antt. The term of a
rule is found from the public lemmas in the theory's other files: the lemma whose rule is most like
the right side is applied to the terms of its parts, and what the rule makes is read from the
definitions. A rule that has a lemma in another file is left out. The prover checks each term.
"""
import sys
from pathlib import Path

import inputs
from rule_forms import FORMS
from rule_grammar import Grammar
from rule_lemmas import Theory

READS = (inputs.GRAMMAR, inputs.TREES, inputs.NAMES, "crates/wgsl_theory_[!g]*/proofs/*.antt")
WRITES = ("crates/wgsl_theory_*/proofs/*/RuleTerms.antt",)

WIDTH = 100
# a line that is shorter goes on
SHORT = 30


def group_end(text, start):
    """The end of what begins at a bracket, with the brackets that close after it."""
    depth = 0
    for end in range(start, len(text)):
        depth += (text[end] in "({") - (text[end] in ")}")
        if depth == 0:
            return len(text) - len(text[end:].lstrip(")}"))
    return len(text)


def spaces(text):
    """The places where a text may be broken: a space in no λ, and in a record after a field."""
    depth, in_names = 0, False
    for place, sign in enumerate(text):
        depth += (sign == "{") - (sign == "}")
        in_names = (in_names or sign == "λ") and not text.startswith(". ", place)
        before, after = text[:place].rpartition(" ")[2], text[place + 1:place + 2]
        signs = before in ("record", "≡", "∷", "→") or before.endswith(".") or after in "=≡∷→"
        if sign == " " and not in_names and not signs and (depth == 0 or before.endswith(";")):
            yield place


def wrapped(begin, text):
    """A line, and a text after it: in the same line, or in lines of which each begins a part."""
    if len(begin) + 1 + len(text) <= WIDTH:
        return f"{begin} {text}"
    ends, lines, place = [*spaces(text), len(text)], [""], 0
    for end, later in zip(ends, [*ends[1:], len(text)]):
        lines[-1] += text[place:end]
        place = end + 1
        group = text[place:place + 1] in ("(", "{")
        size = (group_end(text, place) if group else later) - place
        if len(lines[-1]) + size < WIDTH - 4 or (len(lines[-1]) < SHORT and size > WIDTH - 4):
            lines[-1] += " "
        else:
            lines.append("")
    return begin + "".join(f"\n    {line.rstrip()}" for line in lines if line)


def table(form, lemmas):
    """The lemmas of all rules as one."""
    name, says = form.table.split(" : ", 1)
    rows = [f"{name} {symbol}{form.taken} = {lemma}" for symbol, lemma in lemmas.items()]
    return "\n".join(["-- each rule of the grammar", wrapped(f"pub {name} :", says), *rows])


def lemma_of(theory, symbol, rule):
    """The lemma of a rule as the table names it, and its text, if it is not written by hand."""
    name, says = theory.form.lemma(symbol)
    by_hand = next((lemma for lemma in theory.lemmas if lemma.name == name), None)
    if by_hand:
        theory.names.cite(by_hand.module, name)
        takes = any(step[1] == [theory.form.given[0]] for step in by_hand.steps)
        return f"{name} {theory.names.name(theory.form.given[1])}" if takes else name, None
    term = theory.rule(says, rule)
    if term is None:
        sys.exit(f"tools/tables/rule_terms.py: no term for {name}: a part of its rule has no lemma")
    seen = "pub " if symbol in theory.form.untold else ""
    proof = wrapped(f"{name}{theory.form.binds} =", term)
    return name, wrapped(f"{seen}{name} :", says) + "\n" + proof


def write(form, grammar):
    """Writes the file of a form."""
    theory = Theory(form, grammar)
    found = {symbol: lemma_of(theory, symbol, rule)
             for symbol, rule in grammar.rules.items() if symbol not in form.without}
    lemmas = {symbol: name for symbol, (name, _) in found.items()}
    lemmas.update({symbol: f"absurd {form.taken.strip()}" for symbol in form.untold})
    theory.names.local = set()
    theory.names.cite_all(" ".join([form.table.partition(" : ")[2], *lemmas]))
    texts = [*(text for _, text in found.values() if text), table(form, lemmas)]
    body = "\n\n".join(texts) + "\n"
    head = [f"-- {form.head}; written by tools/tables/rule_terms.py.", *theory.names.lines(body)]
    path = Path("crates") / form.folder / "RuleTerms.antt"
    path.write_text("\n".join(head) + "\n\n" + body)


def main():
    """Writes the files of all forms."""
    grammar = Grammar()
    for form in FORMS:
        write(form, grammar)
