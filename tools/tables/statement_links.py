"""Writes the cases of the choice of statements, in the written and in the factored grammar.

StatementPlaces has each kind of statement as one of the choice, StatementCases what each of the
choice is in the other form. Both follow from the order of the choices, and from which rule has
which part after its attributes. A case that does not follow has its lemma in StatementSteps. By
hand, each statement would change the cases of those after it.
"""
import re
from pathlib import Path

import antt
import inputs
from antt import enclosed
from meanings import BEFORE, FACTORED, WRITTEN, bodies, imports

READS = (inputs.FACTORED, "crates/wgsl_theory_grammar/proofs/Forms/*.antt")
WRITES = ("crates/wgsl_theory_grammar/proofs/Forms/StatementCases.antt",
          "crates/wgsl_theory_grammar/proofs/Forms/StatementPlaces.antt")

FORMS = Path("crates/wgsl_theory_grammar/proofs/Forms")
SIMPLE = FORMS / "LeftSides.antt"
# where the names are that the files use
FILES = [FORMS / "StatementSteps.antt", FORMS / "StatementPlaces.antt"]
KNOWN = [FORMS / f"{it}.antt" for it in ("BlockLinks", "Links", "LeftSides", "AttributeLinks",
                                         "Shifts", "LevelLinks")]
TAKEN = "(L : Dialect) (M : Mode)"
NODE = f"{TAKEN} (v : StatementNode) (n : Statement) (xs ys : List Token)"
PLACED = f"{NODE}\n    → placed_statement n (span_between xs ys) ≡ v"
STATEMENT = "Part M (rules L) statement v xs ys"
# what a right side means: of the parts of each form, and of the one in the other
READ, WRITTEN_PART = "Part M (factored L)", "Means M (WrittenPart L M)"
MEANT = "Means M (Meant L M (WrittenPart L M))"
ENDED = f"(Means M ({READ}) (symbol (further ended_part) or break_part))"


def choice(body):
    """The parts of a choice, of which the first may be in parentheses with what follows them."""
    tokens = antt.tokens(body)
    end = antt.end_of(tokens) if tokens[0] == "(" else None
    if end and "or" not in tokens[end:]:
        tokens = tokens[1:end]
    texts = [" ".join(it) for it in antt.split(tokens, "or")]
    return [re.sub(r" \)", ")", text.replace("( ", "(")) for text in texts]


def place(index, count, what):
    """What is at a place of a choice."""
    made = f"inl {what}" if index + 1 < count else what
    for _ in range(index):
        made = f"inr {enclosed(made)}"
    return made


def word(text):
    """The name of a part of a choice: its symbol, or its keyword."""
    named = re.search(r"symbol (?:\(further )?(\w+)|^\(?(?:Kw|Sym)(\w+)", text)
    return (named[1] or named[2].lower()).removesuffix("_part").removesuffix("_statement")


class Links:
    """The choices, and the symbol that has each part after its attributes."""

    def __init__(self):
        further = bodies(FACTORED, "further_body")
        self.written = choice(bodies(WRITTEN, "rules")["statement"])
        self.braced, self.ended = choice(further["braced_part"]), choice(further["ended_part"])
        (_, simple), = antt.Module(SIMPLE).clauses["written_simple"]
        self.simple = choice(" ".join(simple))
        self.after = {}
        for symbol, body in bodies(FACTORED, "factored").items():
            found = re.fullmatch(rf"(?:{BEFORE[0]}) statement \((.*)\)", body)
            if found:
                self.after[symbol] = found[1]

    def symbol(self, part):
        """The symbol of the statement that has a part after its attributes, or none."""
        of = (it for it in self.written if self.after.get(self.cited(it)) == part)
        return next((self.cited(it) for it in of), None)

    def cited(self, text):
        """The symbol that one of the choice of statements is, alone or before `;`."""
        found = re.fullmatch(r"symbol (\w+)(?: ◃ SymSemicolon)?", text)
        return found[1] if found and f"symbol {found[1]}" not in self.simple else None


def places(links):
    """The lemmas that a kind of statement is one of a choice."""
    count = len(links.written)
    for index, text in enumerate(links.written):
        name = f"placed_{word(text)}"
        yield (f"pub {name} : {PLACED}\n    → {WRITTEN_PART} ({text}) n xs ys → {STATEMENT}\n"
               f"{name} L M v n xs ys e d = roll M (rules L) statement v xs ys"
               f" (n, e, {place(index, count, 'd')})")
    for index, text in enumerate(links.braced):
        name, made = f"braced_{word(text)}", place(index, len(links.braced), "s")
        yield (f"pub {name} : {TAKEN}\n    → Kept (Means M ({READ}) ({text}))"
               f" ({READ} (further braced_part))\n"
               f"{name} L M u us vs s = roll M (factored L) (further braced_part) u us vs"
               f" {enclosed(made)}")
    for index, text in enumerate(links.ended):
        name, made = f"ended_{word(text)}", place(index, len(links.ended), "s.2.1")
        yield (f"pub {name} : {TAKEN}\n    → Kept (Means M ({READ}) (({text})"
               f" ◃ SymSemicolon)) {ENDED}\n"
               f"{name} L M u us vs s = inl (roll M (factored L) (further ended_part) u us vs"
               f" (s.0, s.1, (s.2.0, {made}, s.2.2)))")
    yield ("pub ended_break : (L : Dialect) (M : Mode)\n"
           f"    → Kept (Means M ({READ}) break_part) {ENDED}\n"
           "ended_break L M u us vs s = inr s")


def statement_in(links):
    """The lemma that a written statement is one in the factored form."""
    yield f"pub statement_in : {TAKEN} (v : StatementNode) (xs ys : List Token)"
    yield ("    → Means M (ReadPart L M) (rules L statement) v xs ys"
           f" → {READ} (of statement) v xs ys")
    for index, text in enumerate(links.written):
        alone, symbol = text.removesuffix(" ◃ SymSemicolon"), links.cited(text)
        derived, part = "((q, f, (ms, d, k)))", links.after.get(symbol)
        if part and text == alone:
            derived = "d"
            proof = (f"after_in L M v n xs ys e (braced_in L M ({part}) (braced_{word(part)} L M)"
                     f" n xs ys (unroll M (factored L) (of {symbol}) n xs ys d))")
        elif part:
            proof = (f"after_in L M v n xs ys e (closed_in L M ({part}) (ended_{word(part)} L M)"
                     f" n q xs ms ys f (unroll M (factored L) (of {symbol}) q.0 xs ms d) k)")
        elif alone in links.simple:
            at = place(links.simple.index(alone), len(links.simple), "d")
            proof = f"placed_simple_in L M v n q xs ms ys e f {enclosed(at)} k"
        else:
            derived, proof = "d", f"{word(text)}_in L M v n xs ys e d"
        made = place(index, len(links.written), derived)
        yield f"statement_in L M v xs ys (n, e, {made}) = {proof}"


def braced_out(links):
    """The lemma that a statement with a block is one in the written form."""
    yield f"pub braced_out : {PLACED}"
    yield f"    → {MEANT} (attributes_before statement (symbol (further braced_part))) n xs ys"
    yield f"    → {STATEMENT}"
    for index, text in enumerate(links.braced):
        symbol = links.symbol(text)
        proof = f"{word(text)}_out L M v n xs ys e p q ks a d"
        if symbol:
            proof = (f"placed_{word(f'symbol {symbol}')} L M v n xs ys e"
                     f" (roll M (rules L) {symbol} n xs ys (p, q, (ks, a, d)))")
        made = place(index, len(links.braced), "d")
        yield f"braced_out L M v n xs ys e (p, q, (ks, a, {made})) = {proof}"


def ended_out(links):
    """The lemma that a statement that ends with `;` is one in the written form."""
    yield f"pub ended_out : {PLACED}"
    yield f"    → {MEANT} (leading_before L statement ended_or_break) n xs ys → {STATEMENT}"
    yield "ended_out L M v n xs ys e (p, q, (ks, l, s)) = go s"
    yield "  where"
    yield f"    leads : {WRITTEN_PART} (leading L) p.0 xs ks"
    yield ("    leads = leading_from L M (WrittenPart L M) (Meant L M (WrittenPart L M))"
           " (meant_list L M) p.0 xs ks l")
    yield ""
    yield f"    go : {MEANT} ended_or_break p.1 ks ys → {STATEMENT}"
    cases = [(text, f"inl (w, f, (ms, {place(index, len(links.ended), 'd')}, k))")
             for index, text in enumerate(links.ended)]
    for text, pattern in [*cases, (links.after["break_statement"], "inr (w, f, (ms, d, k))")]:
        symbol = links.symbol(text)
        made = "ap (statement p.0) f ∙ q"
        proof = f"ended_{word(text)}_out L M v n xs ys e p.0 w ({made}) ks ms l d k"
        if symbol:
            proof = ("let i : Attributes × UnattributedStatement = (p.0, w.0) in"
                     " let j : Statement × Token = (statement p.0 w.0, w.1) in"
                     f" placed_{word(f'symbol {symbol}')} L M v n xs ys e (j, {made},"
                     f" (ms, roll M (rules L) {symbol} j.0 xs ms (i, refl, (ks, leads, d)), k))")
        yield f"    go ({pattern}) = {proof}"


def write(name, says, body, paths):
    """Writes a file."""
    head = f"-- Written by tools/tables/statement_links.py: {says}."
    own = set(re.findall(r"^ *(?:pub )?(\w+) :", body, re.M))
    text = "\n".join([head, *imports(body, own, paths), "", body, ""])
    (FORMS / f"{name}.antt").write_text(text)


def main():
    """Writes both files."""
    links = Links()
    write("StatementPlaces", "kinds of statements as one of a choice", "\n\n".join(places(links)),
          [*KNOWN, FACTORED, WRITTEN])
    body = "\n\n".join("\n".join(it(links)) for it in (statement_in, braced_out, ended_out))
    write("StatementCases", "each of a choice of statements in the other form", body,
          [*FILES, *KNOWN, FACTORED, WRITTEN])
