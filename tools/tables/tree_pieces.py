"""Writes the pieces of the printed text of statements, and that they print it.

By hand, each statement would be in one more file, and a part that is printed otherwise too.
"""
import re
import sys
from pathlib import Path

import antt
import inputs
from antt import enclosed, last, match, renamed, substituted
from printed_parts import TEXT, End, Held, Indented, Line, Lines, Row, Sign, Space, Tree, grouped
from printed_trees import Printed, Written, mutual
from token_table import Table

READS = (inputs.TOKENS, inputs.PRINTED, inputs.PIECES)
WRITES = ("crates/wgsl_theory_printed/proofs/TreePieces/PiecesNodes.antt",)

THEORY = Path("crates/wgsl_theory_printed/proofs")
TOKENS = Path("crates/wgsl_theory_reread/specs/CanonicalStatements.antt")
HEAD = """\
-- Written by tools/tables/tree_pieces.py from wgsl_model: the pieces of printed statements, some \
levels of
-- indentation deep and before the pieces that follow: they print them and have their tokens.
"""
FILES = ["TreePieces/PiecesOfStatements", "TreePieces/PiecesOfExpressions", "TreePieces/Printing"]
FILLED = Path("crates/wgsl_model/proofs/Filled.antt")
# the pieces that others use, and their proofs
PUBLIC = ["compound_prints", "unended_prints"]
END = "terminator_of"


class Pieces:
    """The parts of printed texts, and the names of the functions that are written of them."""

    def __init__(self, files=()):
        self.printed = Printed()
        modules = [antt.Module(THEORY / f"{it}.antt") for it in [*FILES, *files]]
        self.tokens = antt.Module(TOKENS)
        self.filled = antt.Module(FILLED)
        self.names = Written([self.printed.prints, *self.printed.trees, *modules, self.tokens,
                              self.filled])
        self.modules = modules
        self.signs = {it.text: it.name for it in Table().tokens if it.text}
        self.functions = [it for it in self.printed.types if it not in (END, "print_statement")]
        self.stems = {it: self.stem(it) for it in self.functions}
        self.laws = [law for file in modules[:len(FILES)] for law in laws_of(file)]

    def stem(self, function):
        """What the tokens of what a function prints are called, and with it the functions here."""
        kind = self.printed.types[function]
        named = [name.removesuffix("_tokens") for name, _, says in self.tokens.signatures
                 if says == f"{kind} → List Kind → List Kind"]
        own = function.removeprefix("print_")
        return own if own in named else named[0]

    def is_list(self, function):
        """Whether a function prints a list of texts."""
        return any(name == function and "List (List" in says
                   for name, _, says in self.printed.prints.signatures)

    def parts(self, term):
        """The parts of a printed text."""
        if term == ("name", "[]"):
            return Row(())
        if term[:2] == ("op", "++"):
            right = self.parts(term[3])
            rest = right.parts if isinstance(right, Row) and term[3][0] == "op" else (right,)
            return Row((self.parts(term[2]), *rest))
        if term[0] == "app" and last(term[1][1]) == "codes":
            return self.texts(term[2][0][1].strip('"'))
        held = self.held(term)
        return held or self.applied(*term[1:]) if term[0] == "app" else held

    def texts(self, text):
        """The parts of a text of signs, spaces and line breaks."""
        parts = [Line() if it == "\\n" else Space() if it == " " else Sign(it, self.signs[it])
                 for it in TEXT.findall(text)]
        return Row(tuple(parts)) if len(parts) > 1 else parts[0]

    def held(self, term):
        """A part whose pieces people write, or none."""
        for name, variable, text, put in self.laws:
            found = {}
            if match(text, term, {variable}, found):
                value = found[variable]
                return Held(value[1], renamed(put, [("name", variable)], [value]), name, self.names)
        return None

    def applied(self, function, arguments):
        """The parts of what a function prints, of a tree or of texts."""
        name = last(function[1])
        if name == END:
            return End(arguments[0][1])
        if name in self.stems:
            return Tree(self.stems[name], arguments[0][1])
        if name == "indented":
            return self.indented(arguments[0])
        clauses = self.printed.prints.clauses.get(name)
        if not clauses:
            sys.exit(f"tools/tables/tree_pieces.py: no lemma says which pieces print {name}")
        (patterns, body), = clauses
        return self.parts(substituted(antt.term(body), {patterns[0][1]: arguments[0]}))

    def indented(self, term):
        """The parts of a text four spaces in: lines, or a text that is not empty."""
        if last(term[1][1]) == "joined":
            _, function, (value,) = term[2][1]
            return Lines(self.stems[last(function[1])], value[1])
        return Indented(self.parts(term), self.filled_by(term))

    def filled_by(self, term):
        """The proof that a text is not empty."""
        for name, _, says in self.filled.signatures:
            steps, given = antt.signature(says)
            if steps[0][:2] == ("binder", "(") and len(steps[0][2]) == 1:
                (variable,), found = steps[0][2], {}
                if match(self.unfolded(antt.term(given)[2][0]), term, {variable}, found):
                    return f"{name} {found[variable][1]}"
        return sys.exit("tools/tables/tree_pieces.py: no lemma says that a text is not empty")

    def unfolded(self, term):
        """The text of a statement as its parts; others are left."""
        clauses = self.printed.prints.clauses.get(last(term[1][1]), [])
        if len(clauses) == 1 and self.printed.is_variable(clauses[0][0][0]):
            return substituted(antt.term(clauses[0][1]), {clauses[0][0][0][1]: term[2][0]})
        return term

    def clauses(self, function):
        """The clauses of a function that prints: what it prints, and the parts."""
        return [(patterns[0], self.parts(antt.term(body)))
                for patterns, body in self.printed.prints.clauses[function]]

    def pattern(self, pattern):
        """A pattern as an argument."""
        return enclosed(self.names.term(pattern))

    def listed(self, function):
        """The clauses of a function that prints a list: what it prints, and what that has."""
        for patterns, body in self.printed.prints.clauses[function]:
            choice = None
            if body[0] == "if":
                choice = " ".join(body[1:body.index("then")])
                body = body[body.index("else") + 1:]
            term = antt.term(body)
            yield patterns[0], choice, *(term[2:] if term[0] == "op" else (None, None))


def definition(pieces, function):
    """The definition of the pieces of what a function prints."""
    stem, kind = pieces.stems[function], pieces.printed.types[function]
    lines = [f"pub {stem}_pieces : ℕ → {kind} → List Piece → List Piece"]
    if not pieces.is_list(function):
        return "\n".join(lines + [f"{stem}_pieces n {pieces.pattern(pattern)} rest ="
                                  f" {parts.pieces('n', 'rest')}"
                                  for pattern, parts in pieces.clauses(function)])
    lines = [f"pub {stem}_pieces : ℕ → Puts → {kind} → List Piece → List Piece"]
    for pattern, choice, one, more in pieces.listed(function):
        made = "rest"
        if one:
            more = more[2][0][1]
            made = pieces.parts(one).pieces("n", f"{stem}_pieces n (line n) {more} rest")
            made = f"start {enclosed(made)}"
        if choice:
            made = f"cond ({choice}) ({stem}_pieces n start {more} rest) ({made})"
        lines.append(f"{stem}_pieces n start {pieces.pattern(pattern)} rest = {made}")
    return "\n".join(lines)


def clause(name, pattern, proof):
    """A clause of a lemma on a tree at a level."""
    level = "{n} " if re.search(r"\bn\b", proof) else ""
    return f"{name} {level}{pattern} = {proof}"


def lemma(pieces, function):
    """The lemma that pieces print what a function prints, or two of a list."""
    stem, kind = pieces.stems[function], pieces.printed.types[function]
    if pieces.is_list(function):
        return list_lemmas(pieces, function)
    name = f"{stem}_prints"
    front = "pub " if name in PUBLIC else ""
    says = f"Prints n ({function} s) ({stem}_pieces n s) ({stem}_tokens s)"
    return "\n".join([f"{front}{name} : {{n : ℕ}} (s : {kind}) → {says}",
                      *(clause(name, pieces.pattern(pattern), parts.prints("n"))
                        for pattern, parts in pieces.clauses(function))])


def list_lemmas(pieces, function):
    """The lemmas that pieces print a list of texts, four spaces in and each after a line break."""
    stem, kind = pieces.stems[function], pieces.printed.types[function]
    first, further = f"first_{stem}", f"further_{stem}"
    texts = (f'(indented (joined (codes "\\n") ({function} s)))',
             f'(flat_map (λ x. codes "\\n" ++ x) ({function} s))')
    lines = [[f"{name} : {{n : ℕ}} (s : {kind}) → Prints n {text} ({stem}_pieces {start} s)"
              f" ({stem}_tokens s)"] for name, text, start in zip(
                  (first, further), texts, ("(suc n) four", "n (line n)"))]
    for pattern, choice, one, more in pieces.listed(function):
        proofs = ["none_prints", "none_prints"]
        if one:
            text, filled, more = pieces.names.term(one), pieces.filled_by(one), more[2][0][1]
            shown = grouped(pieces.parts(one).prints("n"))
            proofs = [f"indented_prints (left_filled ({text}) _ ({filled}))"
                      f" ({shown} before {further} {more})",
                      f"(line_prints n before {shown}) before {further} {more}"]
        if choice:
            given = f"({choice}) ({function} {more})"
            proofs = [f"one_first {given} ({filled}) {shown} ({further} {more}) ({first} {more})",
                      f"one_further {given} {shown} ({further} {more})"]
        for name, found, proof in zip((first, further), lines, proofs):
            found.append(clause(name, pieces.pattern(pattern), proof))
    return "\n\n".join("\n".join(it) for it in lines)


def ends(pieces):
    """The pieces of what ends a statement, and that they print it."""
    lines = ["abbrev pub end_pieces : Statement → Puts"]
    lemmas = ["end_prints : {n : ℕ} (s : Statement)"
              f" → Prints n ({END} s) (end_pieces s) (end_token s)"]
    for pattern, parts in pieces.clauses(END):
        lines.append(f"end_pieces {pieces.pattern(pattern)} rest = {parts.pieces('n', 'rest')}")
        lemmas.append(f"end_prints {pieces.pattern(pattern)} = {parts.prints('n')}")
    return "\n".join([*lines, "", *lemmas])


def main():
    """Writes the file of pieces."""
    pieces = Pieces()
    body = "\n\n".join([ends(pieces),
                        "abbrev " + mutual(definition(pieces, it) for it in pieces.functions),
                        mutual(lemma(pieces, it) for it in pieces.functions)]) + "\n"
    pieces.names.cite(pieces.modules[-1].name, "◌before◌")
    (THEORY / "TreePieces/PiecesNodes.antt").write_text(HEAD + pieces.names.file(body))


def laws_of(file):
    """The lemmas of a file that pieces print a part: its name, its text and the pieces."""
    for name, public, says in file.signatures:
        steps, given = antt.signature(says)
        values = [step[2] for step in steps if step[:2] == ("binder", "(")]
        if public and given[0] == "Prints" and len(steps) == 2 and values:
            _, _, (_, text, put, _) = antt.term(given)
            if text[0] == "app":
                yield name, values[0][0], text, put
