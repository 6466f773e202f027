"""Writes which statements are spelled as they are printed, and that the pieces of these fit.

Of a tree holds what holds of its parts, in their order. By hand, each statement would be in a
definition and in a lemma more, and a part that is printed otherwise in a lemma.
"""
import re

import antt
import inputs
from antt import enclosed, last
from node_table import camel
from printed_parts import End, Fitting, NeedsClosed, Rest, Row
from printed_trees import CHANGES, fields, mutual
from tree_pieces import END, THEORY, Pieces

READS = (inputs.TOKENS, inputs.PRINTED, inputs.PIECES,
         "crates/wgsl_theory_printed/proofs/TreePieces/PiecesNodes.antt",
         "crates/wgsl_theory_printed/proofs/Fits/*.antt")
WRITES = ("crates/wgsl_theory_printed/proofs/Fits/FittingNodes.antt",)

HEAD = """\
-- Written by tools/tables/tree_fits.py from wgsl_model: statements whose names and literals are \
spelled as
-- they are printed: the pieces of these fit.
"""
FILES = ["FittingStatements", "FittingAttributes", "FittingExpressions", "FittingSigns",
         "SoundExpressions"]
# the lemmas that others use
PUBLIC = ["compound_fits", "unended_fits"]
# what holds of trees of a type, where it has another name
RENAMED = {"IsSoundElseIfClause": "IsSoundElseIf", "IsSoundSwitchClause": "IsSoundClause"}
# what follows, in the clauses of a lemma
GIVEN = Rest("rest", "fits", "closed")


class Fits(Pieces):
    """What holds of trees, and the lemmas that their pieces fit."""

    def __init__(self):
        super().__init__(["TreePieces/PiecesNodes", *(f"Fits/{it}" for it in FILES)])
        files = self.modules[-len(FILES):]
        signatures = [(file, name, says) for file in files for name, seen, says in file.signatures
                      if seen]
        self.held_by_hand = {says.removesuffix(" → Type 0"): name for _, name, says in signatures
                             if re.match("(Is|Are)Sound", name)}
        self.sign_fits, self.closing, self.fitting = {}, {}, []
        for _, name, says in signatures:
            self.read(name, *antt.signature(says))
        self.tree_texts = [path.read_text() for path in CHANGES]
        self.needy, self.sound = set(), {}

    def read(self, name, steps, given):
        """Reads a lemma that a symbol or some pieces fit, or that a symbol closes a name."""
        if given[0] == "FitsBefore" and given[-1] == "rest" and given[2] == "codes":
            self.sign_fits[given[3].strip('"')] = name
        elif given[:4] == ["Closed", "(", "render", "("] and len(steps) == 1:
            if given[4:7] == ["sign", "(", "codes"]:
                self.closing[given[7].strip('"')] = name
        elif given[0] == "Fits" and "×" not in given and given[-2:-1] == ["rest"]:
            self.fitting.append(Fitting(name, steps, given))

    def predicate(self, kind):
        """What holds of the trees of a type, or none."""
        kind = kind.strip("() ")
        if kind in self.printed.changes:
            name = camel(self.printed.changes[kind].removeprefix("changed_"))
            name = f"{'Are' if name.endswith('s') else 'Is'}Sound{name}"
            return RENAMED.get(name, name)
        if kind in self.held_by_hand:
            return self.held_by_hand[kind]
        outer, _, inner = kind.partition(" ")
        of = self.predicate(inner) if outer in ("Option", "List") else None
        return of and f"{'IfSome' if outer == 'Option' else 'Every'} {of}"

    def conditions(self, value, kind):
        """What holds of a value of a type: of it, or of its fields."""
        of = self.predicate(kind)
        if of:
            return [f"{of} {value}"]
        text = next((it for it in self.tree_texts if f"pub record {kind} " in it), None)
        parts = fields(text, kind) if text else []
        return [condition for name, says in parts
                for condition in self.conditions(f"{value}.{name}", says.split("\n")[0].strip())]

    def types(self, constructor):
        """The types that a constructor takes."""
        for text in self.tree_texts:
            found = re.search(rf"^ +(?:\w+ )*{constructor}(?: \w+)* : (.*(?:\n {{6,}}.*)*)$", text,
                              re.M)
            if found:
                return [" ".join(it) for it in antt.split(antt.tokens(found[1]), "→")[:-1]]
        return []

    def parts_of(self, pattern):
        """The variables of a pattern with what holds of each."""
        head, parts = (pattern[1][1], pattern[2]) if pattern[0] == "app" else (pattern[1], ())
        found = []
        for part, kind in zip(parts, self.types(last(head))):
            if self.printed.is_variable(part):
                found.append((part[1], self.conditions(part[1], kind)))
            else:
                found += self.parts_of(part)
        return [it for it in found if it[1]]

    def known(self, pattern):
        """These, with the proofs of what holds of the variables of a pattern."""
        parts = self.parts_of(pattern)
        self.sound = {value: f"sound.{place}" if len(parts) > 1 else "sound"
                      for place, (value, _) in enumerate(parts)}
        return self


def holds(fits, kind):
    """The definition of what holds of the trees of a type."""
    name = fits.predicate(kind)
    function = next(it for it in fits.functions if fits.printed.types[it] == kind)
    lines = [f"pub {name} : {kind} → Type 0"]
    for patterns, _ in fits.printed.prints.clauses[function]:
        conditions = [it for _, found in fits.parts_of(patterns[0]) for it in found]
        held = " × ".join(conditions) or "Unit {0}"
        lines.append(f"{name} {fits.pattern(patterns[0])} = {held}")
    return "\n".join(lines)


def clause(fits, pattern, parts, closed):
    """The proof that the pieces of a clause fit, if what follows closes a name or not."""
    parts = parts if isinstance(parts, Row) else Row((parts,))
    return parts.fits("n", Rest("rest", "fits", closed), fits.known(pattern))[0]


def signature(fits, name, kind, steps, pieces):
    """The signature of a lemma that pieces fit."""
    front = "pub " if name in PUBLIC else ""
    return (f"{front}{name} : (n : ℕ) {steps}(s : {kind}) (rest : List Piece)"
            f" → {fits.predicate(kind)} s → {pieces}")


def lemma(fits, function):
    """The lemma that the pieces of what a function prints fit."""
    stem, kind = fits.stems[function], fits.printed.types[function]
    if fits.is_list(function):
        return list_lemma(fits, function)
    name, closed = f"{stem}_fits", "closed" if stem in fits.needy else ""
    taken = "Closed (render rest) → " if closed else ""
    lines = [signature(fits, name, kind, "", f"{taken}Fits rest → Fits ({stem}_pieces n s rest)")]
    for pattern, parts in fits.clauses(function):
        proof = clause(fits, pattern, parts, closed)
        lines.append(" ".join([name, "n", fits.pattern(pattern), "rest sound", *closed.split(),
                               f"fits = {proof}"]))
    return "\n".join(lines)


def list_lemma(fits, function):
    """The lemma that the pieces of trees in lines fit, if what starts the first line does."""
    stem, kind = fits.stems[function], fits.printed.types[function]
    name = f"{stem}_fits"
    steps = "(start : Puts) → ((rest : List Piece) → Fits rest → Fits (start rest)) → "
    lines = [signature(fits, name, kind, steps, "Closed (render rest) → Fits rest"
                       f" → Fits ({stem}_pieces n start s rest)")]
    for pattern, choice, one, more in fits.listed(function):
        proof = "fits"
        if one:
            proof = one_of_list(fits, stem, pattern, choice, fits.parts(one), more[2][0][1])
        taken = f"n start starts {fits.pattern(pattern)} rest sound closed fits"
        lines.append(f"{name} {taken} = {proof}")
    return "\n".join(lines)


def one_of_list(fits, stem, pattern, choice, parts, value):
    """The proof of a clause with a tree before others, which may be left out."""
    fits.known(pattern)
    others = f"{stem}_pieces n (line n) {value} rest"
    left = f"rest {fits.sound[value]} closed fits"
    rest = Rest("others", f"{stem}_fits n (line n) (line_fits n) {value} {left}",
                f"closed_{stem} n {value} rest closed")
    parts = parts.parts if isinstance(parts, Row) else (parts,)
    bound = f"let others = {others} in " if choice else ""
    if isinstance(parts[-1], End):
        end = parts[-1].pieces("n", "others")
        bound += (f"let ended = end_fits {parts[-1].value} others {enclosed(rest.closed)}"
                  f" {enclosed(rest.fits)} in ")
        parts, rest = parts[:-1], Rest(end, "ended.0", "ended.1")
    row = Row(parts)
    proof = enclosed(row.fits("n", rest, fits)[0])
    if not choice:
        return f"{bound}starts _ {proof}"
    pieces = row.pieces("n", rest.pieces)
    return (f"{bound}let one = {pieces} in one_fits ({choice}) ({stem}_pieces n start {value} rest)"
            f" (start one) ({stem}_fits n start starts {value} {left}) (starts one {proof})")


def closing(fits, function):
    """The lemma that trees in lines, of which some may be left out, close a name."""
    stem, kind = fits.stems[function], fits.printed.types[function]
    name, clauses = f"closed_{stem}", list(fits.listed(function))
    if not any(choice for _, choice, _, _ in clauses):
        return []
    lines = [f"{name} : (n : ℕ) (s : {kind}) (rest : List Piece) → Closed (render rest)"
             f" → Closed (render ({stem}_pieces n (line n) s rest))"]
    for pattern, choice, one, more in clauses:
        value = one and more[2][0][1]
        proof = one and (f"one_closed n ({choice}) ({stem}_pieces n (line n) {value} rest) _"
                         f" ({name} n {value} rest closed)")
        lines.append(f"{name} n {fits.pattern(pattern)} rest closed = {proof or 'closed'}")
    return ["\n".join(lines)]


def ends(fits):
    """The lemma that what ends a statement fits, and closes a name."""
    lines = ["end_fits : (s : Statement) (rest : List Piece) → Closed (render rest) → Fits rest"
             " → Fits (end_pieces s rest) × Closed (render (end_pieces s rest))"]
    for pattern, parts in fits.clauses(END):
        proofs = (parts if isinstance(parts, Row) else Row((parts,))).fits("n", GIVEN, fits)
        lines.append(f"end_fits {fits.pattern(pattern)} rest closed fits = ({', '.join(proofs)})")
    return "\n".join(lines)


def lemmas(fits):
    """The lemmas of all functions that print."""
    # those are found first whose pieces fit only before what closes a name
    while True:
        before = set(fits.needy)
        for function in fits.functions:
            try:
                lemma(fits, function)
            except NeedsClosed:
                fits.needy.add(fits.stems[function])
        if fits.needy == before:
            return mutual(lemma(fits, it) for it in fits.functions)


def main():
    """Writes the file of what holds and of the lemmas."""
    fits = Fits()
    kinds = list(dict.fromkeys(fits.printed.types[it] for it in fits.functions))
    lists = [it for it in fits.functions if fits.is_list(it)]
    body = "\n\n".join(["abbrev " + mutual(holds(fits, it) for it in kinds), ends(fits),
                        *(text for it in lists for text in closing(fits, it)),
                        lemmas(fits)]) + "\n"
    (THEORY / "Fits/FittingNodes.antt").write_text(HEAD + fits.names.file(body))
