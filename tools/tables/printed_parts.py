"""The printed text of a tree as the parts that it is put together of, with their pieces and proofs.

A part has its pieces before those that follow, the proof that these print it, and the proof that
they fit: `level` is how deep it is, `rest` what follows.
"""
import re
import sys
from dataclasses import dataclass

import antt
from antt import applied, enclosed, match, substituted

TEXT = re.compile(r"\\n| |(?:(?!\\n)\S)+")


class NeedsClosed(Exception):
    """A part fits only before what ends a name."""


@dataclass(frozen=True)
class Rest:
    """What follows a part: its pieces, the proof that they fit, and that they close a name."""

    pieces: str = "rest"
    fits: str = "fits"
    closed: str = ""

    def closes(self):
        """The proof that what follows closes a name."""
        if not self.closed:
            raise NeedsClosed
        return enclosed(self.closed)


@dataclass(frozen=True)
class Sign:
    """A symbol or a keyword."""

    text: str
    name: str

    def pieces(self, level, rest):
        """Its piece."""
        return f'sign (codes "{self.text}") {self.name} {enclosed(rest)}'

    def prints(self, level):
        """The proof that its piece prints it."""
        return "word_prints"

    def fits(self, level, rest, known):
        """The proofs that its piece fits and, of some symbols, closes a name."""
        if self.name.startswith("Kw"):
            ends = rest.closes()
            if ends != "refl":
                ends = f"(closed_name (render {enclosed(rest.pieces)}) {ends})"
            return f"(keyword_fits _ refl {ends}, {rest.fits})", ""
        closed = known.closing.get(self.text)
        return (f"({known.sign_fits[self.text]} _, {rest.fits})",
                closed and f"{closed} {enclosed(rest.pieces)}")


class Space:
    """A space."""

    def pieces(self, level, rest):
        """Its piece."""
        return f"space ∷ {rest}"

    def prints(self, level):
        """The proof that its piece prints it."""
        return "space_prints"

    def fits(self, level, rest, known):
        """The proofs that its piece fits and closes a name."""
        return rest.fits, "refl"


class Line:
    """A line break and an indentation."""

    def pieces(self, level, rest):
        """Its pieces."""
        return f"line {level} {enclosed(rest)}"

    def prints(self, level):
        """The proof that its pieces print it."""
        return f"line_prints {level}"

    def fits(self, level, rest, known):
        """The proofs that its pieces fit and close a name."""
        return (f"line_fits {level} _ {enclosed(rest.fits)}",
                f"closed_line {level} {enclosed(rest.pieces)}")


@dataclass(frozen=True)
class Tree:
    """A part of a type of its own: the name of its functions."""

    stem: str
    value: str

    def pieces(self, level, rest):
        """Its pieces."""
        return f"{self.stem}_pieces {level} {self.value} {enclosed(rest)}"

    def prints(self, level):
        """The proof that its pieces print it."""
        return f"{self.stem}_prints {self.value}"

    def fits(self, level, rest, known):
        """The proof that its pieces fit."""
        closed = f" {rest.closes()}" if self.stem in known.needy else ""
        return (f"{self.stem}_fits {level} {self.value} _ {known.sound[self.value]}{closed}"
                f" {enclosed(rest.fits)}", "")


@dataclass(frozen=True)
class End:
    """The `;` that ends a statement, if one does."""

    value: str

    def pieces(self, level, rest):
        """Its pieces."""
        return f"end_pieces {self.value} {enclosed(rest)}"

    def prints(self, level):
        """The proof that its pieces print it."""
        return f"end_prints {self.value}"


@dataclass(frozen=True)
class Lines:
    """A list of trees in lines four spaces in."""

    stem: str
    value: str

    def pieces(self, level, rest):
        """Its pieces."""
        return f"{self.stem}_pieces (suc {level}) four {self.value} {enclosed(rest)}"

    def prints(self, level):
        """The proof that its pieces print it."""
        return f"first_{self.stem} {self.value}"

    def fits(self, level, rest, known):
        """The proof that its pieces fit."""
        return (f"{self.stem}_fits (suc {level}) four (λ r g. g) {self.value} _"
                f" {known.sound[self.value]} {rest.closes()} {enclosed(rest.fits)}", "")


@dataclass(frozen=True)
class Held:
    """A part whose pieces people write: the term of these, and the lemma that they print it."""

    value: str
    put: tuple
    lemma: str
    names: object

    def at(self, level):
        """The term of its pieces at a level."""
        return substituted(self.put, {"n": ("text", level)})

    def pieces(self, level, rest):
        """Its pieces."""
        put = self.at(level)
        head, arguments = (put[1], put[2]) if put[0] == "app" else (put, ())
        return self.names.term(applied(head, [*arguments, ("text", rest)]))

    def prints(self, level):
        """The proof that its pieces print it."""
        return f"{self.names.name(self.lemma)} {self.value}"

    def fits(self, level, rest, known):
        """The proof that its pieces fit."""
        for lemma in known.fitting:
            found = lemma.found(self.put)
            if found is not None:
                return lemma.at(found, level, rest, known, self.names), ""
        return sys.exit(f"tools/tables/tree_fits.py: no lemma says that {self.lemma} fits")


@dataclass(frozen=True)
class Indented:
    """A part four spaces in, whose text is not empty."""

    part: object
    filled: str

    def pieces(self, level, rest):
        """Its pieces."""
        return f"four {enclosed(self.part.pieces(f'(suc {level})', rest))}"

    def prints(self, level):
        """The proof that its pieces print it."""
        inner = self.part.prints(f"(suc {level})")
        return f"indented_prints ({self.filled}) {enclosed(inner)}"

    def fits(self, level, rest, known):
        """The proofs that its pieces fit and close a name."""
        return self.part.fits(f"(suc {level})", rest, known)[0], "refl"


@dataclass(frozen=True)
class Row:
    """Parts one after another, as they are put together."""

    parts: tuple

    def pieces(self, level, rest):
        """Their pieces."""
        for part in reversed(self.parts):
            rest = part.pieces(level, rest)
        return rest

    def prints(self, level):
        """The proof that their pieces print them."""
        proofs = [part.prints(level) for part in self.parts] or ["none_prints"]
        return " before ".join(grouped(proof) for proof in proofs)

    def fits(self, level, rest, known):
        """The proofs that their pieces fit, and that they close a name."""
        for part in reversed(self.parts):
            fits, closed = part.fits(level, rest, known)
            rest = Rest(part.pieces(level, rest.pieces), fits, closed)
        return rest.fits, rest.closed


def grouped(text):
    """Texts that are put together, as one."""
    return f"({text})" if " before " in text else text


class Fitting:
    """A lemma that some pieces fit: what it takes, and the pieces."""

    def __init__(self, name, steps, given):
        self.name, self.steps = name, steps
        self.put = antt.term(given)[2][0]
        self.variables = {n for step in steps if step[0] == "binder" for n in step[2]}

    def found(self, put):
        """What its variables are for the term of some pieces."""
        head, arguments = (put[1], put[2]) if put[0] == "app" else (put, ())
        found, whole = {}, applied(head, [*arguments, ("name", "rest")])
        return found if match(self.put, whole, self.variables, found) else None

    def at(self, found, level, rest, known, names):
        """The lemma at what its variables are."""
        values = {"rest": "_", "n": level}
        taken = []
        for step in self.steps:
            if step[0] == "binder":
                taken += [values[name] if name in values else names.term(found[name])
                          for name in step[2]]
            elif step[1][0] in ("Fits", "Closed"):
                taken.append(enclosed(rest.fits) if step[1][0] == "Fits" else rest.closes())
            else:
                of = next(n for n in self.variables - {"n", "rest"})
                taken.append(known.sound[found[of][1].partition(".")[0]])
        return " ".join([names.name(self.name), *taken])
