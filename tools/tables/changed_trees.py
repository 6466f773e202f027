"""Writes that a changed statement prints as before, and that changed twice it is changed once.

A lemma has the clauses of the function of wgsl_model that it is about, with what is known of a part
(Trees/Changed.antt of wgsl_theory_reread), or a lemma, in its place. By hand, each statement would
be in one more file.
"""
from pathlib import Path

import antt
import inputs
from antt import enclosed
from printed_trees import Law, Printed, Written, fields, follows, module, mutual, variables

READS = (inputs.PRINTED, "crates/wgsl_theory_reread/proofs/Trees/Changed.antt")
WRITES = ("crates/wgsl_theory_reread/proofs/Trees/ChangedNodes.antt",)

FOLDER = Path("crates/wgsl_theory_reread/proofs/Trees")
HEAD = """\
-- Written by tools/tables/changed_trees.py from wgsl_model: a statement after a change. Its \
printed text
-- is the same, and changed twice it is changed once, if that is so of the parts.
"""
CHANGED = "Rattle.wgsl_theory_reread.proofs.Trees.Changed"
# how a statement ends is one lemma, of two functions
ENDING = ["terminator_of", "is_void"]
# the lemmas that others use
PUBLIC = ["statement_kept", "compound_kept", "statement_twice", "compound_twice"]
# the proofs of the clauses that decide whether a statement is left out, at their variables
CHOICES = {
    "statement_texts": "one_text c {0} (c.span {1}) (changed_statements c {2})"
                       " (statement_texts {2}) (c.leaves_out (statement_node {0} {1}))"
                       " (keeps.left_out (statement_node {0} {1})) (end_kept {0})"
                       " (λ i. unended_kept {0} i ++ (end_kept {0} i).0)"
                       " (statement_texts_kept {2})",
    "changed_statements": "one_twice c (changed_node c {0}) (changed_statements c {1})"
                          " (c.leaves_out {0}) (twice.left_out {0}) (node_twice {0})"
                          " (statements_twice {1})",
}


def laws_of(record, value):
    """What the fields of a record say of what is on the right of an equation."""
    for name, says in fields((FOLDER / "Changed.antt").read_text(), record):
        steps, given = antt.signature(says)
        binders = [step[2] for step in steps if step[0] == "binder"]
        right = antt.split(given, "≡")[-1]
        if len(right) > 1 and binders == [[binders[0][0]]]:
            premises = " refl" * (len(steps) - 1)
            yield Law(right, binders[0], f"{value}.{name} {{}}{premises} i")


class Lemmas:
    """The lemmas on changed statements, and the names that they have imported."""

    def __init__(self):
        self.printed = Printed()
        by_hand = antt.Module(FOLDER / "Changed.antt")
        self.names = Written([self.printed.prints, *self.printed.trees, by_hand])
        for record in "KeepsPrint", "PartsTwice":
            self.names.cite(CHANGED, record)
        self.names.local = {"keeps", "twice"}
        ends = Law(f"{ENDING[0]} s", ["s"], "(end_kept {} i).0")
        kept = [Law(f"{it} s", ["s"], f"{kept_name(it)} {{}} i") for it in self.printed.types]
        self.known = list(laws_of("KeepsPrint", "keeps"))
        self.kept_laws = [ends, *kept, *self.known]
        self.twice_laws = [*laws_of("PartsTwice", "twice"),
                           *(Law(f"{it} c s", ["s"], f"{twice_name(it)} {{}} i")
                             for it in self.printed.changes.values())]

    def text(self, name, kind, says, clauses):
        """The text of a lemma on trees of a type, from its clauses."""
        front = "pub " if name in PUBLIC else ""
        return "\n".join([f"{front}{name} : (s : {self.names.name(kind)}) → {says}",
                          *(f"{name} {enclosed(self.names.term(pattern))} = {proof}"
                            for pattern, proof in clauses)])

    def proof(self, function, pattern, body, laws):
        """The proof of a clause, from what laws say of its parts."""
        if "if" in body:
            return CHOICES[function].format(*variables(pattern, self.printed.constructors))
        term = antt.term(body)
        proved = follows(term, laws)
        if proved[0] == "text":
            return proved[1].removesuffix(" i")
        return f"λ i. {self.names.term(proved)}" if proved != term else "refl"

    def end_kept(self):
        """The lemma that a statement ends as before: what is only passed on ends as known."""
        clauses = [(self.printed.statement_of(pattern), "keeps.simple_end attributes s"
                    if self.printed.is_variable(pattern) else "refl")
                   for pattern, _ in self.printed.changed("UnattributedStatement")]
        return "pub " + self.text("end_kept", "Statement",
                                  "ending (changed_statement c s) ≡ ending s", clauses)

    def kept(self, function):
        """The lemma that what a function prints is printed as before."""
        kind, clauses = self.printed.types[function], []
        for pattern, _ in self.printed.changed(kind):
            if self.printed.is_variable(pattern):
                body, laws = [function, pattern[1]], self.known
            else:
                pattern, body = self.printed.printed(function, pattern)
                laws = self.kept_laws
            clauses.append((pattern, self.proof(function, pattern, body, laws)))
        name = self.names.name(function)
        says = f"{name} ({self.names.name(self.printed.changes[kind])} c s) ≡ {name} s"
        return self.text(kept_name(function), kind, says, clauses)

    def twice(self, kind):
        """The lemma that trees of a type changed twice are changed once."""
        name = self.names.name(self.printed.changes[kind])
        clauses = [(pattern, self.proof(name, pattern, body, self.twice_laws))
                   for pattern, body in self.printed.changed(kind)]
        return self.text(twice_name(name), kind, f"{name} c ({name} c s) ≡ {name} c s", clauses)


def kept_name(function):
    """The name of the lemma that a function prints the same."""
    return f"{function.removeprefix('print_')}_kept"


def twice_name(function):
    """The name of the lemma that a function changes trees once."""
    return f"{function.removeprefix('changed_')}_twice"


def main():
    """Writes the file of the lemmas."""
    lemmas = Lemmas()
    *printing, last = [it for it in lemmas.printed.types if it not in ENDING]
    kept = module("module _ (c : Change) (keeps : KeepsPrint c) where", lemmas.end_kept(),
                  mutual(map(lemmas.kept, printing)), lemmas.kept(last))
    twice = module("module _ (c : Change) (twice : PartsTwice c) where",
                   mutual(map(lemmas.twice, lemmas.printed.changes)))
    body = f"{kept}\n\n{twice}\n".replace("where\n\n", "where\n")
    (FOLDER / "ChangedNodes.antt").write_text(HEAD + lemmas.names.file(body))
