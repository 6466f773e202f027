"""Stubs: functions of a crate that a check of others takes by their contracts, without a proof.

A function is proved from the contracts of those that it calls. So where some functions are checked
alone, each other one may have the body `unreachable!()`, with a hole for the proof of its one goal:
with holes allowed, the prover takes it as proved, and its own body costs nothing.
"""
import re
import shutil
from dataclasses import dataclass

from wrong_bodies import FUNCTION, Body, Hunk, functions_of

# a cycle of calls that a function is in, which names the folder of their proof
CYCLE = re.compile(r"\s*#\[cycle\((\w+)\)\]")
ANSWER = """use Rattle.{crate}.proofs.{module}.Goals as goal

pub unreachable-requires : goal.unreachable-requires
unreachable-requires = ?
"""


@dataclass
class Stub(Body):
    """A function with a body that is not proved, and the cycle that an attribute says it is in."""

    cycle: str = ""


def inside(lines, first, last):
    """The lines inside the body of the function at some lines, from the first to before the last;
    none if it has none, or if a constant may call it."""
    indent, head = FUNCTION.match(lines[first])[1], lines[first]
    opens = [
        at for at in range(first, last)
        if lines[at].endswith("{") and not lines[at].startswith(f"{indent} ")
    ]
    is_left = not opens or opens[0] + 1 >= last - 1 or "const " in head.partition("fn ")[0]
    return None if is_left else (opens[0] + 1, last - 1)


def cycle_of(lines, first):
    """The cycle that an attribute above the function at a line says it is in."""
    for line in reversed(lines[:first]):
        if found := CYCLE.match(line):
            return found[1]
        if not line.strip().startswith(("#[", "///")):
            return ""
    return ""


def stubs_of(folder, names):
    """Stubs of the functions of a crate that have a body and one of these names each."""
    stubs = []
    for file in sorted((folder / "src").rglob("*.rt")):
        path, text = str(file.relative_to(folder)), file.read_text()
        lines = text.split("\n")
        for first, last, fits in functions_of(path, text, names):
            body = inside(lines, first, last)
            if len(fits) == 1 and body:
                blank = lines[body[1]].removesuffix("}")
                hunk = Hunk(path, *body, (f"{blank}    unreachable!()",))
                stub = Stub("stub", len(stubs), hunks=[hunk], functions=fits)
                stub.cycle = cycle_of(lines, first)
                stubs.append(stub)
    return stubs


def put_proofs(stubs, crate, proofs):
    """Writes the proof of each stub into a folder, in place of that of the function."""
    for stub in stubs:
        name = stub.functions[0]
        at = proofs / name.replace("::", "/")
        for old in (at, at.parent / f"+{at.name}"):
            shutil.rmtree(old, ignore_errors=True)
        at.mkdir(parents=True)
        module = name.replace("::", ".")
        (at / "Answers.antt").write_text(ANSWER.format(crate=crate, module=module))
