"""Writes the proof of each `Display` of wgsl_tree_statement: it writes what the function does that
it calls, whose result is named `outcome` there.

By hand, each struct that is printed would have one more file.
"""
import re
from pathlib import Path

import goals
from goals import c, proof
from node_table import sources

READS = ("crates/wgsl_tree_statement/src/*.rt", "!*_nodes.rt")
WRITES = ("crates/wgsl_tree_statement/proofs/*/*Display/fmt/Answers.antt",)

CRATE = Path("crates/wgsl_tree_statement")
DISPLAY = re.compile(
    r"^impl fmt::Display for (\w+) \{\n.*?let outcome = (\w+)\(self,.*?^\}", re.M | re.S)


def answer(module, name, function):
    """The proof of a type."""
    place = f"Rattle.{CRATE.name}.proofs.{module}.{name}Display.fmt"
    new, inner = c.outcome("new", "out").ensures(), c.of("into_inner")
    written = c.outcome(function).ensures()
    return "\n".join([
        "-- Written by tools/tables/display_answers.py.",
        "use Rattle.std.proofs.Common.{rules}",
        "use Rattle.wgsl_writer.proofs.Within.{printed}",
        f"use {place}.Goals as goal", "",
        proof(goals.returns("", goals.clause("writes")),
              f" printed g.W.Write.write_str_gives _ _ _ {inner.of('result')} _ _ _\n"
              f"    {new.of('to')} {new.of('depth')} {written} {inner.ensures()}\n"
              "    (λ same. search rules)", "g c")])


def main():
    for file in sources("statement"):
        for name, function in DISPLAY.findall(file.read_text()):
            place = CRATE / f"proofs/{file.stem}/{name}Display/fmt/Answers.antt"
            place.parent.mkdir(parents=True, exist_ok=True)
            place.write_text(answer(file.stem, name, function))
