"""Writes the module of the library that has the names of all nodes and words.

A type of the crates of the trees that is not in the table, and no other name for one, is not in the
module. By hand, each node would be in one more file.
"""
import re
from pathlib import Path

import inputs
from node_table import TABLE, TREES, WORDS, Table, source
from tree_nodes import places, use_lines

READS = (inputs.NODES, inputs.SOURCES)
WRITES = ("crates/wgsl_parse/src/syntax.rt",)

MODULE = Path("crates/wgsl_parse/src/syntax.rt")
# the crate that has the names of another too
UNDER = {"simple": "statement"}
# names of other crates
OTHERS = {"wgsl_span": ["Span", "Spanned"],
          "wgsl_tree_path": ["ModulePath", "ModulePathParseError", "PathOrigin"]}


def names():
    """The crate of each name."""
    named = {"Ident", *Table().by_name}
    for crate in [WORDS, *TREES]:
        named |= set(re.findall(r"^pub type (\w+)", source(crate), re.M))
    for name, place in places().items():
        if name in named:
            yield f"wgsl_tree_{UNDER.get(place.crate, place.crate)}", name


def main():
    found = {crate: list(those) for crate, those in OTHERS.items()}
    for crate, name in names():
        found.setdefault(crate, []).append(name)
    lines = [f"pub {it}" for it in use_lines(found)]
    written = f"//! Written by tools/tables/syntax_names.py from {TABLE}: the names of all nodes."
    MODULE.write_text("\n".join([written, "", *lines, ""]))
