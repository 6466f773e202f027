"""Draws the crates by layer in docs/MAP.md, from crates.txt.

In crates.txt the comment above a crate's line is its description, and `## NAME` begins a layer. A
crate comes after all that it uses, so in the picture, which has the last line first, it is above
these. The status is 1 if a crate has no description or comes before one that it uses. By hand, each
description would be in two files.
"""
import sys
from pathlib import Path

from filling import fill

READS = ("crates.txt",)
WRITES = ("docs/MAP.md",)

CRATES = Path("crates.txt")
DOCUMENT = Path("docs/MAP.md")
BEGIN = "<!-- The picture is written by tools/tables/crate_map.py from crates.txt. -->"
END = "<!-- The end of the picture. -->"
# where the descriptions begin
COLUMN = 24


def parts_of(line):
    """A crate's line without what is said of its kind: its name, and the libraries it uses."""
    head, _, used = line.partition(":")
    return head.split()[0], used.split()


def layers():
    """Each layer from the bottom up: its name, and its crates with their descriptions."""
    found, before = [], ""
    for line in CRATES.read_text().splitlines():
        if line.startswith("## "):
            found.append((line[3:], []))
        elif line and not line.startswith("#"):
            if not found or not before.startswith("# "):
                sys.exit(f"{CRATES}: no layer or description is above {parts_of(line)[0]}")
            found[-1][1].append((*parts_of(line), before[2:]))
        before = line
    return found


def check(crates):
    """Fails if a crate comes before one that it uses."""
    places = {name: at for at, (name, _, _) in enumerate(crates)}
    for name, used, _ in crates:
        for other in used:
            if places.get(other, -1) >= places[name]:
                sys.exit(f"{CRATES}: {name} comes before {other}, which it uses")


def picture(found):
    """The layers from the top down."""
    lines = []
    for name, crates in reversed(found):
        lines.append(f"    {name}")
        lines += [f"        {crate:{COLUMN}}{what}" for crate, _, what in reversed(crates)]
    return "\n".join(lines)


def main():
    found = layers()
    check([crate for _, crates in found for crate in crates])
    fill(DOCUMENT, BEGIN, f"\n\n{picture(found)}\n\n", END)
