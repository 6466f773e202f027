"""The rows of texts in tests/rows, whose README.md has their form, and crates/wgsl_test_texts."""
import re
from dataclasses import dataclass, field
from pathlib import Path

# a text in quotes, with how many times it is repeated
PIECE = re.compile(r'"((?:[^"\\]|\\.)*)"(?:\s*\*\s*([1-9]\d*))?\s*')
ESCAPE = re.compile(r"\\(x[0-9a-fA-F]{2}|u\{[0-9a-fA-F]+\}|.)")
ESCAPED = {"n": b"\n", "r": b"\r", "t": b"\t", '"': b'"', "\\": b"\\"}
# how a text is read of which nothing has to be wanted
MADE = "made"


class Unread(Exception):
    """Which line of a file can't be read, and why."""


@dataclass
class Field:
    """A line of a row: its words, and the text after them, or else the last word."""

    words: str
    value: bytes


@dataclass
class Row:
    """A text, how it is read, and what is wanted of it."""

    file: Path
    line: int
    shows: str
    fields: list = field(default_factory=list)

    @property
    def word(self):
        """How the text is read."""
        return self.fields[0].words.partition(" ")[0]

    @property
    def argument(self):
        """What follows the word that says how the text is read."""
        return self.fields[0].words.partition(" ")[2]

    @property
    def text(self):
        return self.fields[0].value

    @property
    def wanted(self):
        return self.fields[1:]

    def wants(self, words):
        """The value that is wanted under these words, or nothing."""
        return next((it.value for it in self.wanted if it.words == words), None)


def escaped(name):
    """The bytes for a `\\` and what follows it."""
    if name[0] in "xu" and len(name) > 1:
        number = int(name.strip("xu{}"), 16)
        return bytes([number]) if name[0] == "x" else chr(number).encode()
    return ESCAPED[name]


def text_of(quoted):
    """The bytes of a line of texts in quotes."""
    whole, at = b"", 0
    while at < len(quoted):
        piece = PIECE.match(quoted, at)
        if not piece:
            raise ValueError("a text does not end")
        parts = ESCAPE.split(piece[1])
        # each second part is what was after a `\`
        plain = [it.encode() for it in parts[::2]]
        others = [escaped(it) for it in parts[1::2]]
        text = plain[0] + b"".join(a + b for a, b in zip(others, plain[1:]))
        whole, at = whole + text * int(piece[2] or 1), piece.end()
    return whole


def add_line(row, line):
    """Adds a line of a file to the row that it belongs to."""
    words, quote, rest = line.partition('"')
    if not quote:
        words, _, last = line.rpartition(" ") if " " in line else (line, "", "")
        row.fields.append(Field(words, last.encode()))
    elif words.strip():
        row.fields.append(Field(words.strip(), text_of(quote + rest)))
    elif row.fields:
        row.fields[-1].value += b"\n" + text_of(line)
    else:
        raise ValueError("a text is before the word that it belongs to")


def rows_of(path):
    """The rows of a file, in order. Comment lines with no row after them are remarks."""
    rows, row = [], None
    lines = [*path.read_bytes().decode().split("\n"), ""]
    for number, line in enumerate(map(str.strip, lines), 1):
        try:
            if not line:
                if row and len(row.fields) == 1 and row.word != MADE:
                    raise ValueError("nothing is wanted of the row")
                rows += [row] if row and row.fields else []
                row = None
            elif line.startswith("#"):
                if row and row.fields:
                    raise ValueError("a line that says what a row shows is inside a row")
                row = row or Row(path, number, line[1:].strip())
            elif not row:
                raise ValueError("no line says what the row shows")
            else:
                add_line(row, line)
        except (ValueError, KeyError) as why:
            raise Unread(f"{path}:{number}: {why}") from None
    return rows
