"""What the package for JavaScript has to return of a text, by the calls of the native library: one
JSON value a text, which bindings/web/test/compare.js compares with what it returns."""
import hashlib
import json
import struct

import crates
from native import DONE, REFUSED
from texts import text_of
from web_rows import shown

# the kinds of faults, as bindings/web/error.js names them
KINDS = {1: "InvalidToken", 2: "ReservedWord", 3: "UnexpectedToken", 4: "UnexpectedEnd",
         6: "DiagnosticSeverity", 7: "Attribute", 8: "VarTemplate"}
# the layouts that texts are formatted by, and the names that get new ones
LAYOUTS = [(100, 4, 0, 0), (40, 2, 0, 1), (0, 4, 1, 2)]
NAMES = {"none": 0, "locals": 1, "all": 2}
UNIT = 0
TOKEN, PLACE = struct.Struct("<3Q"), struct.Struct("<2Q")


def sources(seed, count):
    """The shaders, and texts that are made of a seed, those that are UTF-8."""
    yield from (it.read_bytes() for it in sorted((crates.TOP / "examples").rglob("*.wgsl")))
    made = (text_of(seed, number).source for number in range(count))
    yield from (it for it in made if shown(it) is not None)


class Places:
    """The places of a text in UTF-16 units, by byte offsets."""

    def __init__(self, text):
        self.text = text
        self.is_ascii = text.isascii()
        self.found = {}

    def unit(self, offset):
        """The place of an offset; of one inside a character, the end of that."""
        if self.is_ascii:
            return offset
        if offset not in self.found:
            end = offset
            while end < len(self.text) and self.text[end] & 0xc0 == 0x80:
                end += 1
            before, past = self.text[:end].decode(), max(0, end - len(self.text))
            self.found[offset] = len(before.encode("utf-16-le")) // 2 + past
        return self.found[offset]

    def line_and_column(self, offset):
        before = self.text[:offset].decode().split("\n")
        return len(before), len(before[-1]) + 1


def shortened(message, expected):
    """A message that names the first four of many that were expected."""
    listed = f"`{', '.join(expected)}`"
    if len(expected) < 6 or not message.endswith(listed):
        return message
    front = message.removesuffix(listed)
    return f"{front}`{', '.join(expected[:4])}` or {len(expected) - 4} others"


def fault(places, said, texts=None):
    """An error of the package: what a call says of a text that it refuses."""
    message, *expected = (texts or said.written).decode().split("\0")
    start, end = said.answer.start, said.answer.end
    line, column = places.line_and_column(start)
    expected = expected[:said.answer.expected]
    return {"kind": KINDS[said.answer.kind], "message": shortened(message, expected),
            "expected": expected, "start": places.unit(start), "end": places.unit(end),
            "line": line, "column": column}


def outcome(places, said, value):
    """What a call returns or throws."""
    if said.status == REFUSED:
        return {"error": fault(places, said)}
    assert said.status == DONE, said.status
    return {"value": value(said)}


def text(said):
    return said.written.decode()


def minified(said):
    front, back = said.written[:said.answer.start], said.written[said.answer.start:]
    return {"text": front.decode(), "names": list(json.loads(back).items())}


def tree(library, source, places):
    """The sum of the packed form of a module, whose spans are those of the package in ASCII alone,
    and what is printed of it."""
    said = library.packed_tree(source, UNIT)

    def value(said):
        printed = text(library.call("print", said.written))
        return [hashlib.sha256(said.written).hexdigest() if places.is_ascii else None, printed]

    return outcome(places, said, value)


def tokens(library, name, source, places):
    """The tokens before the first fault, and that."""
    said = library.call(name, source, TOKEN.size)
    found = [[kind, places.unit(start), places.unit(end)]
             for kind, start, end in TOKEN.iter_unpack(said.written)]
    wrong = fault(places, said, b"invalid token") if said.status == REFUSED else None
    return {"tokens": found, "fault": wrong}


def answers(library, source):
    """What each call returns of a text in UTF-8."""
    places = Places(source)
    lists = library.call("lists", source, PLACE.size).written
    return {
        "text": source.decode(),
        "check": outcome(places, library.call("check", source), lambda said: None),
        "format": outcome(places, library.call("format", source), text),
        "tidy": [outcome(places, library.tidy(source, it), text) for it in LAYOUTS],
        "minify": [outcome(places, library.minify(source, it), minified) for it in NAMES.values()],
        "tree": tree(library, source, places),
        "tokens": tokens(library, "tokens", source, places),
        "comments": tokens(library, "tokens_with_comments", source, places),
        "lists": [[places.unit(it) for it in pair] for pair in PLACE.iter_unpack(lists)],
        "nesting": library.nesting(source),
    }
