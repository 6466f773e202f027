"""The calls of build/libwgsl.a from Python, through a shared library that is linked from it."""
import ctypes
import os
import subprocess
from ctypes import Structure, byref, c_size_t, c_uint32, c_uint8
from typing import NamedTuple

CC = os.environ.get("CC") or "cc"
DONE, REFUSED, TOO_SMALL = 0, 1, 4


class Answer(Structure):
    """What `struct wgsl_answer` has."""

    _fields_ = [(name, c_size_t) for name in ("size", "start", "end", "kind", "expected")]


class Layout(Structure):
    """What `struct wgsl_layout` has."""

    _fields_ = [("width", c_size_t), *((name, c_uint8) for name in ("indent", "tab", "newlines"))]


class Said(NamedTuple):
    """What a call returns: its status and answer, and the bytes of what it wrote."""

    status: int
    answer: Answer
    written: bytes


class Library:
    """The library, linked into a file of a folder."""

    def __init__(self, archive, folder):
        shared = folder / "libwgsl.so"
        words = [CC, "-shared", "-Wl,--whole-archive", archive, "-Wl,--no-whole-archive"]
        subprocess.run([*map(str, words), "-o", str(shared)], check=True)
        self.library = ctypes.CDLL(str(shared))

    def call(self, name, text, item=1, before=()):
        """Makes a call that writes items of this many bytes, into a buffer that is large enough."""
        made, size = getattr(self.library, f"wgsl_c_{name}"), 2 * len(text) + 1024
        made.restype = c_uint32
        given = ctypes.create_string_buffer(text, max(1, len(text)))
        while True:
            buffer, answer = ctypes.create_string_buffer(size * item), Answer()
            status = made(*before, given, c_size_t(len(text)), buffer, c_size_t(size),
                          byref(answer))
            if status != TOO_SMALL and answer.size <= size:
                return Said(status, answer, buffer.raw[:answer.size * item])
            size = answer.size

    def nesting(self, text):
        """How deep a text nests."""
        answer, given = Answer(), ctypes.create_string_buffer(text, max(1, len(text)))
        self.library.wgsl_c_nesting(given, c_size_t(len(text)), byref(answer))
        return answer.size

    def tidy(self, text, layout):
        return self.call("tidy", text, before=[byref(Layout(*layout))])

    def minify(self, text, names):
        """A minified text, and the JSON of its new names."""
        kept = ctypes.create_string_buffer(1)
        return self.call("minify", text, before=[c_uint32(names), kept, c_size_t(0)])

    def tree(self, text, kind):
        return self.call("tree", text, before=[c_uint32(kind)])

    def packed_tree(self, text, kind):
        return self.call("packed_tree", text, before=[c_uint32(kind)])
