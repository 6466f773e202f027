"""The calls of the library through tools/library_asked.c, a program that may be for another
processor."""
import struct
import subprocess

from native import Answer, Said

# in the order of their numbers there
CALLS = ["check", "format", "tidy", "minify", "packed_tree", "print", "tokens",
         "tokens_with_comments", "lists", "nesting"]
REQUEST, REPLY = struct.Struct("<7Q"), struct.Struct("<7Q")


class Library:
    """The library in a process that is asked."""

    def __init__(self, words):
        self.process = subprocess.Popen(words, stdin=subprocess.PIPE, stdout=subprocess.PIPE)

    def ask(self, name, text, kind=0, layout=(0, 0, 0, 0)):
        """Makes a call."""
        numbers = [CALLS.index(name), kind, *layout, len(text)]
        self.process.stdin.write(REQUEST.pack(*numbers) + text)
        self.process.stdin.flush()
        status, *answer, size = REPLY.unpack(self.process.stdout.read(REPLY.size))
        return Said(status, Answer(*answer), self.process.stdout.read(size))

    def call(self, name, text, item=1):
        return self.ask(name, text)

    def nesting(self, text):
        return self.ask("nesting", text).answer.size

    def tidy(self, text, layout):
        return self.ask("tidy", text, layout=layout)

    def minify(self, text, names):
        return self.ask("minify", text, names)

    def packed_tree(self, text, kind):
        return self.ask("packed_tree", text, kind)

    def close(self):
        """Ends the process, and returns its status."""
        self.process.stdin.close()
        return self.process.wait()
