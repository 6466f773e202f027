"""Reads crates/wgsl_model/tokens."""
import re
from dataclasses import dataclass
from pathlib import Path

from node_table import camel

TABLE = Path("crates/wgsl_model/tokens")

OTHER = re.compile(r'token (\w+): (?:"(.*)"|(\w+)) -- (.*)')


@dataclass(frozen=True)
class Token:
    """A token: its name, its text if it has one of its own, the type of what it holds if it does,
    and what it is."""

    name: str
    text: str
    held: str
    doc: str


class Table:
    """The tokens in the order of their numbers, and the reserved words."""

    def __init__(self):
        text = re.sub(r"^(?:#.*|--.*|)\n", "", TABLE.read_text(), flags=re.M)
        lists, self.others = {}, []
        for line in re.sub(r"\n +", " ", text).splitlines():
            other = OTHER.fullmatch(line)
            if other:
                name, text, held, doc = other.groups()
                self.others.append(Token(name, text or "", held or "", doc))
            else:
                name, words = line.split(": ", 1)
                lists[name] = words.split()
        pairs = zip(lists["symbols"][::2], lists["symbols"][1::2])
        self.symbols = [Token(name, text, "", f"the symbol `{text}`") for name, text in pairs]
        self.keywords = [Token(f"Kw{camel(text)}", text, "", f"the keyword `{text}`")
                         for text in lists["keywords"]]
        self.reserved = lists["reserved"]
        self.tokens = [*self.symbols, *self.keywords, *self.others]
        self.classes = [token.name for token in self.tokens]

    @property
    def words(self):
        """The tokens that are words."""
        names = ("Ident", "ReservedWord")
        return self.keywords + [token for token in self.others if token.name in names]
