"""Reads crates/wgsl_model/nodes, and compares it with the types of the library."""
import re
import sys
from dataclasses import dataclass
from pathlib import Path

TABLE = Path("crates/wgsl_model/nodes")
# the crates of the library that declare nodes, and the one that declares words
TREES = ["expression", "attribute", "simple", "statement", "unit"]
WORDS = "words"

KIND = re.compile(r"(spanned )?(struct|enum|words) (\w+): (.*) -- (.*)")
EXAMPLES = re.compile(r"examples (\w+): (.*)")


@dataclass(frozen=True)
class Kind:
    """A struct with its fields and their types, an enum with its variants and the types of what
    they hold, if they do, or an enum of words with its variants and their words."""

    form: str
    name: str
    is_spanned: bool
    parts: list
    doc: str


class Table:
    """The kinds in the order of the table, the section of each, what it says of fields and
    variants, and the examples of the variants of each enum."""

    def __init__(self):
        self.sections = sections()
        text = re.sub(r"^(?:#.*|--.*|)\n", "", TABLE.read_text(), flags=re.M)
        self.kinds, self.docs, self.examples = [], {}, {}
        for line in re.sub(r"\n +", " ", text).splitlines():
            kind, examples = KIND.fullmatch(line), EXAMPLES.fullmatch(line)
            if kind:
                spanned, form, name, parts, doc = kind.groups()
                self.kinds.append(Kind(form, name, bool(spanned), parts_of(form, parts), doc))
            elif examples:
                self.examples[examples[1]] = dict(re.findall(r"(\w+) `(.*?)`", examples[2]))
            else:
                names, doc = line.split(": ", 1)
                self.docs |= dict.fromkeys(names.split(", "), doc)
        self.by_name = {kind.name: kind for kind in self.kinds}

    def of_form(self, form):
        return [kind for kind in self.kinds if kind.form == form]

    def doc(self, kind, part):
        """What is said of a part of a kind, if anything."""
        return self.docs.get(f"{kind.name}.{part}") or self.docs.get(part)

    def attribute_words(self):
        """The name of each attribute, which begins the example of its variant."""
        return {name: re.match(r"@(\w+)", example)[1]
                for name, example in self.examples["Attribute"].items()}

    def rust(self, text):
        """A type of the table as one of Rust."""
        if text.endswith("?"):
            return f"Option<{self.rust(text[:-1])}>"
        if text.endswith("*"):
            return f"Vec<{self.rust(text[:-1])}>"
        if text.startswith("("):
            return f"({', '.join(map(self.rust, separated(text[1:-1])))})"
        kind = self.by_name.get(text)
        return f"Spanned<{text}>" if kind and kind.is_spanned else text

    def field(self, name, held):
        """A field as Rust declares it."""
        return f"{name}: {self.rust(held)}"

    def variant(self, name, held):
        """A variant as Rust declares it."""
        return f"{name}({self.rust(held)})" if held else name


def sections():
    """The section of each kind."""
    parts = re.split(r"^# (.*)\n", TABLE.read_text(), flags=re.M)[1:]
    return {name: title for title, text in zip(parts[::2], parts[1::2])
            for _, _, name in re.findall(r"^(spanned )?(struct|enum|words) (\w+):", text, re.M)}


def separated(text):
    """The items of a list; a comma in parentheses is part of an item."""
    items, depth = [""], 0
    for c in text:
        depth += {"(": 1, ")": -1}.get(c, 0)
        if c == "," and depth == 0:
            items.append("")
        else:
            items[-1] += c
    return [item.strip() for item in items]


def parts_of(form, text):
    """The fields or variants of a kind."""
    if form != "words":
        return list(map(part_of, separated(text)))
    words = text.split()
    if words[0].islower():
        return [(camel(word), word) for word in words]
    return list(zip(words[::2], words[1::2]))


def part_of(text):
    """A field or a variant, with its type."""
    if text == "attributes":
        return text, "Attribute*"
    name, of_field, held = re.fullmatch(r"(\w+)(?:: (.+)|\((.+)\))?", text).groups()
    return name, of_field or held or ""


def camel(word):
    return "".join(part.capitalize() for part in word.split("_"))


def snake(name):
    return re.sub(r"(?<!^)(?=[A-Z])", "_", name).lower()


def sources(crate):
    """The sources of a crate that declare types: what tools write for nodes declares none."""
    files = sorted(Path(f"crates/wgsl_tree_{crate}/src").glob("*.rt"))
    return [file for file in files if crate == WORDS or not file.stem.endswith("_nodes")]


def source(crate):
    """The texts of these."""
    return "".join(file.read_text() for file in sources(crate))


def expanded(text, aliases):
    """A type without the names that the library gives to some types."""
    return re.sub(r"\w+", lambda it: expanded(aliases.get(it[0], ""), aliases) or it[0], text)


def declared(text):
    """The structs and enums of a source, each with its fields or variants and their types."""
    aliases = dict(re.findall(r"^pub type (\w+) = (.*);$", text, re.M))
    found = {}
    for form, name, body in re.findall(r"^pub (struct|enum) (\w+) \{\n(.*?)^\}", text, re.M | re.S):
        lines = re.findall(r"^ *(?:pub )?(?!//)(\w.*?),?$", body, re.M)
        found[form, name] = [(part, expanded(held, aliases)) for part, held in map(part_of, lines)]
    # `Ident` is written as its name
    return {key: parts for key, parts in found.items() if key[1] != "Ident"}


def declared_words():
    """The enums of words of the library, each with its variants and their words."""
    found = {}
    for name, variant, word in re.findall(r'^\s*(\w+)::(\w+) => "(.*)",$', source(WORDS), re.M):
        found.setdefault(("words", name), []).append((variant, word))
    return found


def check(table):
    """Names each kind that is not the same in the library, and ends if there is one, or if examples
    are not those of the variants. The fields of a struct may have another order there."""
    here = {}
    for kind in table.kinds:
        types = str if kind.form == "words" else table.rust
        here[kind.form, kind.name] = [(part, types(held)) for part, held in kind.parts]
    there = declared("".join(map(source, TREES))) | declared_words()
    for kinds in (here, there):
        kinds |= {key: sorted(parts) for key, parts in kinds.items() if key[0] == "struct"}
    wrong = [key for key in {**here, **there} if here.get(key) != there.get(key)]
    for form, name in wrong:
        print(f"{TABLE}: {form} {name} is not that of the library", file=sys.stderr)
    if wrong:
        sys.exit(1)
    for kind in table.of_form("enum"):
        if list(table.examples.get(kind.name, [])) != [name for name, _ in kind.parts]:
            sys.exit(f"{TABLE}: the examples of {kind.name} are not those of its variants")
