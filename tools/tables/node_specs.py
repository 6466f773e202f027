"""Where the library declares its nodes, and definitions and lemmas about them by their types."""
import re
import sys
import textwrap
from collections import defaultdict
from pathlib import Path

from node_table import TREES, declared, sources

CRATES = {crate: f"wgsl_tree_{crate}" for crate in TREES}
# what a file of definitions or lemmas states, with its type; and the types that it declares
STATED = re.compile(r"^( *)(?:abbrev )?pub (\w+)(?:\n\1 +| ):((?: .*)?\n(?:\1 +.*\n)*)", re.M)
TYPES = re.compile(r"^ *(?:pub data|pub record|abbrev pub) (\w+) : Type ", re.M)
MODEL, CODES, LISTS = "wgsl_model", "wgsl_tree_code", "wgsl_tree_node"
BARE_ATTRIBUTED = "{Node : Type 0} → (Node → Node) → Attributed Node → Attributed Node"
# how many columns an import has, without the words before it
WIDTH = 84
WHOLE_WORDS = {"break_long_words": False, "break_on_hyphens": False}


def homes():
    """The crate and the file in which the library declares each struct and enum."""
    return {name: (crate, file.stem)
            for crate in CRATES
            for file in sources(crate)
            for _, name in declared(file.read_text())}


def place(name, home):
    """The module of a struct or enum."""
    crate, file = home
    return f"Rattle.{CRATES[crate]}.specs.declared.{file}.{name}"


def inside(table, name):
    """The kinds that a kind contains, also in what it contains."""
    seen, left = set(), [name]
    while left:
        held = " ".join(held for _, held in table.by_name[left.pop()].parts)
        new = set(re.findall(r"\w+", held)) & set(table.by_name) - seen
        seen |= new
        left += new
    return seen


def cycle(table, name):
    """The kinds that a kind contains and that contain it: itself first, then by their names."""
    others = {it for it in inside(table, name) if it != name and name in inside(table, it)}
    return [name, *sorted(others)] if others else []


def files(crate, folder):
    """The modules in a folder of a crate, each with its text."""
    top = Path("crates") / crate / folder
    for file in sorted(top.rglob("*.antt")):
        parts = file.relative_to(top).with_suffix("").parts
        yield ".".join(["Rattle", crate, folder, *parts]), file.read_text()


def passed_on(crate):
    """The modules that pass on what tools write beside them, by its module and its name."""
    return {(f"Rattle.{inner}", name): module
            for module, text in files(crate, "specs")
            for inner, names in re.findall(r"^pub use Rattle\.(\S+)\.\{\n((?:  .*\n)+)", text, re.M)
            for name in re.findall(r"[\w.]+", names)}


def stated(crates, folder):
    """What a folder of some crates states: its name, its type without qualifiers, its module."""
    for crate in crates:
        passed = passed_on(crate)
        for module, text in files(crate, folder):
            for _, name, held in STATED.findall(text):
                held = re.sub(r"\b\w+\.(?=\w)", "", " ".join(held.split()))
                yield name, held, passed.get((module, name), module)


def types(crate):
    """The module of each type that the definitions of a crate declare."""
    passed = passed_on(crate)
    return {name: passed.get((module, name), module)
            for module, text in files(crate, "specs") for name in TYPES.findall(text)}


def only(those, what):
    """The one thing that is found."""
    if len(those) != 1:
        sys.exit(f"the specs and proofs of nodes have {len(those)} of {what}")
    return those[0]


class Specs:
    """The definitions and lemmas about nodes, and those that are used."""

    def __init__(self, homes):
        self.homes, self.used = homes, set()
        self.plain_types = types(MODEL)
        trees = list(CRATES.values())
        self.model, self.codes, self.trees = map(by_type, ([MODEL, LISTS], [CODES], trees))
        self.lemmas = [it for part in ("specs", "proofs") for it in stated([CODES, *trees], part)]

    def use(self, module, name):
        self.used.add((module, name))
        return name

    def some(self, found, held, form):
        """The definition of a type whose name has a form, if there is one."""
        those = [it for it in found[held] if re.fullmatch(form, it[0])]
        return self.use(*reversed(only(those, f"{form} : {held}"))) if those else None

    def one(self, found, held, form):
        """The definition of a type whose name has a form."""
        return self.some(found, held, form) or only([], f"{form} : {held}")

    def lemma(self, beginning, ending):
        """The path of the lemma whose statement begins, and whose name ends, in these ways."""
        those = [f"{module}.{name}" for name, held, module in self.lemmas
                 if held.startswith(beginning) and name.endswith(ending)]
        return only(those, f"{ending} : {beginning}..")

    def node(self, name):
        """A struct or enum of the library."""
        return self.use(place(name, self.homes[name]), name)

    def plain(self, name):
        """A type of plain trees."""
        return self.use(self.plain_types[name], name)

    def view(self, node):
        """What gives the plain tree of a node, and the type of that."""
        views = [held for held, those in self.trees.items() if held.startswith(f"{node} → ")
                 and any(name.endswith("_view") for name, _ in those)]
        held = only(views, f"_view : {node} → ..")
        return self.one(self.trees, held, r"\w+_view"), held.removeprefix(f"{node} → ")

    def bare(self, plain):
        """What takes the spans out of a plain tree, if it has any."""
        if plain.startswith("Attributed "):
            inside = self.bare(plain.split()[1]) or "λ d. d"
            inside = f"({inside})" if " " in inside else inside
            return f"{self.one(self.model, BARE_ATTRIBUTED, 'bare_attributed')} {inside}"
        if bare := self.some(self.model, f"{plain} → {plain}", r"bare_\w+"):
            return bare
        change = self.some(self.model, f"Change → {plain} → {plain}", r"changed_\w+")
        return change and f"{change} {self.one(self.model, 'Change', 'without_spans')}"

    def is_led(self, plain):
        """Whether the attributes of a plain tree are apart from it."""
        return f"Attributes → {plain} → Code" in self.codes

    def code(self, plain):
        """What gives the code of a plain tree, with its attributes if they are apart."""
        if not self.is_led(plain):
            return self.one(self.codes, f"{plain} → Code", r"(?!template_arg)\w+_code")
        code = self.one(self.codes, f"Attributes → {plain} → Code", r"\w+_code")
        held = "{Node : Type 0} → (Attributes → Node → Code) → Attributed Node → Code"
        return f"{self.one(self.codes, held, 'attributed_code')} {code}"

    def test(self):
        """The test of two codes."""
        return self.one(self.codes, "Code → Code → Bool", "same")

    def equal(self, node):
        """The test of two nodes."""
        return self.one(self.trees, f"{node} → {node} → Bool", r"equal_\w+")

    def attributes(self, plain):
        """What gives the attributes of a plain tree, if they are not a field of it."""
        return self.some(self.model, f"{plain} → Attributes", r"\w*attributes\w*")

    def attributes_view(self):
        """What gives the plain attributes of a list of attributes."""
        return self.one(self.trees, "List (Spanned Attribute) → Attributes", "attributes_view")


def by_type(crates):
    """The definitions of some crates by their types."""
    found = defaultdict(list)
    for name, held, module in stated(crates, "specs"):
        found[held].append((name, module))
    return found


def by_module(used):
    """The names that are used of each module."""
    names = defaultdict(list)
    for module, name in sorted(used):
        names[module].append(name)
    return names.items()


def imports(used):
    """What imports definitions, in lines that are not too long where they can be shorter."""
    for module, names in by_module(used):
        width = max(WIDTH - len(module), 1)
        for line in textwrap.wrap(", ".join(names), width, **WHOLE_WORDS):
            yield f"{module}.{{{line.strip(', ')}}}"


def head_of(used, uses):
    """The imports of a module of code: definitions, and what the code itself uses."""
    ghosts = [f"ghost use {it};" for it in imports(used)]
    code = [f"use {module}::{{{', '.join(names)}}};" for module, names in by_module(uses)]
    return "\n".join([*ghosts, "", *code])
