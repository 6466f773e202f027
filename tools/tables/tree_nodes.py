"""Writes what follows from the variants of nodes in the crates of the trees: the functions `is_*`
and `unwrap_*`, the conversions from what a variant holds, and which variant a plain tree is.
"""
import re
from dataclasses import dataclass
from pathlib import Path

import inputs
from antt import source
from node_table import TABLE, TREES, WORDS, Table, snake, sources

READS = (inputs.NODES, inputs.TREES, inputs.SOURCES, inputs.VIEWS)
WRITES = ("crates/wgsl_tree_*/src/variants_nodes.rt", "crates/wgsl_tree_*/specs/VariantsNodes.antt")

WRITTEN = f"Written by tools/tables/tree_nodes.py from {TABLE}"
PLAIN = Path("crates/wgsl_model/specs")
# the constructors whose names are not those of their variants
CONSTRUCTORS = {"Bool": "boolean", "Struct": "structure"}
# enums that are copied, from which nothing is taken
COPIED = ["DeclarationKind"]
# enums whose variants are all listed, because with `matches!` and `let .. else` goals stay open
LISTED = ["Expression"]


@dataclass(frozen=True)
class Place:
    """Where a type of the library is declared, by its crate and module."""

    crate: str
    module: str

    @property
    def declared(self):
        """The module of the definitions of the type."""
        return f"Rattle.wgsl_tree_{self.crate}.specs.declared.{self.module}"


@dataclass(frozen=True)
class View:
    """What maps a type to a plain one, and the file in which that is declared."""

    name: str
    plain: str
    file: str


def places():
    """Where each type is declared."""
    found = {}
    for crate in [WORDS, *TREES]:
        for file in sources(crate):
            names = re.findall(r"^pub (?:struct|enum|type) (\w+)", file.read_text(), re.M)
            found |= dict.fromkeys(names, Place(crate, file.stem))
    return found


def views(crate):
    """The views of the types of a crate."""
    files = sorted(Path(f"crates/wgsl_tree_{crate}/specs").glob("View*.antt"))
    text = "\n".join(file.read_text() for file in files)
    files = dict(re.findall(r"^use Rattle\.wgsl_model\.specs\.(\S+) as (plain\w*)$", text, re.M))
    files = {name: file for file, name in files.items()}
    head = r"^abbrev pub (\w+_view) : (\w+) → (?:Attributed )?(plain\w*)\.(\w+)$"
    found = re.findall(head, text, re.M)
    return {name: View(view, plain, files[file]) for view, name, file, plain in found}


class Plain:
    """The plain trees of a file: what each type is made by, with the types of its arguments."""

    def __init__(self, file):
        self.text = source(PLAIN / f"{file.replace('.', '/')}.antt")
        self.made = {}
        for name, body in re.findall(r"^ *pub data (\w+) : .*\n((?: +\w.*\n)+)", self.text, re.M):
            self.made[name] = {
                maker: held.split(" → ")[:-1]
                for makers, held in re.findall(r"^ +(.*?) : (.*)$", body, re.M)
                for maker in makers.split()
            }

    def after_attributes(self, name):
        """The type that is after the attributes in another, if that is an abbreviation for it."""
        found = re.search(rf"^{name} = Attributed (\w+)$", self.text, re.M)
        return found and found[1]

    def pattern(self, name, makers):
        """The pattern of what one of the makers makes, of a type or of a part of it."""
        for maker, held in self.made[name].items():
            if maker in makers:
                return " ".join([f"plain.{maker}", *"_" * len(held)])
            for at, part in enumerate(held):
                inner = part in self.made and self.pattern_inside(part, makers)
                if inner:
                    after = len(held) - at - 1
                    return " ".join([f"plain.{maker}", *"_" * at, inner, *"_" * after])
        return None

    def pattern_inside(self, name, makers):
        """The pattern of a part that says no more than which variant a node is."""
        makers = set(makers) & self.made[name].keys()
        inner = makers and self.pattern(name, makers)
        return inner and (f"({inner})" if " " in inner else inner)


@dataclass(frozen=True)
class Enum:
    """An enum of the library, with its view and the plain trees that it is mapped to."""

    kind: object
    crate: str
    view: View
    plain: Plain

    @property
    def name(self):
        """Its name."""
        return self.kind.name


def makers_of(enum, variant):
    """The names that the constructor of a variant may have."""
    name = CONSTRUCTORS.get(variant) or snake(variant)
    return {name, f"{name}_{snake(enum).split('_')[-1]}"}


def enums(table, crate, at):
    """The enums that a crate declares, in the order of the table."""
    found = views(crate)
    for kind in table.of_form("enum"):
        if at[kind.name].crate == crate:
            view = found[kind.name]
            yield Enum(kind, crate, view, Plain(view.file))


def tested(enum, variant):
    """What says of a plain tree whether it is of a variant."""
    name, plain = f"is_{snake(variant)}", enum.view.plain
    inner = enum.plain.after_attributes(plain)
    pattern = enum.plain.pattern(inner or plain, makers_of(enum.name, variant))
    test = f"{name}_node" if inner else name
    mark = "abbrev" if inner else "abbrev pub"
    pattern = f"({pattern})" if " " in pattern else pattern
    lines = [f"{mark} {test} : plain.{inner or plain} → Bool", f"{test} {pattern} = true",
             f"{test} _ = false", ""]
    if inner:
        lines += [f"abbrev pub {name} : plain.{plain} → Bool", f"{name} d = {test} d.node", ""]
    return lines


def spec(found):
    """The file that says which variant a plain tree is; the definitions of the printed text say it
    of an empty one."""
    lines = [f"-- {WRITTEN}: which variant a plain tree is.",
             "use Rattle.std.specs.Prelude.{Bool, true, false}",
             f"use Rattle.wgsl_model.specs.{found[0].view.file} as plain", ""]
    for enum in found:
        for variant, _ in enum.kind.parts:
            if variant != "Void":
                lines += tested(enum, variant)
    return "\n".join(lines)


def ghost_uses(module, names):
    """The lines that import names of a module, none of them too long."""
    lines, line = [], ""
    for name in names:
        longer = f"{line}, {name}" if line else name
        if line and len(f"ghost use Rattle.{module}.{{{longer}}};") > 100:
            lines.append(line)
            longer = name
        line = longer
    return [f"ghost use Rattle.{module}.{{{line}}};" for line in [*lines, line] if line]


def use_lines(found):
    """The lines that import names of modules."""
    return [f"use {module}::{{{', '.join(sorted(names))}}};"
            for module, names in sorted(found.items())]


class Writer:
    """Writes the functions of the enums of a crate."""

    def __init__(self, table, crate, at):
        self.table, self.crate, self.at = table, crate, at
        self.enums = list(enums(table, crate, at))

    def held(self, held):
        """The type of what a variant holds."""
        kind = self.table.by_name.get(held)
        return f"{held}Node" if kind and kind.is_spanned else self.table.rust(held)

    def is_function(self, enum, variant, held):
        """The function that says whether a node is of a variant."""
        name, full = f"is_{snake(variant)}", f"{enum.name}::{variant}{'(_)' if held else ''}"
        body = f"matches!(self, {full})"
        if enum.name in LISTED:
            body = f"match self {{ {full} => true, {self.others(enum, variant)} => false, }}"
        return (f"    /// Returns whether this is `{enum.name}::{variant}`.\n"
                f"    pub fn {name}(&self) -> bool\n"
                f"        ensures {{ result ≡ {name} ({enum.view.name} self.now) }}\n"
                f"    {{\n        {body}\n    }}\n")

    def others(self, enum, variant):
        """The patterns of the other variants."""
        return " | ".join(f"{enum.name}::{name}{'(_)' if held else ''}"
                          for name, held in enum.kind.parts if name != variant)

    def unwrap_function(self, enum, variant, held):
        """The function that takes what a variant holds out of a node."""
        name, full = snake(variant), f"{enum.name}::{variant}"
        result, inner = (" result", "\n        inner") if held else ("", "")
        let = f"let {full}{'(inner)' if held else ''} = self else {{ unreachable!() }};{inner}"
        if enum.name in LISTED:
            others = self.others(enum, variant)
            let = f"match self {{ {full}(inner) => inner, {others} => unreachable!(), }}"
        doc = (f"Returns what this `{full}` holds." if held
               else f"Consumes this `{full}`, which holds nothing.")
        return (f"    /// {doc}\n"
                f"    pub fn unwrap_{name}(self){f' -> {self.held(held)}' if held else ''}\n"
                f"        requires {{ IsTrue (is_{name} ({enum.view.name} self)) }}\n"
                f"        ensures {{ self ≡ {snake(enum.name)}.{variant}{result} }}\n"
                f"    {{\n        {let}\n    }}\n")

    def from_impl(self, enum, variant, held):
        """What makes a node of what a variant holds."""
        made = f"{snake(enum.name)}.{variant} inner"
        return (f"impl From<{self.held(held)}> for {enum.name} {{\n"
                f"    ghost from_gives = {{ λ inner made. made ≡ {made} }};\n\n"
                f"    fn from(inner: {self.held(held)}) -> Self {{\n"
                f"        {enum.name}::{variant}(inner)\n    }}\n}}\n")

    def functions(self, enum):
        """The functions of an enum, and the conversions to it."""
        tests = [self.is_function(enum, *part) for part in enum.kind.parts]
        if enum.name in COPIED:
            return [f"impl {enum.name} {{\n" + "\n".join(tests) + "}\n"]
        taken = [self.unwrap_function(enum, *part) for part in enum.kind.parts]
        types = [held for _, held in enum.kind.parts]
        made = [self.from_impl(enum, *part) for part in enum.kind.parts
                if part[1] and types.count(part[1]) == 1]
        return [f"impl {enum.name} {{\n" + "\n".join([*tests, *taken]) + "}\n", *made]

    def ghosts(self):
        """The definitions that the contracts name."""
        lines = ["ghost use Rattle.std.specs.Prelude.{◌≡◌, IsTrue};"]
        seen = [it.view.name for it in self.enums]
        lines += ghost_uses(f"wgsl_tree_{self.crate}.specs.View", seen)
        for enum in self.enums:
            names = [f"is_{snake(name)}" for name, _ in enum.kind.parts]
            if "is_void" in names:
                names.remove("is_void")
                printed = enum.view.file.replace("Trees", "Printed")
                lines.append(f"ghost use Rattle.wgsl_model.specs.{printed}.{{is_void}};")
            lines += ghost_uses(f"wgsl_tree_{self.crate}.specs.VariantsNodes", names)
            if enum.name not in COPIED:
                place = self.at[enum.name].declared
                lines.append(f"ghost use {place}.{enum.name}.TheVariants as {snake(enum.name)};")
        return lines

    def uses(self):
        """The types that the functions name."""
        names = {it.name for it in self.enums}
        for enum in self.enums:
            if enum.name not in COPIED:
                names |= {self.held(held) for _, held in enum.kind.parts if held}
        found = {}
        for name in sorted(names & self.at.keys()):
            crate, module = self.at[name].crate, self.at[name].module
            key = f"crate::{module}" if crate == self.crate else f"wgsl_tree_{crate}"
            found.setdefault(key, []).append(name)
        return use_lines(found)

    def code(self):
        """The file of the functions."""
        head = (f"//! {WRITTEN}: which variant a node is,\n"
                "//! what it holds, and what becomes one.\n")
        texts = [text for enum in self.enums for text in self.functions(enum)]
        return "\n".join([head, *self.ghosts(), "", *self.uses(), "", *texts])


def main():
    table, at = Table(), places()
    for crate in TREES:
        writer, folder = Writer(table, crate, at), Path(f"crates/wgsl_tree_{crate}")
        (folder / "src/variants_nodes.rt").write_text(writer.code())
        (folder / "specs/VariantsNodes.antt").write_text(spec(writer.enums))
