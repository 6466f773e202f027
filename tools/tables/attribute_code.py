"""Writes the enum of attributes with its print, what makes an attribute of its name and its
arguments, and its packed form.

The example of a variant begins with the name of the attribute. What prints an attribute with a
struct of its own is in the file of the struct, what makes one of other arguments than one
expression is in wgsl_read_attribute/src/checks.rt, and what packs one with a struct is in
wgsl_tree_packed/src/attribute.rt. By hand, each attribute would be in these three files too.
"""
import re
from pathlib import Path

import inputs
from node_table import TABLE, Table, snake, source
from tree_nodes import places, use_lines
from tree_words import stem

READS = (inputs.NODES, inputs.SOURCES, "crates/wgsl_read_attribute/src/checks.rt",
         "crates/wgsl_tree_packed/src/attribute.rt")
WRITES = ("crates/wgsl_tree_attribute/src/attribute.rt",
          "crates/wgsl_read_attribute/src/attribute_nodes.rt",
          "crates/wgsl_tree_packed/src/attribute_nodes.rt")

ENUM = Path("crates/wgsl_tree_attribute/src/attribute.rt")
CHECKS = Path("crates/wgsl_read_attribute/src/checks.rt")
MADE = CHECKS.with_name("attribute_nodes.rt")
PARTS = Path("crates/wgsl_tree_packed/src/attribute.rt")
PACKED = PARTS.with_name("attribute_nodes.rt")
WRITTEN = f"//! Written by tools/tables/attribute_code.py from {TABLE}:"
# the attribute that has any other name
CUSTOM = "Custom"
# the rule before the packed form of a struct that has another one by itself
RULES = {"TypeConstraint": "TYPE_ATTRIBUTE"}
# the functions that write a struct, those that pack one, and those that make a variant, some with
# an allocator
WRITERS = re.compile(r"fn (write_\w+)<.*?>\(\s*\w+: &(\w+),")
PACKERS = re.compile(r"fn (pack_\w+)\(\s*node: &(\w+),")
MAKERS = re.compile(r"^pub\(crate\) fn (\w+)\(\s*(alloc: Global,)?\s*name: &'static str,", re.M)


class Attributes:
    """Writes what lists the attributes."""

    def __init__(self):
        table, self.at = Table(), places()
        self.kind = table.by_name["Attribute"]
        self.by_name = table.by_name
        self.words = table.attribute_words()
        self.writers = {held: name for name, held in WRITERS.findall(source("attribute"))}
        self.makers = dict(MAKERS.findall(CHECKS.read_text()))
        self.packers = {held: name for name, held in PACKERS.findall(PARTS.read_text())}

    def held(self, held):
        """The type of what a variant holds."""
        return f"{held}Node" if self.by_name[held].is_spanned else held

    def variant(self, name, held):
        return f"    {name}({self.held(held)})," if held else f"    {name},"

    def printed(self, name, held):
        """The arm that prints a variant."""
        front, word = f"            Attribute::{name}", self.words[name]
        if not held:
            return f'{front} => f.write_str("@{word}"),'
        if held in self.writers:
            return f"{front}(inner) => {self.writers[held]}(inner, f),"
        return f'{front}(argument) => write!(f, "@{word}({{argument}})"),'

    def made(self, name, held):
        """The arm that makes a variant."""
        word, maker = self.words[name], snake(name)
        front = f'        "{word}" =>'
        if maker in self.makers:
            alloc = "alloc, " if self.makers[maker] else ""
            return f'{front} {maker}({alloc}"{word}", arguments),'
        if held:
            return f'{front} Ok(Attribute::{name}(only_argument("{word}", arguments)?)),'
        return f'{front} no_arguments("{word}", arguments, Attribute::{name}),'

    def packed(self, name, held):
        """The arm that packs a variant."""
        front, word = f"        Attribute::{name}", self.words[name]
        if not held:
            return f'{front} => pack_word(WITHOUT_ARGUMENT, "{word}", out),'
        if held in RULES:
            call = f"{self.packers[held]}(inner, out)"
            return f"{front}(inner) => {{ pack_rule({RULES[held]}, out)?; {call} }}"
        if held in self.packers:
            return f"{front}(inner) => {self.packers[held]}(inner, out),"
        if self.by_name[held].form == "words":
            call = f"{stem(self.by_name[held])}_word(*value)"
            return f"{front}(value) => pack_word({snake(name).upper()}, {call}, out),"
        return f'{front}(argument) => pack_with_argument("{word}", argument, out),'

    def uses(self):
        """The lines that import what the enum and its print name."""
        found = {"wgsl_span": ["Spanned"]}
        for held in dict.fromkeys(held for _, held in self.kind.parts if held):
            place = self.at[held]
            is_here = place.crate == "attribute"
            names = found.setdefault(f"crate::{place.module}" if is_here else
                                     f"wgsl_tree_{place.crate}", [])
            names += [self.held(held), *filter(None, [self.writers.get(held)])]
        lines = [*use_lines(found), "use std::fmt;", "use std::fmt::Write;"]
        return sorted(lines, key=lambda it: it.rstrip(";"))

    def enum(self):
        """The file of the enum."""
        return "\n".join([
            f"{WRITTEN} attributes.", "",
            "ghost use Rattle.std.specs.Prelude.{Some};",
            "ghost use Rattle.wgsl_tree_attribute.specs.View.{attribute_view};",
            "ghost use Rattle.wgsl_model.specs.Printed.Attributes.{print_attribute};", "",
            *self.uses(), "", f"/// {self.kind.doc}", "#[derive(PartialEq, Debug, Drop)]",
            "pub enum Attribute {", *(self.variant(*part) for part in self.kind.parts), "}", "",
            "/// An attribute and where it is.", "pub type AttributeNode = Spanned<Attribute>;", "",
            "/// The attributes of a node, in the order of the text.",
            "pub type Attributes = Vec<AttributeNode>;", "",
            "impl fmt::Display for Attribute {",
            "    ghost output = "
            "{ λ attribute. Some (print_attribute (attribute_view attribute)) };", "",
            "    fn fmt<W: fmt::Write>(&self, f: &mut fmt::Formatter<W>) -> fmt::Result {",
            "        match self {", *(self.printed(*part) for part in self.kind.parts),
            "        }", "    }", "}", ""])

    def making(self):
        """The file of what makes attributes."""
        arms = [self.made(*part) for part in self.kind.parts if part[0] != CUSTOM]
        return f"{WRITTEN} the attribute of each name.\n{head(sorted(self.makers))}" + "\n".join([
            "    match name.as_str() {", *arms,
            f"        _ => Ok(Attribute::{CUSTOM}(CustomAttribute {{",
            "            name: name.into_string(alloc)?,", "            arguments,",
            "        })),", "    }", "}", ""])

    def packing(self):
        """The file of what packs attributes."""
        arms = [self.packed(*part) for part in self.kind.parts]
        used = "\n".join(arms)
        uses = use_lines({
            "crate::attribute": ["pack_with_argument", *self.packers.values()],
            "crate::rules": set(re.findall(r"\b[A-Z_]{2,}\b", used)),
            "crate::text": ["pack_rule", "pack_word"],
            "crate::words": set(re.findall(r"\w+_word(?=\(\*)", used)),
            "std::alloc": ["AllocError"], "wgsl_tree_attribute": ["Attribute"]})
        return "\n".join([
            f"{WRITTEN} packed attributes.", "",
            "ghost use Rattle.std.specs.Prelude.{◌≡◌, ◌++◌, OnOk};",
            "ghost use Rattle.wgsl_model_packed.specs.Attributes.{packed_attribute};",
            "ghost use Rattle.wgsl_tree_attribute.specs.View.{attribute_view};", "", *uses, "",
            "/// Writes the packed form of an attribute.",
            "pub fn pack_attribute(attribute: &Attribute, out: &mut Vec<u8>)",
            "    -> Result<(), AllocError>",
            "    ensures { OnOk result (out.new.items",
            "        ≡ out.old.items ++ packed_attribute (attribute_view attribute.now)) }",
            "{", "    match attribute {", *arms, "    }", "}", ""])


def head(makers):
    """What is before the body of the function that makes attributes."""
    return f"""
ghost use Rattle.std.specs.Prelude.{{option_map}};
ghost use Rattle.wgsl_tree_attribute.specs.View.{{attribute_view, expressions_view}};
ghost use Rattle.wgsl_read_cursor.specs.Words.{{word_text}};
ghost use Rattle.wgsl_read_attribute.specs.Known.{{checked_attribute}};
ghost use Rattle.wgsl_read_attribute.specs.Makes.{{Makes}};

use crate::arguments::{{Refusal, no_arguments, only_argument}};
use crate::checks::{{{', '.join(makers)}}};
use std::alloc::Global;
use wgsl_read_cursor::Word;
use wgsl_tree_attribute::{{Attribute, CustomAttribute}};
use wgsl_tree_expression::ExpressionNode;

/// The attribute that a name makes of its arguments. One that is not known keeps them as they are.
#[tactic(auto, unfolding(crate::proofs::Hints::making), using(crate::proofs::Hints::lemmas))]
pub(crate) fn make_attribute(
    alloc: Global,
    name: Word,
    arguments: Option<Vec<ExpressionNode>>,
) -> Result<Attribute, Refusal>
    ensures {{ Makes (word_text name) attribute_view result
        (checked_attribute (word_text name) (option_map expressions_view arguments)) }}
{{
"""


def main():
    attributes = Attributes()
    ENUM.write_text(attributes.enum())
    MADE.write_text(attributes.making())
    PACKED.write_text(attributes.packing())
