"""Writes the enums of words of wgsl_tree_words, with the words that they are read from and printed
as, what they are as plain data, and the words of wgsl_tree_packed.
"""
import re
from pathlib import Path

import inputs
from node_table import TABLE, Table, snake
from tree_codes import plain_doc

READS = (inputs.NODES,)
WRITES = ("crates/wgsl_tree_words/src/words_nodes.rt",
          "crates/wgsl_tree_words/specs/ViewNodes.antt", "crates/wgsl_tree_packed/src/words.rt")

WRITTEN = f"Written by tools/tables/tree_words.py from {TABLE}"
CRATE = Path("crates/wgsl_tree_words")
MODULE = "words_nodes"
PACKED = Path("crates/wgsl_tree_packed/src/words.rt")
# enums whose definitions have shorter names
SHORT = {"DiagnosticSeverity": "severity"}
# what the operators of an enum are said to be where one is packed
OPERATORS = {"UnaryOperator": "an operator before its operand",
             "BinaryOperator": "an operator between two operands",
             "AssignmentOperator": "an operator that assigns"}


def stem(kind):
    """How the names of the definitions of an enum begin."""
    return SHORT.get(kind.name) or snake(kind.name)


def is_operator(kind):
    """Whether an enum is one of operators, whose texts are not read here."""
    return kind.name.endswith("Operator")


def enum(kind):
    """The enum with its variants."""
    variants = [f"    {name}," for name, _ in kind.parts]
    return [f"/// {kind.doc}", "#[derive(Clone, Copy, PartialEq, Eq, Debug)]",
            f"pub enum {kind.name} {{", *variants, "}", ""]


def texts_file(kind):
    """The file that passes on the texts of an enum."""
    return "Printed.Operators" if is_operator(kind) else "Trees.NamedValues"


def from_str(kind):
    """What reads a word; operators are read as tokens."""
    words = [f'            "{word}" => Ok({kind.name}::{name}),' for name, word in kind.parts]
    text, view = f"{stem(kind)}_text", f"{stem(kind)}_view"
    return [
        f"impl {kind.name} {{",
        "    /// Returns the value whose word the text is, or an error where there is none.",
        "    pub fn from_str(text: &str) -> Result<Self, ()>",
        "        ensures { MatchResult result",
        f"            (λ value. text.now ≡ {text} ({view} value))",
        f"            (λ _. (value : plain.{kind.name}) → ¬ (text.now ≡ {text} value)) }}",
        "    {", "        match text {", *words, "            _ => Err(()),",
        "        }", "    }", "}", "",
    ]


def display(kind):
    """What prints a word."""
    words = [f'            {kind.name}::{name} => "{word}",' for name, word in kind.parts]
    return [
        f"impl fmt::Display for {kind.name} {{",
        f"    ghost output = {{ λ value. Some ({stem(kind)}_text ({stem(kind)}_view value)) }};",
        "",
        "    fn fmt<W: fmt::Write>(&self, f: &mut fmt::Formatter<W>) -> fmt::Result {",
        "        f.write_str(match self {", *words, "        })", "    }", "}", "",
    ]


def code(kinds):
    """The file of the enums."""
    lines = [f"//! {WRITTEN}: operators, and words.",
             "",
             "ghost use Rattle.std.specs.Prelude.{◌≡◌, Some, MatchResult};",
             "ghost use Rattle.wgsl_model.specs.Trees.NamedValues as plain;"]
    for kind in kinds:
        lines += [f"ghost use Rattle.wgsl_model.specs.{texts_file(kind)}.{{{stem(kind)}_text}};",
                  f"ghost use Rattle.wgsl_tree_words.specs.ViewNodes.{{{stem(kind)}_view}};"]
    lines += ["", "use std::fmt;", ""]
    for kind in kinds:
        lines += enum(kind) + ([] if is_operator(kind) else from_str(kind)) + display(kind)
    return "\n".join(lines)


def views(kinds):
    """The file that maps the enums to plain data."""
    uses, lines = [], []
    for kind in kinds:
        declared = f"use Rattle.wgsl_tree_words.specs.declared.{MODULE}.{kind.name}"
        uses += [f"{declared}.{{{kind.name}}}", f"{declared}.TheVariants as {stem(kind)}"]
        plain = "plain_operator" if is_operator(kind) else "plain"
        view = f"{stem(kind)}_view"
        lines += ["", f"abbrev pub {view} : {kind.name} → {plain}.{kind.name}"]
        lines += [f"{view} {stem(kind)}.{name} = {plain}.{snake(name)}" for name, _ in kind.parts]
    return "\n".join([
        f"-- {WRITTEN}: operators and values as plain data.",
        "use Rattle.wgsl_model.specs.Trees.NamedValues as plain",
        "use Rattle.wgsl_model.specs.Trees.Operators as plain_operator", *uses, *lines, ""])


def packed_uses(kinds):
    """The lines that import what the words of packed forms name."""
    found = {}
    for kind in kinds:
        found.setdefault(f"wgsl_model.specs.{texts_file(kind)}", []).append(f"{stem(kind)}_text")
    found["wgsl_tree_words.specs.View"] = [f"{stem(kind)}_view" for kind in kinds]
    return ["ghost use Rattle.std.specs.Prelude.{◌≡◌};",
            *(f"ghost use Rattle.{file}.{{{', '.join(sorted(names))}}};"
              for file, names in sorted(found.items())), "",
            f"use wgsl_tree_words::{{{', '.join(sorted(kind.name for kind in kinds))}}};", ""]


def packed_word(kind):
    """What returns the word or the text of a value."""
    said = OPERATORS.get(kind.name) or re.split("[:,]", plain_doc(kind.doc))[0]
    what = "text" if is_operator(kind) else "word"
    words = [f'        {kind.name}::{name} => "{word}",' for name, word in kind.parts]
    return [f"/// Returns the {what} of {said}.",
            f"pub fn {stem(kind)}_word(value: {kind.name}) -> &'static str",
            f"    ensures {{ result.now ≡ {stem(kind)}_text ({stem(kind)}_view value) }}",
            "{", "    match value {", *words, "    }", "}", ""]


def packed(kinds):
    """The file of the words of packed forms: of named values, then of operators."""
    return "\n".join([
        f"//! {WRITTEN}: words, texts of operators.",
        "", *packed_uses(kinds),
        *(line for kind in sorted(kinds, key=is_operator) for line in packed_word(kind))])


def main():
    kinds = Table().of_form("words")
    (CRATE / f"src/{MODULE}.rt").write_text(code(kinds))
    (CRATE / "specs/ViewNodes.antt").write_text(views(kinds))
    PACKED.write_text(packed(kinds))
