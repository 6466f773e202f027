"""Writes the words of the definitions: operators and named values, with their texts and tables.
"""
from pathlib import Path

import inputs
from node_table import TABLE, Table, snake
from plain_files import comment, names_only, pass_on, public_names, spaced, spoken, texts
from tree_codes import plain_doc
from tree_words import is_operator, stem

READS = (inputs.NODES,)
WRITES = ("crates/wgsl_model/specs/Trees/WordNodes.antt",
          "crates/wgsl_model/specs/Trees/NamedValues.antt",
          "crates/wgsl_model/specs/Trees/Operators.antt")

TREES = Path("crates/wgsl_model/specs/Trees")
# the sections of the WGSL draft that say what the words are
SECTIONS = {
    "DiagnosticSeverity": "Diagnostics", "AddressSpace": "Address Spaces",
    "AccessMode": "Memory Access Mode", "UnaryOperator": "Expressions",
    "BinaryOperator": "Expressions", "AssignmentOperator": "Assignment Statement",
    "BuiltinValue": "Built-in Inputs and Outputs", "InterpolationType": "Interpolation",
    "InterpolationSampling": "Interpolation",
}


def plural(name):
    return f"{name[:-1]}ies" if name.endswith("y") else f"{name}s"


def enum(kind):
    """An enum of words."""
    words = ", ".join(f"`{word}`" for _, word in kind.parts)
    doc = f"{plain_doc(kind.doc)}: {words}" if is_operator(kind) else plain_doc(kind.doc)
    section = f' (WGSL, "{SECTIONS[kind.name]}")' if kind.name in SECTIONS else ""
    return names_only(doc + section, kind.name, [snake(name) for name, _ in kind.parts])


def enum_texts(kind):
    """The texts of the values of an enum."""
    doc = f"the {'text' if is_operator(kind) else 'word'} of {spoken(stem(kind))}"
    return texts(doc, f"{stem(kind)}_text", kind.name,
                 [(snake(name), word) for name, word in kind.parts])


def table(kind):
    """The table of the words of an enum."""
    name, values = plural(stem(kind)), [f"{snake(name)} ∷" for name, _ in kind.parts]
    return [f"-- the words of {plural(spaced(stem(kind)))}",
            f"abbrev pub {name} : WordTable {kind.name}",
            f"{name} = with_words {stem(kind)}_text ({' '.join(values)} [])", ""]


def main():
    kinds = Table().of_form("words")
    operators = [kind for kind in kinds if is_operator(kind)]
    values = [line for kind in kinds if kind not in operators
              for line in enum(kind) + enum_texts(kind) + table(kind)]
    title = f"Written by tools/tables/plain_words.py from {TABLE}: operators and words."
    (TREES / "WordNodes.antt").write_text("\n".join([
        *comment(title),
        "use Rattle.std.specs.Prelude.{ℕ, List, [], ◌∷◌, codes}",
        "use Rattle.wgsl_model.specs.Trees.WordTables.{WordTable, with_words}", "",
        *(line for kind in operators for line in enum(kind) + enum_texts(kind)), *values]))
    for file, lines in [("Operators", sum(map(enum, operators), [])), ("NamedValues", values)]:
        pass_on(TREES / f"{file}.antt", "Trees.WordNodes", public_names("\n".join(lines)))
