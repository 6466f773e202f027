"""Writes how the Rust crate writes the packed forms of statements, and reads them.

By hand, each statement would be in two more files of that crate.
"""
import textwrap
from pathlib import Path

import inputs
from node_table import Table, snake
from nodes import filled
from packed_equations import Equations

READS = (inputs.NODES, "crates/wgsl_model_packed/specs/Statements.antt")
WRITES = ("bindings/rust/src/packed/*/statements/rows.rs",)

RUST = Path("bindings/rust/src/packed")
BY = "written by tools/tables/packed_rows.py from their equations"
# the parts that have a method of their own where they are written
WRITTEN = ["attribute_line", "expression_node", "opened", "part"]
# the methods that read parts which have other names
READ = {"attribute_line": "attributes", "compound": "block", "in": "statements",
        "kind": "declaration_kind", "opened": "block", "selector": "case_selector", "type": "ty"}
# the statements in which no others may be, and the others
GROUPS = [("short", False), ("nesting", True)]
EXPRESSION = "packed_expression_node"


def rules_of(part):
    """The argument that a method has for rules."""
    return part.rules[0] if len(part.rules) == 1 else f"({', '.join(part.rules)})"


def written(part):
    """What writes a part."""
    place = f"self.{part.field}"
    if part.function in WRITTEN:
        return f"out.{part.function}(&{place})"
    if part.function == "end_of":
        return f"out.statements(self, {rules_of(part)})"
    if part.function == "text":
        return f"out.text({place}.word())" if part.given else f"out.ident(&{place})"
    if not part.rules:
        return f"{place}.pack(out)"
    if part.given[-1] == EXPRESSION:
        return f"out.optional_node({rules_of(part)}, &{place})"
    return f"out.{part.function}({rules_of(part)}, &{place}, |out, it| it.pack(out))"


def read(part):
    """What reads a part."""
    if part.function == "text":
        return "self.word()?" if part.given else "self.ident()?"
    if not part.rules:
        return f"self.{READ.get(part.function, part.function)}()?"
    if part.given[-1] == EXPRESSION:
        return f"self.optional_node({rules_of(part)})?"
    item = part.given[-1].removeprefix("packed_")
    return f"self.{part.function}({rules_of(part)}, Self::{READ.get(item, item)})?"


def block(head, lines):
    """Lines in braces after a head."""
    return f"{head} {{\n{indent(lines)}\n}}" if lines else f"{head} {{}}"


def indent(lines):
    """Lines by a level further to the right."""
    return textwrap.indent("\n".join(lines), "    ")


def writes(equations, parts):
    """What writes parts, each in a line; what is in a block is written with its end."""
    return [f"{written(equations.by_items(it))};" for it in parts if it.function != "in"]


def reads(equations, parts):
    """What reads parts, each in a line; the end of a block is read with what is in it."""
    return [f"{it.field}: {read(equations.by_items(it))}," for it in parts
            if it.function != "end_of"]


def others(equations):
    """The parts of statements that have a rule: their functions, and what is in their forms."""
    statements = [held for _, held in equations.root.parts]
    for function, type_ in equations.functions():
        kind = equations.by_name.get(type_.removeprefix("Attributed "))
        if kind and kind.form == "struct" and kind.name not in statements:
            yield function, kind, equations.of_struct(kind, function)


def statements(equations, is_nesting):
    """The statements in which others may be, or the others, with what is in their forms."""
    for name, held in equations.root.parts:
        if held and (held in equations.nesting) == is_nesting:
            yield name, equations.by_name[held], equations.of_variant(name)


def struct_row(equations, kind, parts, ending):
    """What a macro is given of a struct that is written, with what says whether a `;` ends it."""
    rule, *inside = parts
    return block(f"{kind.name} = {rule.rules[0]} {ending}, self, out:", writes(equations, inside))


def writer_rows(equations):
    """What the macros of the writer are given."""
    names, rows = [], []
    for front, is_nesting in GROUPS:
        found = list(statements(equations, is_nesting))
        names.append(filled(0, f"{front}:", [name for name, _, _ in found]))
        for name, kind, parts in found:
            ending = str(equations.is_ended(name)).lower()
            rows.append(struct_row(equations, kind, parts, ending))
    rows += [struct_row(equations, kind, parts, "false") for _, kind, parts in others(equations)]
    return [("packed_statements", names), ("packed_structs", rows)]


def reader_rows(equations):
    """What the macros of the reader are given."""
    rows = ["self,"]
    for front, is_nesting in GROUPS:
        found = statements(equations, is_nesting)
        rows.append(block(front, [
            block(f"{name}({kind.name}) = {rule.rules[0]}, {snake(name)}_after",
                  reads(equations, parts)) for name, kind, (rule, _, *parts) in found]))
    structs = [block(f"{function}: {kind.name} = {rule.rules[0]}, self", reads(equations, parts))
               for function, kind, (rule, *parts) in others(equations)]
    return [("unpacked_statements", rows), ("unpacked_structs", structs)]


def main():
    equations = Equations(Table())
    for folder, what, calls in (("writer", "packed", writer_rows(equations)),
                                ("reader", "read", reader_rows(equations))):
        text = "".join(f"\n{block(f'{macro}!', rows)}\n" for macro, rows in calls)
        (RUST / folder / "statements/rows.rs").write_text(
            f"//! How statements are {what}, {BY}.\n\nuse super::*;\n{text}")
