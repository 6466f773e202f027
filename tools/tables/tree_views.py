"""Writes what attributes are as plain data, from the fields and variants of their nodes.

The views of statements are in cycle_views.py, those of other nodes are written by hand. By hand,
each attribute would be in one more file.
"""
from pathlib import Path

import inputs
from node_table import TABLE, Table, snake
from tree_nodes import Plain, makers_of, places
from tree_words import stem

READS = (inputs.NODES, inputs.TREES, inputs.SOURCES)
WRITES = ("crates/wgsl_tree_attribute/specs/ViewNodes.antt",)

CRATE = "attribute"
FILE = "Trees.Attributes"
IMPORTS = [
    "use Rattle.std.specs.Prelude.{List, map, string_bytes}",
    "use Rattle.std.specs.Option.{option_map}",
    "use Rattle.std.specs.declared.vec.Vec.{Vec}",
    "use Rattle.std.specs.declared.alloc.Global.{Global}",
    f"use Rattle.wgsl_model.specs.{FILE} as plain",
    "use Rattle.wgsl_model.specs.Trees.Expressions as plain_expression",
    "use Rattle.wgsl_span.specs.declared.Spanned.{Spanned}",
    "use Rattle.wgsl_tree_expression.specs.declared.expression.Expression.{Expression}",
]
# a vector that may be left out is seen as a list
VECTOR = [
    "-- expressions in a vector",
    "abbrev pub expressions_view : Vec (Spanned Expression) Global",
    "    → List plain_expression.ExpressionNode",
    "expressions_view v = map expression_node_view v.items",
    "",
]
# the views of what is not of this crate
OTHERS = {"Ident": "ident_name", "Expression": "expression_node_view",
          "TypeExpression": "type_expression_view"}


def view_name(table, name):
    """The view of a type: an attribute's parts are named without the word."""
    kind = table.by_name.get(name)
    if name in OTHERS:
        return OTHERS[name]
    if kind.form == "words":
        return f"{stem(kind)}_view"
    return f"{snake(name).removesuffix('_attribute')}_view"


def seen(table, held, place):
    """What a value is as plain data."""
    if held == "String":
        return f"string_bytes {place}"
    if held == "Expression*?":
        return f"option_map expressions_view {place}"
    if held.endswith("?"):
        return f"option_map {view_name(table, held[:-1])} {place}"
    if held.endswith("*"):
        return f"map {view_name(table, held[:-1])} {place}.items"
    return f"{view_name(table, held)} {place}"


def struct_view(table, kind):
    """What a struct is as plain data: a record with the same fields."""
    view = view_name(table, kind.name)
    parts = [f"  {name} = {seen(table, held, f'node.{name}')};" for name, held in kind.parts]
    return [f"abbrev pub {view} : {kind.name} → plain.{kind.name}",
            f"{view} node = record {{", *parts, "}", ""]


def enum_view(table, kind, plain):
    """What each variant of an enum is as plain data."""
    view, lines = view_name(table, kind.name), []
    for name, held in kind.parts:
        made = plain.pattern(kind.name, makers_of(kind.name, name))
        if held:
            made = f"{made.removesuffix(' _')} ({seen(table, held, 'e')})"
        variant = f"variant.{name}"
        lines.append(f"{view} {f'({variant} e)' if held else variant} = {made}")
    return [f"abbrev pub {view} : {kind.name} → plain.{kind.name}", *lines, ""]


def imports(table, kinds, at):
    """The lines that import the types, and the views of what they hold."""
    lines, views = [*IMPORTS], {}
    for kind in kinds:
        place = at[kind.name].declared
        lines.append(f"use {place}.{kind.name}.{{{kind.name}}}")
        if kind.form == "enum":
            lines.append(f"use {place}.{kind.name}.TheVariants as variant")
        for _, held in kind.parts:
            part = held.rstrip("*?")
            if part in OTHERS or part in table.by_name and table.by_name[part].form == "words":
                crate = "words" if part not in OTHERS else "expression"
                views.setdefault(crate, set()).add(view_name(table, part))
    return lines + [f"use Rattle.wgsl_tree_{crate}.specs.View.{{{name}}}"
                    for crate, names in sorted(views.items()) for name in sorted(names)]


def main():
    table, at = Table(), places()
    kinds = [kind for kind in table.kinds if at[kind.name].crate == CRATE]
    kinds.sort(key=lambda kind: kind.form == "enum")
    lines = [f"-- Written by tools/tables/tree_views.py from {TABLE}: attributes as plain data.",
             *imports(table, kinds, at), "", *VECTOR]
    plain = Plain(FILE)
    for kind in kinds:
        is_struct = kind.form == "struct"
        lines += struct_view(table, kind) if is_struct else enum_view(table, kind, plain)
    Path(f"crates/wgsl_tree_{CRATE}/specs/ViewNodes.antt").write_text("\n".join(lines))
