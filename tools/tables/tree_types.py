"""Writes the types of the trees of bindings/web/tree.js and of its functions, for TypeScript."""
import re
from pathlib import Path

import inputs
from node_table import Table, separated
from nodes import field_doc, variant_doc
from packed_kinds import lines, type_of

READS = (inputs.NODES, inputs.RULES)
WRITES = ("bindings/web/tree.d.ts",)

TYPES = Path("bindings/web/tree.d.ts")
# the kinds of trees that are read from a text
KINDS = ["TranslationUnit", "GlobalDirective", "GlobalDeclaration", "Statement", "Expression"]
PRIMITIVES = {"bool": "boolean"}
# what variants hold that have no name for it
VALUES = {"bool": "Whether it is `true`.", "String": "The spelling, without the suffix.",
          "Expression": "The expression.", "BuiltinValue": "The built-in value."}
NUMBER = "The number, by its digits in decimal."

HEAD = """\
// The types of the trees of tree.js, written by tools/tables/tree_types.py from
// crates/wgsl_model/nodes. docs/TREE.md describes trees.

/** Where a node starts and ends: in bytes, or in what the offsets are that `treeOf` was given. */
export interface Span {
  start: number;
  end: number;
}

/** A node with its span. */
export type Spanned<T> = T & { span: Span };

/** A node of which spans need not be there. */
export type Unspanned<T> = T extends (infer Item)[]
  ? Unspanned<Item>[]
  : T extends object
    ? { [Field in keyof T as Field extends 'span' ? never : Field]: Unspanned<T[Field]> } & {
        span?: Span;
      }
    : T;
"""

CALLS = """\
/** The kinds of trees that are read from a text. */
export interface Kinds {{
{kinds}
}}

/**
 * Returns the tree that a packed form is of. Its spans are in bytes, or what `offsets` has for each
 * byte offset. Throws a `RangeError` if the bytes are not a packed form of the kind.
 */
export function treeOf(bytes: Uint8Array, offsets?: ArrayLike<number> | null): TranslationUnit;
export function treeOf<Kind extends keyof Kinds>(
  bytes: Uint8Array,
  offsets: ArrayLike<number> | null | undefined,
  kind: Kind,
): Kinds[Kind];

/**
 * Returns the packed form of a node, with its spans as they are, and 0 to 0 for those that are not
 * there. Throws a `TypeError` for what is no node.
 */
export function packed(node: Unspanned<Node>): Uint8Array;
"""


class Types:
    """The types of TypeScript for the kinds of a table."""

    def __init__(self, table):
        self.table = table
        self.lines = lines()
        # the types of all nodes
        self.nodes = []

    def held(self, held):
        """A type of the table as one of TypeScript."""
        if held.endswith("?"):
            return f"{self.held(held[:-1])} | null"
        if held.endswith("*"):
            return f"{self.held(held[:-1])}[]"
        kind = self.table.by_name.get(held)
        if not kind:
            return PRIMITIVES.get(held, "string")
        return f"Spanned<{held}>" if kind.is_spanned else held

    def interface(self, name, doc, fields):
        """A node with its fields, each with its type and what it is."""
        self.nodes.append(name)
        body = [f"  type: '{name}';"]
        for field, held, what in fields:
            body += [f"  /** {what} */", f"  {field}: {self.held(held)};"]
        return "\n".join([f"/** {doc} */", f"export interface {name} {{", *body, "}"])

    def struct(self, kind):
        fields = [(*it, field_doc(self.table, kind, *it)) for it in kind.parts]
        return [self.interface(kind.name, kind.doc, fields)]

    def variant(self, kind, name, held):
        """A variant that holds no node without a span."""
        group = re.search(r"\((.*)\)", self.lines.get(f"{kind.name}.{name}.value", ""))
        if group:
            parts = [it.partition(": ")[::2] for it in separated(group[1])]
            fields = [(field, f"{of.rstrip('?')}?", self.table.by_name[of.rstrip("?")].doc)
                      for field, of in parts]
        else:
            fields = [("value", held, VALUES.get(held, NUMBER))] if held else []
        return self.interface(type_of(kind.name, name), variant_doc(self.table, kind, name, held),
                              fields)

    def enum(self, kind):
        """An enum as the types of its variants."""
        made, types = [], []
        for name, held in kind.parts:
            inside = self.table.by_name.get(held)
            if inside and inside.form != "words" and not inside.is_spanned:
                types.append(held)
            else:
                types.append(type_of(kind.name, name))
                made.append(self.variant(kind, name, held))
        return [f"/** {kind.doc} */\n{union(kind.name, types)}", *made]

    def words(self, kind):
        words = [f"'{word}'" for _, word in kind.parts]
        return [f"/** {kind.doc} */\n{union(kind.name, words)}"]

    def text(self):
        """The file."""
        made = [it for kind in self.table.kinds for it in getattr(self, kind.form)(kind)]
        made.append(f"/** A node of any type. */\n{union('Node', self.nodes)}")
        calls = CALLS.format(kinds="\n".join(f"  {it}: {it};" for it in KINDS))
        return "\n".join([HEAD, "\n\n".join(made), "", calls])


def union(name, types):
    """A type that is one of some."""
    line = f"export type {name} = {' | '.join(types)};"
    if len(line) <= 100:
        return line
    return "\n".join([f"export type {name} =", *(f"  | {it}" for it in types)]) + ";"


def main():
    TYPES.write_text(Types(Table()).text())
