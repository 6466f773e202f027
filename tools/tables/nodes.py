"""Writes what follows from the fields of the nodes alone: the lists of docs/TREE.md, the types and
the lists of nodes of the Rust crate, and for its tests a text with the example of each variant and
what prints are read as.

It fails if a type of the library differs.
"""
import textwrap
from pathlib import Path

import inputs
from filling import fill
from node_table import TABLE, Table, check, snake

READS = (inputs.NODES, inputs.SOURCES)
WRITES = ("docs/TREE.md", "bindings/rust/src/words.rs", "bindings/rust/src/*/node_*.rs",
          "bindings/rust/src/syntax/*/node_*.rs", "bindings/rust/tests/every_kind.wgsl",
          "bindings/rust/tests/node_prints/mod.rs")

DOCUMENT = Path("docs/TREE.md")
RUST = Path("bindings/rust/src")
TEXT = Path("bindings/rust/tests/every_kind.wgsl")
WRITTEN = f"written by tools/tables/nodes.py from {TABLE}."
# the enums that have no name, although what a variant holds has one
UNNAMED = ["Statement"]
# the kinds that are printed, beside what variants hold
PRINTED = ["TranslationUnit", "GlobalDirective", "GlobalDeclaration", "Statement", "Expression",
           "Attribute", "StructMember", "FormalParameter", "DeclarationKind", "CaseSelector",
           "IfClause", "ElseIfClause", "ElseClause", "SwitchClause", "ContinuingStatement",
           "BreakIfStatement", "TypeConstraint"]
# the enums of these of which each variant has the print of what it holds
PLAIN = ["GlobalDirective", "GlobalDeclaration", "Statement", "Expression"]


def listed(heading, kinds, shown):
    """A section of a document with the parts of each kind, as they are shown."""
    lines = [f"### {heading}", ""]
    for kind in kinds:
        parts = [f"`{shown(*part)}`" for part in kind.parts]
        lines.append(f"- `{kind.name}`: {(' ' if kind.form == 'words' else ', ').join(parts)}")
    return "\n".join([*lines, "", ""])


def document(table):
    """The lists of the document."""
    def field(name, held):
        return "attributes" if name == "attributes" else table.field(name, held)

    return ("\n\n"
            + listed("Enums and their variants", table.of_form("enum"), table.variant)
            + listed("Structs and their fields", table.of_form("struct"), field)
            + listed("Enums of words", table.of_form("words"), lambda name, word: word))


def field_doc(table, kind, name, held):
    """What a field is: as the table says it, or by its name."""
    doc = table.doc(kind, name) or f"The {name.replace('_', ' ')}."
    return f"{doc[:-1]}, if it is there." if held.endswith("?") and ", if " not in doc else doc


def variant_doc(table, kind, name, held):
    """What a variant is: as the table says it of it or of what it holds, or by its name."""
    inside = table.by_name.get(held)
    if table.doc(kind, name):
        return table.doc(kind, name)
    if inside and inside.form != "words" and not inside.is_spanned:
        return inside.doc
    argument = f"({'expression' if inside.is_spanned else 'value'})" if inside else ""
    return f"`{'@' * (kind.name == 'Attribute')}{snake(name)}{argument}`."


def declared(table, form, part_doc, shown):
    """The kinds of a form as Rust declares them by a macro."""
    lines = []
    for kind in table.of_form(form):
        lines += [f"    /// {kind.doc}", f"    {kind.name} {{"]
        for part in kind.parts:
            lines += [f"        /// {part_doc(table, kind, *part)}", f"        {shown(*part)},"]
        lines.append("    }")
    return "\n".join(lines)


def named(table, held):
    """The type of a node; one with a span by the name that the Rust crate gives to that."""
    kind = table.by_name.get(held)
    return f"{held}Node" if kind and kind.is_spanned else table.rust(held)


def variants(table):
    """The calls for the variants of each enum. A variant is made from what it holds if no other one
    holds the same, and if that is not left out."""
    lines = []
    for kind in table.of_form("enum"):
        types = [held for _, held in kind.parts]
        lines.append(f"    {kind.name} {{")
        for name, held in kind.parts:
            is_made = held and types.count(held) == 1 and not held.endswith("?")
            front = f"        {name}({named(table, held)})" if held else f"        {name}"
            calls = (f'is_{snake(name)} unwrap_{snake(name)} = "{table.examples[kind.name][name]}"'
                     f"{' => From' if is_made else ''},")
            fits = len(f"{front} {calls}") <= 100
            lines += [f"{front} {calls}"] if fits else [front, f"            {calls}"]
        lines.append("    }")
    return "\n".join(lines)


def attributes(table):
    """The variants of enums that hold a node with attributes, those with a name, and the others."""
    lines = []
    for kind in table.of_form("enum"):
        fields = {name: held_fields(table, held) for name, held in kind.parts}
        found = {"attributes": [name for name in fields if "attributes" in fields[name]],
                 "ident": [name for name in fields if "ident" in fields[name]],
                 "others": [name for name in fields if "attributes" not in fields[name]]}
        if kind.name in UNNAMED:
            found["ident"] = []
        if found["attributes"]:
            lists = [filled(8, f"{what}:", names) for what, names in found.items() if names]
            lines += [f"    {kind.name} {{", *lists, "    }"]
    return "\n".join(lines)


def named_attributes(table):
    """The attributes with an expression, and those that are a name, for a macro."""
    words = table.attribute_words()
    lines = []
    for group, wanted in [("with_argument", "Expression"), ("without_argument", "")]:
        lines += [f"            {group}:",
                  *(f'                b"{words[name]}" => {name},'
                    for name, held in table.by_name["Attribute"].parts if held == wanted)]
    return "\n".join(lines)


def filled(indent, head, names):
    """A list of names after a head, in lines of less than 100 columns."""
    first, others = " " * indent, " " * (indent + 4)
    return textwrap.fill(f"{head} {' '.join(names)},", 98, initial_indent=first,
                         subsequent_indent=others)


def held_fields(table, held):
    """The fields of what a variant holds."""
    kind = table.by_name.get(held)
    return dict(kind.parts) if kind and kind.form == "struct" else {}


def nodes(table):
    """The structs, then the enums."""
    return table.of_form("struct") + table.of_form("enum")


def visited(table):
    """The nodes with the methods of visitors; a node with a span has two."""
    names = []
    for kind in nodes(table):
        names += [f"{kind.name}Node", kind.name] if kind.is_spanned else [kind.name]
    lines = [f"    {it} visit_{snake(it)} visit_{snake(it)}_mut," for it in [*names, "Ident"]]
    return "\n".join(lines)


def unvisited(table):
    """What nodes hold that is not a node."""
    names = {"", "Ident", *(kind.name for kind in nodes(table))}
    held = dict.fromkeys(held.rstrip("?*") for kind in nodes(table) for _, held in kind.parts)
    return "\n".join(f"    {table.rust(it)}," for it in held if it not in names)


def parts_in(kind, names):
    """The fields or variants of a kind that hold one of some kinds, or a list of it."""
    return [name for name, held in kind.parts if held.rstrip("?*") in names]


def blocks(table, form):
    """The fields or variants in which blocks are, of each kind of a form that is not a block."""
    before, found = set(), {"CompoundStatement"}
    while found != before:
        before, found = found, found | {it.name for it in nodes(table) if parts_in(it, found)}
    parts = {it.name: parts_in(it, found) for it in table.of_form(form)}
    return "\n".join(filled(4, f"{name}:", names) for name, names in parts.items()
                     if names and name != "CompoundStatement")


def printed(table):
    """What is printed: these kinds, and what is a variant of one of them."""
    variants = [held for enum in PLAIN for _, held in table.by_name[enum].parts if held]
    return "\n".join(f"    {name}" for name in dict.fromkeys([*PRINTED, *variants]))


def read_as(table):
    """What the prints of nodes are read as: of those that are one variant of one enum, the enum."""
    held = [(it, enum) for enum in PLAIN for _, it in table.by_name[enum].parts if it]
    kinds = [it for it, _ in held]
    return "\n".join(f"    visit_{snake(it)} {it}: {enum}," for it, enum in held
                     if kinds.count(it) == 1)


def write_list(path, what, *macros):
    """A file of the Rust crate in which macros are given lists."""
    calls = "".join(f"\n{macro}! {{\n{text}\n}}\n" for macro, text in macros)
    (RUST / f"{path}.rs").write_text(f"//! {what}, {WRITTEN}\n\nuse super::*;\n{calls}")


def write_packed(table):
    """A macro of the Rust crate that gives another one the attributes by their names."""
    (RUST / "packed/node_attributes.rs").write_text(f"""\
//! The attributes by their names, {WRITTEN}

/// Gives a macro the attributes with an expression, and those that are a name.
macro_rules! named_attributes {{
    ($given:ident) => {{
        $given! {{
{named_attributes(table)}
        }}
    }};
}}
""")


def write_rust(table):
    """The types of the Rust crate, and its lists of nodes."""
    structs = declared(table, "struct", field_doc, table.field)
    enums = declared(table, "enum", variant_doc, table.variant)
    write_list("syntax/node_structs", "The structs of the trees", ("structs", structs))
    write_list("syntax/node_enums", "The enums of the trees", ("enums", enums))
    write_list("syntax/node_variants", "The calls for variants", ("variants", variants(table)))
    write_list("syntax/node_attributes", "Attributes and names of variants",
               ("held_attributes", attributes(table)))
    write_list("syntax/prints/node_prints", "The nodes that are printed",
               ("prints", printed(table)))
    write_list("visit/node_visits", "The nodes that are visited",
               ("unvisited", unvisited(table)), ("visitors", visited(table)))
    write_list("syntax/voids/node_blocks", "Where blocks are",
               *((f"{form}_blocks", blocks(table, form)) for form in ("struct", "enum")))
    write_list("../tests/node_prints/mod", "What prints are read as", ("prints", read_as(table)))
    words = declared(table, "words", lambda table, kind, name, word: f"`{word}`.",
                     lambda name, word: f'{name} = "{word}"')
    fill(RUST / "words.rs", "\nwords! {\n", f"    // {WRITTEN.capitalize()}\n{words}", "\n}\n")


def write_text(table):
    """The examples of all variants, in a module."""
    def of(*enums):
        return [example for enum in enums for example in table.examples[enum].values()]

    values = [f"const a = {it};" for it in of("Expression", "LiteralExpression")]
    lines = [*of("GlobalDirective", "GlobalDeclaration"), *values,
             filled(0, "fn f() ->", [*of("Attribute"), "a {}"])[:-1],
             "fn f() {", *(f"    {it}" for it in of("Statement")), "}"]
    fill(TEXT, f"// Examples of the variants, {WRITTEN}\n", "\n".join(lines), "\n// What they lack")


def main():
    table = Table()
    check(table)
    fill(DOCUMENT, f"<!-- The lists are {WRITTEN} -->", document(table),
         "<!-- The end of the lists. -->")
    write_rust(table)
    write_packed(table)
    write_text(table)
