"""Writes the code of each plain tree in wgsl_tree_code: its fields by their names, with its spans.

By hand, each node would be in one more definition; `tree_readers` and `tree_spans` follow it.
"""
import re
from dataclasses import dataclass
from pathlib import Path

import inputs
from antt import import_of
from node_groups import MODULES, by_module
from node_table import TABLE, Table, separated, snake
from plain_trees import (
    CONSTRUCTED, INLINE, OWN, RENAMED, UNATTRIBUTED, coded, constructor, is_apart, word_text)

READS = (inputs.NODES, inputs.MODEL, inputs.SOURCES)
WRITES = ("crates/wgsl_tree_code/specs/*Nodes.antt",)

SPECS = Path("crates/wgsl_tree_code/specs")
PRELUDE = "Rattle.std.specs.Prelude"
TREES = "Rattle.wgsl_model.specs.Trees"
CODE = ["Code", "text", "natural", "boolean", "number", "absent", "list", "Codes", "no_codes",
        "code_before", "node_of", "variant", "list_of", "optional", "pair_of", "placed",
        "attributed_code"]
# the functions that give the codes of what holds no nodes
SIMPLE = {"String": "text", "Ident": "text", "bool": "boolean", "u32": "natural", "i32": "number",
          "i64": "number"}
BLOCK = "block_code attributes (statements_code statements)"


def files(table):
    """The files: what each has, the module of its plain trees, and the kinds of these."""
    names = by_module(table)
    return [(codes, what, plain, names[codes]) for codes, what, plain in MODULES]


def own_name(held):
    """The name of a list or an optional part that has a type of its own."""
    return "TemplateExpressions" if held == "TemplateArg*" else OWN[held][0]


def own_types(table, names):
    """The lists and optional parts of some kinds that have types of their own."""
    helds = {held for kind in table.kinds if kind.name in CONSTRUCTED for _, held in kind.parts}
    helds |= {held[:-1] for held in helds if held[:-1] in OWN}
    return [held for held in OWN if held in helds and re.match(r"\w+", held)[0] in names]


def of_item(table, held):
    """The function that gives the code of a value of a type."""
    kind = table.by_name.get(held)
    if held in SIMPLE:
        return SIMPLE[held]
    if held.startswith("("):
        first, second = separated(held[1:-1])
        return f"(λ p. pair_of ({value(table, first, 'p.0')}) ({value(table, second, 'p.1')}))"
    if kind.is_spanned:
        return coded(f"{held}Node")
    return f"(attributed_code {coded(held)})" if is_apart(kind) else coded(held)


def value(table, held, place, own=False):
    """The code of a value of a type; in a tree made by constructors some types are its own."""
    if own and held in OWN:
        front = "list " if held.endswith("*") else ""
        inner = f"{coded(own_name(held))} {place}"
        return f"{front}({inner})" if front else inner
    if held == "Attribute*":
        return f"attributes_code {place}"
    if held.endswith("?"):
        return f"optional {parenthesized(function(table, held[:-1]))} {place}"
    if held.endswith("*"):
        return f"list_of {of_item(table, held[:-1])} {place}"
    return f"{of_item(table, held)} {place}"


def function(table, held):
    """The function that gives the code of a value of a type, applied to as little as can be."""
    return value(table, held, "").strip()


def parenthesized(text):
    """A term as it is written as an argument."""
    return text if re.fullmatch(r"\w+|\(.*\)", text) else f"({text})"


def node(values):
    """The code of a node with these fields."""
    if len(values) == 1 and len(values[0][1]) < 40:
        (name, written), = values
        return f'node_of ((codes "{name}", {written}) ∷ [])'
    lines = "".join(f'    (codes "{name}", {written}) ∷\n' for name, written in values)
    return f"node_of (\n{lines}    [])"


def clause_text(left, right):
    """A clause, in two lines where one is too long."""
    first, *others = right.splitlines()
    if len(left) + len(first) < 96:
        return f"{left} {right}"
    lines = "\n    ".join([left, first, *others])
    return lines.replace("(node_of (", "(\n      node_of (") if len(first) > 95 else lines


@dataclass(frozen=True)
class Function:
    """A function that gives a code: its type and its clauses."""

    name: str
    type: str
    clauses: list

    def text(self, front=""):
        """The text of the function, after the word that a mutual block has once."""
        lines = [clause_text(f"{self.name} {left} =", right) for left, right in self.clauses]
        return "\n".join([f"{front}pub {self.name} : {self.type}", *lines])

    def calls(self):
        """The functions that it uses."""
        return set(re.findall(r"\w+_code\b", " ".join(right for _, right in self.clauses)))


def struct_function(table, kind):
    """The code of a struct."""
    own = kind.name in CONSTRUCTED
    apart = is_apart(kind)
    shape = CONSTRUCTED.get(kind.name)
    place = (lambda name: RENAMED.get(name, name)) if shape else (lambda name: f"n.{name}")
    values = [(name, value(table, held, "attributes" if apart and name == "attributes"
                           else place(name), own)) for name, held in kind.parts]
    pattern = f"(plain.{shape})" if shape else "n"
    front = "Attributes → " if apart else ""
    bare = apart and len(kind.parts) == 1
    type_ = f"{front}plain.{kind.name} → Code" if not bare else "Attributes → Code"
    left = ("attributes " if apart else "") + ("" if bare else pattern)
    return Function(coded(kind.name), type_, [(left.strip(), node(values))])


def variant_clause(table, kind, name, held):
    """The code of a variant: how its tree is matched, and what its code is."""
    front = "attributes " if kind.name in UNATTRIBUTED else ""
    made = constructor(kind, name)
    inner = table.by_name.get(held)
    if kind.name == "Attribute" and held == "Expression":
        return (f"(plain.with_argument plain.{made} e)",
                f'variant (codes "{name}") (expression_node_code e)')
    if kind.name == "Attribute" and not held:
        return f"(plain.without_argument plain.{made})", f'text (codes "{name}")'
    if held in INLINE:
        values = [(part, value(table, type_, part, True)) for part, type_ in inner.parts]
        return f"(plain.{CONSTRUCTED[held]})", f'variant (codes "{name}") ({node(values)})'
    if not held and front:
        return f"{front}plain.{made}", f'alone_code (codes "{name}") attributes'
    if not held:
        return f"{front}plain.{made}", f'text (codes "{name}")'
    if held == "CompoundStatement":
        return (f"{front}(plain.{made} statements)",
                f'variant (codes "{name}") ({BLOCK})')
    if is_apart(inner) and len(inner.parts) == 1:
        return f"{front}plain.{made}", f'variant (codes "{name}") ({coded(held)} attributes)'
    call = f"{coded(held)} attributes inner" if is_apart(inner) else value(table, held, "inner")
    return f"{front}(plain.{made} inner)", f'variant (codes "{name}") ({call})'


def enum_functions(table, kind):
    """The codes of an enum, and of one with its span."""
    plain = UNATTRIBUTED.get(kind.name, kind.name)
    clauses = [variant_clause(table, kind, name, held) for name, held in kind.parts]
    if kind.name not in UNATTRIBUTED:
        yield Function(coded(kind.name), f"plain.{plain} → Code", clauses)
    else:
        yield Function(coded(plain), f"Attributes → plain.{plain} → Code", clauses)
        if kind.name == "Statement":
            clause = ("(plain.statement attributes s)", f"{coded(plain)} attributes s")
        else:
            clause = ("n", f"{coded(plain)} n.attributes n.node")
        yield Function(coded(kind.name), f"plain.{kind.name} → Code", [clause])


def spanned_function(kind):
    """The code of a node with its span."""
    name, node_name = coded(kind.name), coded(f"{kind.name}Node")
    if kind.name in ("Expression", "Statement"):
        made = f"(plain.{snake(kind.name)}_node n span)"
        return Function(node_name, f"plain.{kind.name}Node → Code",
                        [(made, f"placed span ({name} n)")])
    return Function(node_name, f"Spanned plain.{kind.name} → Code",
                    [("n", f"placed n.span ({name} n.node)")])


def own_functions(table, kinds):
    """The codes of the lists and of the optional parts that have types of their own."""
    for held in own_types(table, kinds):
        (type_, none, one), name = OWN[held], coded(own_name(held))
        if held.endswith("*"):
            item = f"{of_item(table, held[:-1])} x"
            if held == "TemplateArg*":
                item = "argument_code (expression_node_code x)"
            yield Function(name, f"plain.{type_} → Codes", [
                (f"plain.{none}", "no_codes"),
                (f"(plain.{one} x xs)", f"code_before ({item}) ({name} xs)")])
        else:
            yield Function(name, f"plain.{type_} → Code", [
                (f"plain.{none}", "absent"),
                (f"(plain.{one} x)", value(table, held[:-1], "x", True))])


def functions(table, kinds):
    """The functions of the kinds of a file."""
    for name in kinds:
        kind = table.by_name[name]
        if kind.form == "words":
            yield Function(coded(name), f"plain.{name} → Code",
                           [("w", f"text ({word_text(kind)} w)")])
        elif name == "TemplateArg":
            yield Function("argument_code", "Code → Code", [("e", node([("expression", "e")]))])
            yield Function(coded(name), "plain.ExpressionNode → Code",
                           [("e", "argument_code (expression_node_code e)")])
        elif name == "CompoundStatement":
            values = [("attributes", "attributes_code attributes"),
                      ("statements", "list statements")]
            yield Function("block_code", "Attributes → Codes → Code",
                           [("attributes statements", node(values))])
            yield Function(coded(name), f"plain.{name} → Code",
                           [(f"(plain.{CONSTRUCTED[name]})", BLOCK)])
        elif kind.form == "enum":
            yield from enum_functions(table, kind)
        elif name not in INLINE:
            yield struct_function(table, kind)
        if kind.is_spanned:
            yield spanned_function(kind)
        if name == "Attribute":
            yield Function("attributes_code", "Attributes → Code",
                           [("attributes", "list_of attribute_node_code attributes")])
            alone = node([("attributes", "attributes_code (a ∷ more)")])
            yield Function("alone_code", "List ℕ → Attributes → Code", [
                ("name []", "text name"), ("name (a ∷ more)", f"variant name ({alone})")])
    yield from own_functions(table, kinds)


def groups(made):
    """The functions after what they use; those that use one another are a group."""
    by_name = {it.name: it for it in made}

    def reached(name, seen):
        for other in by_name[name].calls() & set(by_name):
            if other not in seen:
                seen.add(other)
                reached(other, seen)
        return seen

    below = {it.name: reached(it.name, set()) for it in made}
    done = []
    for it in sorted(made, key=lambda it: len(below[it.name])):
        if it.name in done:
            continue
        group = [other for other in made if other is it or (
            other.name in below[it.name] and it.name in below[other.name])]
        done += [other.name for other in group]
        yield group, it.name in below[it.name]


def plain_doc(doc):
    """What is said of a kind, as a comment of a definition says it."""
    return doc[0].lower() + doc[1:].rstrip(".")


def file_text(table, what, module, made, homes):
    """The text of a file."""
    docs = {coded(kind.name): f"-- {plain_doc(kind.doc)}\n" for kind in table.kinds}
    body = []
    for group, is_mutual in groups(made):
        texts = [docs.get(it.name, "") + it.text("" if is_mutual else "abbrev ") for it in group]
        lines = "\n\n".join(texts)
        if is_mutual:
            lines = "abbrev mutual\n  " + lines.replace("\n", "\n  ").replace("\n  \n", "\n\n")
        body.append(lines)
    text = "\n\n".join(body)
    words = set(re.findall(r"(?<![.\w])\w+", text))
    prelude = [it for it in ["ℕ", "List", "[]", "◌∷◌", "codes"] if it.strip("◌") in text]
    texts = [it for it in sorted(words) if it.endswith("_text")]
    operators = [it for it in texts if it.endswith("_operator_text")]
    uses = [*import_of(PRELUDE, prelude),
            *import_of("Rattle.wgsl_model.specs.Printed.Operators", operators),
            *import_of(f"{TREES}.NamedValues", [it for it in texts if it not in operators]),
            *(f"use {TREES}.{it}.{{{it}}}" for it in ("Spanned", "Attributes") if it in words),
            f"use {TREES}.{module} as plain"]
    found = {"Code": [it for it in CODE if it in words]}
    here = {it.name for it in made}
    for home in dict.fromkeys(homes.values()):
        found[home] = sorted(it for it in words - here if homes.get(it) == home)
    for home, names in found.items():
        uses += import_of(f"Rattle.wgsl_tree_code.specs.{home}", names)
    head = f"-- Written by tools/tables/tree_codes.py from {TABLE}: {what.lower()}."
    return "\n".join([head, *uses, "", text, ""])


def main():
    table, homes = Table(), {}
    for name, what, module, kinds in files(table):
        made = list(functions(table, kinds))
        homes |= {it.name: name for it in made}
        (SPECS / f"{name}.antt").write_text(file_text(table, what, module, made, homes))
