"""Writes what reads the plain tree of each kind of node from its code, and the lemma that this
gives back the tree.
"""
import inputs
import tree_codes
from node_table import TABLE, Table, separated, snake
from plain_trees import (
    CONSTRUCTED, INLINE, OWN, RENAMED, UNATTRIBUTED, coded, constructor, is_apart)
from tree_codes import SIMPLE, files, own_name, own_types
from tree_terms import (
    CODES, PROOFS, Codes, Item, applied, bracketed, file_text, pattern_of, place_of)

READS = (inputs.NODES, inputs.MODEL, inputs.SOURCES, "crates/wgsl_tree_code/specs/*.antt",
         "crates/wgsl_tree_code/proofs/Reading.antt", "crates/wgsl_tree_code/proofs/Spanless.antt")
WRITES = ("crates/wgsl_tree_code/proofs/Read*Nodes.antt",)

# what the lemma of an optional part says of a kind: that its code is not `absent`
THERE = {"Expression": "expression_node_there", "TypeExpression": "type_expression_there"}


def reader(name):
    """The name of what reads a kind."""
    return f"{snake(name)}_of"


def lemma(name):
    """The name of its lemma."""
    return f"{snake(name)}_read"


class Readers(Codes):
    """What reads values of the types of the table."""

    def of(self, held, own=False):
        """What reads a value of a type."""
        kind = self.table.by_name.get(held)
        if own and held in OWN:
            return reader(own_name(held))
        if held in SIMPLE:
            return f"{SIMPLE[held]}_of"
        if held == "Attribute*":
            return "attributes_of"
        if held.endswith("?"):
            return f"(optional_of {self.of(held[:-1])})"
        if held.endswith("*"):
            return f"(list_read_of {self.of(held[:-1])})"
        if held.startswith("("):
            return f"(pair_of_codes {' '.join(map(self.of, separated(held[1:-1])))})"
        return reader(f"{held}Node" if kind.is_spanned else held)

    def read(self, held, own=False):
        """The lemma that a value of a type is read back."""
        kind = self.table.by_name.get(held)
        if own and held in OWN:
            return lemma(own_name(held))
        if held in SIMPLE:
            return f"{SIMPLE[held]}_read"
        if held == "TemplateArg":
            return "expression_node_read"
        if held == "Attribute*":
            return "attributes_read"
        if held[-1] in "?*":
            inner = held[:-1]
            words = f"{self.code(inner)} {self.of(inner)} {self.read(inner)}"
            if held.endswith("*"):
                return f"(items_read {words})"
            return f"(optional_read {words} {THERE.get(inner, '(λ x. refl)')})"
        if held.startswith("("):
            parts = separated(held[1:-1])
            words = [f"{self.code(it)} {self.of(it)} {self.read(it)}" for it in parts]
            return f"(pair_read {' '.join(words)})"
        if kind.is_spanned:
            return lemma(f"{held}Node")
        return f"(λ a. {lemma(held)} a.attributes a.node)" if is_apart(kind) else lemma(held)


def chain(steps, made):
    """What is made of values that are read one after another."""
    front = "".join(f"then_of ({step}) (λ x{at}. " for at, step in enumerate(steps))
    return f"{front}Some {bracketed(made)}{')' * len(steps)}"


def named(names, body):
    """What is read of fields if these are their names."""
    here = " ∷ ".join(f"n{at}" for at in range(len(names)))
    wanted = " ∷ ".join(f'codes "{name}"' for name in names)
    return f"named ({here} ∷ []) ({wanted} ∷ []) ({body})"


def node_pattern(patterns):
    """The pattern of a node whose values have these patterns."""
    text = "no_fields"
    for at, pattern in reversed(list(enumerate(patterns))):
        text = f"(field n{at} {pattern} {text})"
    return f"(node {text})"


def node_readers(name, type_, patterns, body):
    """What reads a node; from its fields too, if it is an optional part with a type of its own."""
    pattern, left_out = node_pattern(patterns), f"{name.removesuffix('Node')}?"
    if left_out not in OWN:
        yield Item(reader(name), f"Code → Option {type_}", [(pattern, body), ("c", "None")])
        return
    inside = f"{snake(name)}_in"
    fields = pattern.removeprefix("(node ").removesuffix(")")
    yield Item(inside, f"Fields → Option {type_}", [(fields, body), ("fs", "None")])
    yield Item(reader(name), f"Code → Option {type_}",
               [("(node fs)", f"{inside} fs"), ("c", "None")])


def struct_made(kind):
    """The plain tree of a struct from the values of its fields."""
    place = {RENAMED.get(name, name): f"x{at}" for at, (name, _) in enumerate(kind.parts)}
    if kind.name in CONSTRUCTED:
        made, *names = CONSTRUCTED[kind.name].split()
        tree = " ".join([f"plain.{made}", *(place[name] for name in names)])
    else:
        fields = [it for it in place if not (is_apart(kind) and it == "attributes")]
        tree = "record { " + "; ".join(f"{it} = {place[it]}" for it in fields) + " }"
    if not is_apart(kind):
        return tree
    return f"with_attributes x0 ({tree})" if len(kind.parts) > 1 else "x0"


def struct_type(kind):
    """The type of what is read of a struct."""
    if kind.name in INLINE:
        return "plain.Expression"
    if not is_apart(kind):
        return f"plain.{kind.name}"
    return f"(Attributed plain.{kind.name})" if len(kind.parts) > 1 else "Attributes"


def struct_proof(readers, kind):
    """What is read of the code of a struct, in its lemma."""
    own = kind.name in CONSTRUCTED
    reads = [applied(readers.read(held, own), place_of(kind, name), "i")
             for name, held in kind.parts]
    return chain(reads, struct_made(kind))


def struct_items(readers, kind):
    """What reads a struct, and its lemma."""
    own = kind.name in CONSTRUCTED
    patterns = [f"(list c{at})" if own and held in OWN and held.endswith("*") else f"c{at}"
                for at, (_, held) in enumerate(kind.parts)]
    steps = [applied(readers.of(held, own), f"c{at}") for at, (_, held) in enumerate(kind.parts)]
    body = named([name for name, _ in kind.parts], chain(steps, struct_made(kind)))
    yield from node_readers(kind.name, struct_type(kind), patterns, body)
    if kind.name not in INLINE:
        yield struct_lemma(kind, f"λ i. {struct_proof(readers, kind)}")


def struct_lemma(kind, proof):
    """The lemma of a struct."""
    pattern, front = pattern_of(kind), f"{reader(kind.name)} ({coded(kind.name)}"
    if not is_apart(kind):
        said, left = f"(x : plain.{kind.name}) → {front} x) ≡ Some x", pattern
    elif len(kind.parts) == 1:
        left = "attributes"
        said = f"(attributes : Attributes) → {front} attributes) ≡ Some attributes"
    else:
        said = (f"(attributes : Attributes) (x : plain.{kind.name}) → {front} attributes x) "
                "≡ Some (with_attributes attributes x)")
        left = f"attributes {pattern}"
    return Item(lemma(kind.name), said, [(left, proof)], True)


def led_value(kind, name, held, inner):
    """What a variant is whose attributes are apart, from what it holds."""
    made = f"plain.{constructor(kind, name)}"
    if kind.name != "Statement":
        return f"led {made} x0"
    if held == "CompoundStatement":
        return "plain.block_statement x0"
    is_alone = is_apart(inner) and len(inner.parts) == 1
    return f"plain.statement x0 {made}" if is_alone else f"plain.as_statement {made} x0"


def variant_parts(readers, kind, name, held):
    """How a variant is read from what it holds, its pattern in the lemma, and its proof."""
    made, inner = f"plain.{constructor(kind, name)}", readers.table.by_name.get(held)
    if kind.name == "Attribute" and held == "Expression":
        tree = f"plain.with_argument {made}"
        return (chain(["expression_node_of value"], f"{tree} x0"), f"({tree} e)",
                chain(["expression_node_read e i"], f"{tree} x0"))
    if held in INLINE:
        return f"{reader(held)} value", pattern_of(inner), struct_proof(readers, inner)
    if kind.name not in UNATTRIBUTED:
        return (chain([applied(readers.of(held), "value")], f"{made} x0"), f"({made} x)",
                chain([applied(readers.read(held), "x", "i")], f"{made} x0"))
    tree = led_value(kind, name, held, inner)
    right = chain([f"{reader(held)} value"], tree)
    if held == "CompoundStatement":
        block = chain(["attributes_read attributes i", "statement_nodes_read ss i"],
                      "plain.compound_statement x0 x1")
        return right, f"({made} ss)", f"then_of ({block}) (λ x0. Some ({tree}))"
    is_alone = len(inner.parts) == 1
    read = f"{lemma(held)} attributes{'' if is_alone else ' x'} i"
    return right, made if is_alone else f"({made} x)", chain([read], tree)


def table_of(entries):
    """The value for each name."""
    return "".join(f'(codes "{name}", λ _. {right}) ∷ ' for name, right in entries) + "[]"


def void_parts(kind, name):
    """How an empty item is read: without attributes, and with those that only a plain tree has."""
    made = f"plain.{constructor(kind, name)}"
    tree = "plain.statement {} " if kind.name == "Statement" else "with_attributes {} "
    other = tree.format("x0") + made
    proof = chain(["lone_attributes_read (a ∷ more) i"], other)
    clauses = [(f"[] {made}", "refl"), (f"(a ∷ more) {made}", f"λ i. {proof}")]
    return f"Some ({tree.format('[]')}{made})", chain(["lone_attributes_of value"], other), clauses


def enum_items(readers, kind):
    """What reads an enum, and its lemma."""
    words, others, clauses, last = [], [], [], []
    is_led = kind.name in UNATTRIBUTED
    for name, held in kind.parts:
        if held:
            right, pattern, proof = variant_parts(readers, kind, name, held)
            others.append((name, right))
            clauses.append((f"attributes {pattern}" if is_led else pattern, f"λ i. {proof}"))
        elif is_led:
            word, other, last = void_parts(kind, name)
            words.append((name, word))
            others.append((name, other))
        else:
            made = f"plain.{constructor(kind, name)}"
            made = f"plain.without_argument {made}" if kind.name == "Attribute" else made
            words.append((name, f"Some {bracketed(made)}"))
            clauses.append((bracketed(made), "refl"))
    cases = [("(text name)", f"chosen name ({table_of(words)})")] * bool(words)
    node = "(node (field name value no_fields))"
    cases += [(node, f"chosen name ({table_of(others)})")] * bool(others)
    yield Item(reader(kind.name), f"Code → Option plain.{kind.name}", [*cases, ("c", "None")])
    yield from enum_lemmas(kind, [*clauses, *last])


def enum_lemmas(kind, clauses):
    """The lemma of an enum, and of its variants after their attributes."""
    whole = f"(x : plain.{kind.name}) → {reader(kind.name)} ({coded(kind.name)} x) ≡ Some x"
    if kind.name not in UNATTRIBUTED:
        yield Item(lemma(kind.name), whole, clauses, True)
        return
    part, is_own = UNATTRIBUTED[kind.name], kind.name == "Statement"
    back = "plain.statement attributes x" if is_own else "with_attributes attributes x"
    said = (f"(attributes : Attributes) (x : plain.{part}) → {reader(kind.name)} "
            f"({coded(part)} attributes x) ≡ Some ({back})")
    yield Item(lemma(part), said, clauses, True)
    clause = ("x", f"{lemma(part)} x.attributes x.node")
    if is_own:
        clause = ("(plain.statement attributes x)", f"{lemma(part)} attributes x")
    yield Item(lemma(kind.name), whole, [clause], True)


def spanned_items(kind):
    """What reads a node with its span, and its lemma."""
    name, is_own = f"{kind.name}Node", kind.name in ("Expression", "Statement")
    type_ = f"plain.{name}" if is_own else f"(Spanned plain.{kind.name})"
    tree = f"plain.{snake(name)}" if is_own else "spanned"
    body = chain(["span_of c0", f"{reader(kind.name)} c1"], f"{tree} x1 x0")
    yield from node_readers(name, type_, ["c0", "c1"], named(["span", "node"], body))
    pattern, node, span = ("s", "s.node", "s.span")
    if is_own:
        pattern, node, span = f"({tree} n span)", "n", "span"
    said = f"(x : {type_.strip('()')}) → {reader(name)} ({coded(name)} x) ≡ Some x"
    proof = chain([f"{lemma(kind.name)} {node} i"], f"{tree} x0 {span}")
    yield Item(lemma(name), said, [(pattern, f"λ i. {proof}")], True)


def own_list_items(readers, held):
    """What reads a list with a type of its own, and its lemma."""
    name, item, (type_, none, one) = own_name(held), held[:-1], OWN[held]
    steps = [f"{readers.of(item)} c", f"{reader(name)} cs"]
    reads = [f"{readers.read(item)} x i", f"{lemma(name)} xs i"]
    tree = f"plain.{one} x0 x1"
    yield Item(reader(name), f"Codes → Option plain.{type_}", [
        ("no_codes", f"Some plain.{none}"), ("(code_before c cs)", chain(steps, tree))])
    said = f"(x : plain.{type_}) → {reader(name)} ({coded(name)} x) ≡ Some x"
    yield Item(lemma(name), said, [
        (f"plain.{none}", "refl"), (f"(plain.{one} x xs)", f"λ i. {chain(reads, tree)}")], True)


def own_optional_items(readers, held):
    """What reads an optional part with a type of its own, and its lemma."""
    name, item, (type_, none, one) = own_name(held), held[:-1], OWN[held]
    if item.endswith("*"):
        pattern, inside = "(list cs)", f"{reader(own_name(item))} cs"
        opened, proof = "x", f"{lemma(own_name(item))} x i"
    else:
        pattern, inside = "(node cs)", f"{readers.of(item).removesuffix('_of')}_in cs"
        kind = readers.table.by_name[item]
        opened = pattern_of(kind)
        proof = struct_proof(readers, kind) if kind.form == "struct" else ""
    if item == "Statement":
        opened = "(plain.statement_node n span)"
        proof = chain(["statement_read n i"], "plain.statement_node x0 span")
    tree = f"plain.{one} x0"
    yield Item(reader(name), f"Code → Option plain.{type_}", [
        ("absent", f"Some plain.{none}"), (pattern, chain([inside], tree)), ("c", "None")])
    said = f"(x : plain.{type_}) → {reader(name)} ({coded(name)} x) ≡ Some x"
    yield Item(lemma(name), said, [
        (f"plain.{none}", "refl"),
        (f"(plain.{one} {opened})", f"λ i. {chain([proof], tree)}")], True)


def word_items(kind):
    """What reads a word, and its lemma."""
    entries = [(word, f"Some plain.{constructor(kind, name)}") for name, word in kind.parts]
    yield Item(reader(kind.name), f"Code → Option plain.{kind.name}",
               [("(text word)", f"chosen word ({table_of(entries)})"), ("c", "None")])
    said = f"(x : plain.{kind.name}) → {reader(kind.name)} ({coded(kind.name)} x) ≡ Some x"
    first = constructor(kind, kind.parts[0][0])
    yield Item(lemma(kind.name), said, [(f"plain.{first}", "refl"), ("_", "refl")], True)


def attributes_items():
    """What reads a list of attributes, also as all that a node has, and the lemmas."""
    yield Item("attributes_of", "Code → Option Attributes",
               [("c", "list_read_of attribute_node_of c")])
    read = "items_read attribute_node_code attribute_node_of attribute_node_read x"
    yield Item("attributes_read",
               "(x : Attributes) → attributes_of (attributes_code x) ≡ Some x", [("x", read)], True)
    yield Item("lone_attributes_of", "Code → Option Attributes", [
        (node_pattern(["c0"]), named(["attributes"], "attributes_of c0")), ("c", "None")])
    node = '(node (field (codes "attributes") (attributes_code x) no_fields))'
    yield Item("lone_attributes_read", f"(x : Attributes) → lone_attributes_of {node} ≡ Some x",
               [("x", "attributes_read x")], True)


def template_arg_item():
    """What reads an argument of a template, whose plain tree is its expression."""
    return Item("template_arg_of", "Code → Option plain.ExpressionNode", [
        (node_pattern(["c0"]), named(["expression"], "expression_node_of c0")), ("c", "None")])


def items(readers, names):
    """The readers and lemmas of the kinds of a file."""
    for kind in map(readers.table.by_name.get, names):
        if kind.name == "TemplateArg":
            yield template_arg_item()
        elif kind.form == "words":
            yield from word_items(kind)
        elif kind.form == "struct":
            yield from struct_items(readers, kind)
        else:
            yield from enum_items(readers, kind)
            for held in [held for _, held in kind.parts if held in INLINE]:
                yield from struct_items(readers, readers.table.by_name[held])
        if kind.is_spanned:
            yield from spanned_items(kind)
        if kind.name == "Attribute":
            yield from attributes_items()
    for held in own_types(readers.table, names):
        made = own_list_items if held.endswith("*") else own_optional_items
        yield from made(readers, held)


def homes(table):
    """The modules of codes, readers and lemmas."""
    found = {}
    for name, _, _, names in files(table):
        found |= {it.name: f"{CODES}.specs.{name}" for it in tree_codes.functions(table, names)}
        found |= {it.name: f"{CODES}.proofs.Read{name}" for it in items(Readers(table), names)}
    return found


def main():
    table = Table()
    for name, what, module, names in files(table):
        head = (f"Written by tools/tables/tree_readers.py from {TABLE}: {what.lower()} read from "
                "their codes.")
        text = file_text(head, module, list(items(Readers(table), names)), homes(table))
        (PROOFS / f"Read{name}.antt").write_text(text)
