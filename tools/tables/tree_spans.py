"""Writes the lemma, for each kind of node, that its code without spans is the code of its plain
tree without them, and what follows: when the codes of two trees are the same.
"""
import inputs
from node_table import TABLE, Table, separated, snake
from plain_trees import (CONSTRUCTED, INLINE, OWN, SPANLESS, UNATTRIBUTED, bare, coded, constructor,
                         is_apart)
from tree_codes import SIMPLE, files, own_name, own_types
from tree_readers import homes, lemma, reader
from tree_terms import (
    CODES, PROOFS, Codes, Item, applied, bracketed, file_text, pattern_of, place_of)

READS = (inputs.NODES, inputs.MODEL, inputs.SOURCES, "crates/wgsl_tree_code/specs/*.antt",
         "crates/wgsl_tree_code/proofs/Reading.antt", "crates/wgsl_tree_code/proofs/Spanless.antt")
WRITES = ("crates/wgsl_tree_code/proofs/Spanless*Nodes.antt",)


def spanless(name):
    """The name of the lemma of a kind."""
    return f"{snake(name)}_spanless"


class Spans(Codes):
    """The codes of values of the types of the table without their spans."""

    def has_spans(self, held):
        """Whether there are spans in values of a type."""
        if held in SIMPLE or held.startswith("("):
            return False
        kind = self.table.by_name[held.rstrip("?*")]
        return kind.form != "words" and kind.name not in SPANLESS

    def bare(self, held):
        """What gives a value of a type without its spans."""
        kind = self.table.by_name[held]
        if kind.is_spanned and held in ("Expression", "Statement"):
            return bare(f"{held}Node")
        if kind.is_spanned:
            return f"(bare_spanned {bare(held)})"
        without = bracketed(bare(held))
        return f"(bare_attributed {without})" if is_apart(kind) else without

    def is_without(self, held):
        """The lemma of a type."""
        kind = self.table.by_name.get(held)
        if held in SIMPLE or (kind and kind.form == "words"):
            return "(λ x. refl)"
        if held == "Attribute*":
            return "attributes_spanless"
        if held[-1] in "?*":
            return self.of_several(held, "optional" if held.endswith("?") else "list")
        if held.startswith("("):
            first, second = separated(held[1:-1])
            return f"(λ p i. pair_of ({self.term(first, 'p.0')}) ({self.term(second, 'p.1')}))"
        if kind.is_spanned:
            return spanless(f"{held}Node")
        return f"(λ a. {spanless(held)} a.attributes a.node)" if is_apart(kind) else spanless(held)

    def of_several(self, held, what):
        """The lemma of a list or of an optional part."""
        inner = held[:-1]
        if not self.has_spans(inner):
            return f"({what}_alike {self.code(inner)} {self.is_without(inner)})"
        without = f"(map {self.bare(inner[:-1])})" if inner.endswith("*") else self.bare(inner)
        return f"({what}_spanless {self.code(inner)} {without} {self.is_without(inner)})"

    def term(self, held, place, own=False):
        """The code of a value at a point of the path from it without spans to its bare tree's."""
        kind = self.table.by_name.get(held)
        if own and held in OWN:
            text = f"{spanless(own_name(held))} {place} i"
            return f"list ({text})" if held.endswith("*") else text
        if held in SIMPLE or (kind and kind.form == "words"):
            return f"{self.code(held)} {place}"
        return applied(self.is_without(held), place, "i")


def node(values):
    """A node with these fields."""
    fields = "".join(f'(codes "{name}", {value}) ∷ ' for name, value in values)
    return f"node_of ({fields}[])"


def variant(name, value):
    """A variant at a point of the path, with what it holds there."""
    return f'λ i. variant (codes "{name}") ({value})'


def struct_node(spans, kind):
    """The node of a struct at a point of the path."""
    own = kind.name in CONSTRUCTED
    return node([(name, spans.term(held, place_of(kind, name), own)) for name, held in kind.parts])


def said(type_, kind=None):
    """What the lemma of a type says; its attributes may be apart."""
    inner, code = "x" if type_ in SPANLESS else f"({bare(type_)} x)", coded(type_)
    if not is_apart(kind) and type_ not in UNATTRIBUTED.values():
        return f"(x : plain.{type_}) → spanless ({code} x) ≡ {code} {inner}"
    front = "(attributes : Attributes)"
    if kind and len(kind.parts) == 1:
        return f"{front} → spanless ({code} attributes) ≡ {code} (bare_attributes attributes)"
    return (f"{front} (x : plain.{type_}) → spanless ({code} attributes x) "
            f"≡ {code} (bare_attributes attributes) {inner}")


def struct_items(spans, kind):
    """The lemma of a struct."""
    words = ["attributes"] * is_apart(kind)
    words += [pattern_of(kind)] * (not is_apart(kind) or len(kind.parts) > 1)
    proof = f"λ i. {struct_node(spans, kind)}"
    yield Item(spanless(kind.name), said(kind.name, kind), [(" ".join(words), proof)], True)


def variant_clause(spans, kind, name, held):
    """The clause of a variant."""
    made, inner = f"plain.{constructor(kind, name)}", spans.table.by_name.get(held)
    if kind.name == "Attribute" and held == "Expression":
        return f"(plain.with_argument {made} e)", variant(name, "expression_node_spanless e i")
    if held in INLINE:
        return pattern_of(inner), variant(name, struct_node(spans, inner))
    if kind.name not in UNATTRIBUTED:
        return f"({made} x)", variant(name, spans.term(held, "x"))
    if held == "CompoundStatement":
        block = node([("attributes", "attributes_spanless attributes i"),
                      ("statements", "list (statement_nodes_spanless ss i)")])
        return f"attributes ({made} ss)", variant(name, block)
    if len(inner.parts) == 1:
        return f"attributes {made}", variant(name, f"{spanless(held)} attributes i")
    return f"attributes ({made} x)", variant(name, f"{spanless(held)} attributes x i")


def enum_items(spans, kind):
    """The lemma of an enum, and of its variants after their attributes."""
    part, clauses = UNATTRIBUTED.get(kind.name), []
    for name, held in kind.parts:
        made = f"plain.{constructor(kind, name)}"
        if held:
            clauses.append(variant_clause(spans, kind, name, held))
        elif part:
            alone = node([("attributes", "attributes_spanless (a ∷ more) i")])
            clauses += [(f"[] {made}", "refl"), (f"(a ∷ more) {made}", variant(name, alone))]
        else:
            is_attribute = kind.name == "Attribute"
            clauses.append((f"(plain.without_argument {made})" if is_attribute else made, "refl"))
    yield Item(spanless(part or kind.name), said(part or kind.name), clauses, True)
    if part:
        clause = ("x", f"{spanless(part)} x.attributes x.node")
        if kind.name == "Statement":
            clause = ("(plain.statement attributes x)", f"{spanless(part)} attributes x")
        yield Item(spanless(kind.name), said(kind.name), [clause], True)


def spanned_items(spans, kind):
    """The lemma of a node with its span."""
    name, is_own = f"{kind.name}Node", kind.name in ("Expression", "Statement")
    pattern, place = (f"(plain.{snake(name)} n span)", "n") if is_own else ("s", "s.node")
    type_ = f"plain.{name}" if is_own else f"Spanned plain.{kind.name}"
    without = spans.bare(kind.name).strip("()")
    said = f"(x : {type_}) → spanless ({coded(name)} x) ≡ {coded(name)} ({without} x)"
    yield Item(spanless(name), said,
               [(pattern, f"λ i. placed no_span ({spanless(kind.name)} {place} i)")], True)


def own_items(spans, held):
    """The lemma of a list or an optional part that has a type of its own."""
    name, item, (type_, none, one) = own_name(held), held[:-1], OWN[held]
    form, left, right = "spanless", "x", f"λ i. {spans.term(item, 'x', True)}"
    if held.endswith("*"):
        inner = "argument_code (expression_node_spanless x i)"
        inner = inner if item == "TemplateArg" else spans.term(item, "x")
        form, left = "spanless_items", "x xs"
        right = f"λ i. code_before ({inner}) ({spanless(name)} xs i)"
    statement = f"(x : plain.{type_}) → {form} ({coded(name)} x) ≡ {coded(name)} ({bare(name)} x)"
    yield Item(spanless(name), statement,
               [(f"plain.{none}", "refl"), (f"(plain.{one} {left})", right)], True)


def attributes_item():
    """The lemma of a list of attributes."""
    lists = ("list_spanless attribute_node_code (bare_spanned bare_attribute) "
             "attribute_node_spanless x")
    return Item("attributes_spanless", "(x : Attributes) → spanless (attributes_code x) "
                "≡ attributes_code (bare_attributes x)", [("x", lists)], True)


def law(name, type_, code, without, read, is_without):
    """When the codes of two trees are the same."""
    a, b = (tree if without == "(λ t. t)" else applied(without, tree) for tree in "ab")
    tests = " ".join(f"({applied(code, tree)})" for tree in "ab")
    return Item(f"{snake(name)}_equal", f"(a b : {type_}) → (same {tests} ≡ true) ↔ ({a} ≡ {b})",
                [("", f"same_is {code} {reader(name)} {without} {read} {is_without}")], True)


def law_items(kind):
    """When the codes of two trees of a kind are the same."""
    name = kind.name
    without = "(λ t. t)" if name in SPANLESS else bracketed(bare(name))
    if not is_apart(kind):
        yield law(name, f"plain.{name}", coded(name), without, lemma(name), spanless(name))
    elif len(kind.parts) > 1:
        of_both = [f"(λ a. {it} a.attributes a.node)" for it in (lemma(name), spanless(name))]
        yield law(name, f"Attributed plain.{name}", f"(attributed_code {coded(name)})",
                  f"(bare_attributed {without})", *of_both)
    if name in ("Expression", "Statement"):
        it = f"{name}Node"
        yield law(it, f"plain.{it}", coded(it), bare(it), lemma(it), spanless(it))


def items(spans, names):
    """The lemmas of the kinds of a file, and what follows from them."""
    kinds = [spans.table.by_name[name] for name in names if name != "TemplateArg"]
    kinds = [kind for kind in kinds if kind.form != "words"]
    for kind in kinds:
        yield from (enum_items if kind.form == "enum" else struct_items)(spans, kind)
        if kind.is_spanned:
            yield from spanned_items(spans, kind)
        if kind.name == "Attribute":
            yield attributes_item()
    for held in own_types(spans.table, names):
        yield from own_items(spans, held)
    for kind in kinds:
        yield from law_items(kind)


def main():
    table = Table()
    places = homes(table)
    for name, what, module, names in files(table):
        made = list(items(Spans(table), names))
        places |= {it.name: f"{CODES}.proofs.Spanless{name}" for it in made}
        if made:
            head = (f"Written by tools/tables/tree_spans.py from {TABLE}: {what.lower()} without "
                    "their spans.")
            (PROOFS / f"Spanless{name}.antt").write_text(file_text(head, module, made, places))
