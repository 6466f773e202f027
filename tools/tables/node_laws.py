"""Writes the laws of wgsl_laws with a clause for each node: where two trees are equal, and what the
attributes of a node are in its plain tree.

It finds by their types the definitions of a node and the lemmas that say of it what a law says of
all. By hand, each statement would be in three more files.
"""
import re
import textwrap
from dataclasses import dataclass
from pathlib import Path

import inputs
from node_lists import Nodes
from node_specs import CRATES, Specs, cycle, head_of, imports
from node_table import TABLE, Table, snake

READS = (inputs.NODES, inputs.MODEL, inputs.SOURCES, "crates/wgsl_tree_*/specs/*.antt",
         "crates/wgsl_tree_*/proofs/*.antt", "crates/wgsl_tree_node/src/bare.rt")
WRITES = ("crates/wgsl_laws/src/*_nodes.rt", "crates/wgsl_laws/proofs/LawNodes.antt")

CRATE = Path("crates/wgsl_laws")
WRITTEN = f"Written by tools/tables/node_laws.py from {TABLE}"
PRELUDE = "Rattle.std.specs.Prelude"
MODEL = "Rattle.wgsl_model.specs"
RULES = "LawNodes"

# Each law: its module, its name, the kinds of which it has a clause, and what is said of it. `=` is
# that the test is an equivalence. A name in small letters is that of several kinds. `by` names what
# proves a law, if not a lemma for each of its kinds.
LAWS = """
equality::equivalence = -- The test is an equivalence.
equality::literals LiteralExpression -- Two literals are equal exactly if they are the same.
equality::expressions Expression
    -- Two expressions are equal exactly if they are the same ignoring spans.
equality::nodes ExpressionNode
    -- Two expressions with their places are equal exactly if they are the same ignoring spans.
equality::calls FunctionCall
    -- Two calls are equal exactly if they are the same ignoring spans.
equality::types TypeExpression
    -- Two types are equal exactly if they are the same ignoring spans.
equality::declarations DeclarationKind Declaration
    -- Two declarations are equal exactly if they are the same ignoring spans; two of their kinds,
    which have no spans, exactly if they are the same.
equality::simple_statements plain_simple
    -- Two statements that hold no others are equal exactly if they are the same ignoring spans.
equality::statements blocks
    -- Two statements are equal exactly if they are the same ignoring spans; so are two blocks.
equality::branches branches
    -- Two statements that branch are equal exactly if they are the same ignoring spans; so are
    two of their clauses.
equality::loops loops -- Two loops are equal exactly if they are the same ignoring spans.
equality::directives directives
    -- Two directives are equal exactly if they are the same ignoring the spans in their attributes.
equality::global_declarations declarations
    -- Two declarations of modules are equal exactly if they are the same ignoring spans.
equality::units TranslationUnit
    -- Two modules are equal exactly if they are the same ignoring spans.
simple_equality::declarations DeclarationKind Declaration
    -- Two declarations are equal exactly if they are the same ignoring spans; two kinds exactly if
    they are the same.
simple_equality::simple_statements simple
    by wgsl_tree_simple::proofs::Equalities::statements_agree
    -- Two statements are equal exactly if they are the same ignoring spans.
attribute_equality::equivalence =Attribute -- `==` of attributes is an equivalence.
attribute_equality::attributes Attribute
    -- Two attributes are equal exactly if they are the same ignoring spans.
unit_equality::equivalence =TranslationUnit -- `==` of modules is an equivalence.
unit_equality::units TranslationUnit
    -- Two modules are equal exactly if they are the same ignoring spans.
unit_equality::directives directives
    -- Two directives are equal exactly if they are the same ignoring the spans of their attributes.
unit_equality::global_declarations declarations
    -- Two declarations are equal exactly if they are the same ignoring spans; so are their parts.
attributes::statement_attributes listed by crate::proofs::Hints::attributes
    -- The attributes that each statement returns are those of its plain tree.
"""
LAW = re.compile(r"(\w+)::(\w+) (.*?)(?: by (\S+))? -- (.*)")
# what the laws of a module say
MODULES = {
    "equality": "where two plain trees are equal",
    "simple_equality": "`==` of declarations of values and of statements that hold no others",
    "attribute_equality": "`==` of attributes and of the structs that they hold",
    "unit_equality": "`==` of modules, of their directives and of their declarations",
    "attributes": "attributes of statements, of clauses and of declarations of values",
}
# the names of clauses that are not those of their nodes: of their equality, and of their attributes
LABELS = dict(it.split(":") for it in """
    AssignmentStatement:assignment IncrementStatement:increment DecrementStatement:decrement
    BreakStatement:breaking ContinueStatement:continuing DiscardStatement:discarding
    ReturnStatement:returning FunctionCallStatement:calling ConstAssert:assert
    BreakIfStatement:break_if CaseSelector:selector DeclarationKind:kind StatementNode:node
    CompoundStatement:block ContinuingStatement:continuing GlobalDirective:directive
    DiagnosticDirective:diagnostic EnableDirective:enable RequiresDirective:require
    GlobalDeclaration:declaration TypeAlias:alias Struct:structure StructMember:member
    FormalParameter:parameter""".split())
LIST_LABELS = {f"{camel}Statement": label for camel, label in [
    ("Assignment", "assignment"), ("Increment", "increment"), ("Decrement", "decrement"),
    ("BreakIf", "break_if"), ("FunctionCall", "function_call")]}


@dataclass(frozen=True)
class Law:
    """A law: its module and name, what is said of it, its kinds, and what proves it."""

    module: str
    name: str
    kinds: tuple
    by: str
    doc: str


def groups(nodes, plain):
    """The names of several kinds."""
    simple = [it.name for it in nodes.table.kinds
              if it.form != "words" and nodes.homes[it.name][0] == "simple"]
    found = {
        "blocks": ["Statement", "StatementNode", "CompoundStatement"],
        "branches": ["IfStatement", "IfClause", "ElseIfClause", "ElseClause", "SwitchStatement",
                     "SwitchClause"],
        "simple": [it for it in simple if not it.startswith("Declaration")],
        "directives": [it.name for it in nodes.of("unit") if it.name.endswith("Directive")],
        "declarations": [it.name for it in nodes.of("unit") if not it.name.endswith("Directive")],
        "listed": [it.name for crate in ("simple", "statement") for it in nodes.of(crate)],
    }
    found["plain_simple"] = [it for it in found["simple"] if it in plain]
    found["loops"] = [it for it in cycle(nodes.table, "Statement")
                      if it not in found["blocks"] + found["branches"]]
    return found


def laws(nodes, specs):
    """The laws of the table, and one for each struct that an attribute holds."""
    several = groups(nodes, specs.plain_types)
    for module, name, kinds, by, doc in LAW.findall(re.sub(r"\n +", " ", LAWS)):
        names = tuple(it for kind in kinds.split() for it in several.get(kind, [kind]))
        yield Law(module, name, names, by, doc)
    for kind in nodes.table.of_form("struct"):
        if nodes.homes[kind.name][0] == "attribute":
            name = specs.equal(kind.name).removeprefix("equal_")
            doc = (f"Two values of `{kind.name}` are equal exactly if they are the same ignoring "
                   "spans.")
            yield Law("attribute_equality", name, (kind.name,), "", doc)


def plain_clause(specs, name):
    """Where two plain trees are equal."""
    type_, code, bare = specs.plain(name), specs.code(name), specs.bare(name)
    if specs.is_led(name):
        type_ = f"{specs.use(f'{MODEL}.Trees.Attributed', 'Attributed')} {type_}"
        bare = specs.bare(f"Attributed {name}")
    a, b = (f"{bare} {it}" if bare else it for it in "ab")
    return f"(a b : {type_}) → IsTrue ({specs.test()} ({code} a) ({code} b)) ↔ ({a} ≡ {b})"


def node_clause(specs, name):
    """Where two nodes are equal."""
    view, held = specs.view(name)
    bare, type_ = specs.bare(held), specs.node(name)
    a, b = (f"{bare} ({view} {it})" if bare else f"{view} {it}" for it in "ab")
    return f"(a b : {type_}) → IsTrue ({specs.equal(name)} a b) ↔ ({a} ≡ {b})"


def list_clause(specs, name):
    """What the attributes of a node are in its plain tree."""
    view, held = specs.view(name)
    field, type_ = specs.attributes(held), specs.node(name)
    there = f"{field} ({view} s)" if field else f"({view} s).attributes"
    own = f"{specs.attributes_view()} (⟦<{type_} as SyntaxNode>⟧.attributes_of s)"
    return f"(s : {type_}) → {there} ≡ {own}"


def clause(specs, law, name):
    """The clause of a kind in a law, or that a test is an equivalence."""
    if name.startswith("="):
        test = specs.equal(name[1:]) if name[1:] else specs.test()
        return f"{specs.use('Rattle.std.specs.Cmp', 'IsEquivalence')} {test}"
    of_module = {"equality": plain_clause, "attributes": list_clause}
    return of_module.get(law.module, node_clause)(specs, name)


def label(law, name):
    """The name of a clause, where there are several."""
    if len(law.kinds) == 1:
        return ""
    labels = LIST_LABELS if law.module == "attributes" else LABELS
    return f"{labels.get(name, snake(name))} "


def lemma(specs, law, name):
    """The path of what proves a clause."""
    if name.startswith("="):
        return specs.lemma(clause(specs, law, name), "")
    if law.module == "equality":
        type_ = f"Attributed {name}" if specs.is_led(name) else name
        return specs.lemma(f"(a b : {type_}) → (same (", "_equal")
    return specs.lemma(f"(a b : {name}) → (equal_", "_agree")


def path(name):
    """The path of a lemma in an attribute."""
    return name.removeprefix("Rattle.").replace(".", "::")


def ruleset(law):
    return f"{law.module}_{law.name}"


def filled(text):
    """A clause, in several lines if it is too long for one."""
    parts = re.split(r"(?<=→) |(?<=↔) | (?=≡ )", text)
    held = " ".join(part.replace(" ", "\0") for part in parts)
    return textwrap.fill(held, 100, initial_indent=4 * " ", subsequent_indent=8 * " ",
                         break_long_words=False, break_on_hyphens=False).replace("\0", " ")


def function(specs, law):
    """A law."""
    by = law.by or f"crate::proofs::{RULES}::{ruleset(law)}"
    if len(law.kinds) == 1:
        by = path(lemma(specs, law, law.kinds[0]))
    doc = textwrap.indent(textwrap.fill(law.doc, 96), "/// ")
    clauses = [filled(f"ensures {label(law, it)}{{ {clause(specs, law, it)} }}")
               for it in law.kinds]
    head = [doc, f"#[tactic(auto, using({by}))]", f"pub fn {law.name}()"]
    return "\n".join([*head, *clauses, "{}", ""])


def module(specs, name, made):
    """The text of a module of laws."""
    specs.used = set()
    text = "\n".join(function(specs, law) for law in made)
    specs.used |= {(PRELUDE, it) for it in ("◌≡◌", "◌↔◌", "IsTrue") if it.strip("◌") in text}
    uses = set()
    if name == "attributes":
        uses = {(CRATES[specs.homes[it][0]], it) for law in made for it in law.kinds}
        uses.add(("wgsl_tree_node", "SyntaxNode"))
    head = textwrap.indent(textwrap.fill(f"{WRITTEN}: {MODULES[name]}.", 96), "//! ")
    return "\n".join([head, "", head_of(specs.used, uses), "", text])


def rulesets(specs, made):
    """The lemmas of each law that has more than one."""
    several = [law for law in made if len(law.kinds) > 1 and not law.by]
    lemmas = {law: [lemma(specs, law, it) for it in law.kinds] for law in several}
    uses = imports({tuple(it.rsplit(".", 1)) for those in lemmas.values() for it in those})
    lines = [f"-- {WRITTEN}: lemmas of laws of several clauses.", *(f"use {it}" for it in uses)]
    for law in several:
        names = ", ".join(it.rsplit(".", 1)[1] for it in lemmas[law])
        lines += ["", textwrap.fill(f"pub ruleset {ruleset(law)} = ({names})", 100,
                                    subsequent_indent=4 * " ")]
    return "\n".join([*lines, ""])


def main():
    nodes = Nodes(Table())
    specs = Specs(nodes.homes)
    made = list(laws(nodes, specs))
    for name in MODULES:
        text = module(specs, name, [law for law in made if law.module == name])
        (CRATE / f"src/{name}_nodes.rt").write_text(text)
    (CRATE / f"proofs/{RULES}.antt").write_text(rulesets(specs, made))
