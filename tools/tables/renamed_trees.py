"""Writes the functions of wgsl_tree_renamed that copy a node with its names replaced, each from the
fields of its node, and what of their proofs follows from these.

It reads crates/wgsl_model/nodes, the views of the crates, and Renamed of wgsl_model_names, which
says what keeps its name. Expressions are renamed by hand; the proof of kinds that contain each
other is in renamed_cycle.py. By hand, each statement would be in one more file, in two if it
contains others.
"""
from pathlib import Path

import inputs
from cycle_parts import Cycle, Part
from names_defined import PLAIN, Defined, clauses_in, owners, uses
from node_table import TABLE, Table
from plain_trees import constructor, is_apart, short
from renamed_cycle import Answers, invariants_of, seen_by, whole
from tree_nodes import COPIED, ghost_uses, places

READS = (inputs.NODES, inputs.TREES, inputs.NAMES, inputs.SOURCES, inputs.VIEWS,
         "crates/wgsl_tree_renamed/*/*s.antt", "crates/wgsl_tree_statement/proofs/Views.antt")
WRITES = ("crates/wgsl_tree_renamed/src/*_nodes.rt",
          "crates/wgsl_tree_renamed/proofs/statement_nodes/+statements/*.antt",
          "crates/wgsl_tree_renamed/proofs/unit_nodes/*/renamed/Answers.antt")

CRATE = Path("crates/wgsl_tree_renamed")
HERE = "Rattle.wgsl_tree_renamed"
MODEL = "wgsl_model.specs.Trees"
WRITTEN = f"Written by tools/tables/renamed_trees.py from {TABLE}"
# what makes the plain tree of a variant of what it holds
MADE = {"Statement": "plain.as_statement", "GlobalDeclaration": "plain.as_declaration",
        "GlobalDirective": "as_directive"}
# what is renamed in the file of `rename`
APART = ["TranslationUnit", *COPIED]
# what the functions use that is by hand, and `renamed_compound`: its module, and how it is used
USED = {"AllocError": ["std::alloc"], "Global": ["std::alloc"],
        "CloneWith": ["wgsl_span", ".clone_with("], "Spanned": ["wgsl_span"],
        "NewNames": ["crate::new_names"], "Rename": ["crate::traits", ".renamed("],
        "renamed_attributes": ["crate::attribute"], "renamed_call": ["crate::expression"],
        "renamed_compound": ["crate::statement_nodes"], "renamed_ident": ["crate::ident"],
        "renamed_spanned": ["crate::traits"]}


class Renames:
    """Writes the functions of the nodes of a crate."""

    def __init__(self, table, crate, at, cycle):
        self.table, self.crate, self.at, self.cycle = table, crate, at, cycle
        self.defined = Defined("Renamed")
        self.kinds = [kind for kind in table.kinds
                      if at[kind.name].crate == crate and kind.name not in APART]

    def is_plain(self, held):
        """Whether a value is copied as it is."""
        kind = self.table.by_name.get(held.removesuffix("?"))
        return held in COPIED or kind is not None and kind.form == "words"

    def definition(self, kind):
        """What the definitions say of a struct, but for its attributes."""
        name = self.defined.of_type(kind.name)
        found = [self.defined.clauses[name][0]] if name else [
            self.defined.clause("renamed_attribute", short(kind.name)),
            *(self.defined.clause(function, made) for _, made in owners(self.table, kind)
              for function in ("renamed_simple", "renamed_unattributed"))]
        return " ".join(next(filter(None, found))[1])

    def copy(self, kind, name, held, node):
        """What copies a field of a struct."""
        place = f"{node}.{name}"
        if held == "Ident":
            return (f"renamed_ident(&{place}, names, alloc)?"
                    if f" {name} = f " in self.definition(kind) else f"{place}.clone_with(alloc)?")
        if self.is_plain(held):
            return place
        if held == "Attribute*":
            return f"renamed_attributes(&{place}, names, alloc)?"
        if held == "FunctionCall":
            return f"renamed_call(&{place}, names, alloc)?"
        if self.cycle.has(Part("", held)):
            return f"renamed_{self.cycle.stem(held)}(&{place}, names, alloc)?"
        return f"{place}.renamed(names, alloc)?"

    def has_texts(self, kind):
        """Whether a struct has texts: these keep their names, so that it is copied whole."""
        return any(held.rstrip("*") == "String" for _, held in kind.parts)

    def struct(self, kind, node):
        """What copies a struct."""
        if self.has_texts(kind):
            attributes = self.copy(kind, "attributes", "Attribute*", node)
            return (f"let mut copy = {node}.clone_with(alloc)?; copy.attributes = {attributes}; "
                    "Ok(copy)")
        parts = [f"{name}: {self.copy(kind, name, held, node)}," for name, held in kind.parts]
        return f"Ok({kind.name} {{ {' '.join(parts)} }})"

    def enum(self, kind, node):
        """What copies an enum by its variant."""
        arms, kept = [], []
        for name, held in kind.parts:
            made = f"{kind.name}::{name}"
            call = self.call(kind, name, held)
            if call:
                arms.append(f"{made}(inner) => Ok({made}({call})),")
            elif held or kind.name == "Attribute":
                kept.append(f"{made}{'(_)' if held else ''}")
            else:
                arms.append(f"{made} => Ok({made}),")
        arms += [f"{' | '.join(kept)} => {node}.clone(alloc),"] * bool(kept)
        return f"match {node} {{ {' '.join(arms)} }}"

    def call(self, kind, name, held):
        """What copies what a variant holds, if there are names in it."""
        if kind.name == "Attribute" and held:
            return self.attribute_call(kind, name, held)
        if self.cycle.has(Part("", held)):
            return f"renamed_{self.cycle.stem(held)}(inner, names, alloc)?"
        return held and "inner.renamed(names, alloc)?"

    def attribute_call(self, kind, name, held):
        """What copies the arguments of an attribute, if there are names of declarations in them."""
        made = constructor(kind, name)
        if held == "Expression":
            right = self.defined.argument("renamed_attribute", made)
            return "renamed_node" in right and "inner.renamed(names, alloc)?"
        found = self.defined.clause("renamed_attribute", short(held))
        return found and f"renamed_{short(held)}(inner, names, alloc)?"

    def owner(self, kind):
        """The one enum of which a struct is a variant, with its constructor: what such an enum
        becomes says what the struct becomes."""
        found = list(owners(self.table, kind))
        return found[0] if len(found) == 1 else None

    def ghosts(self, kind):
        """The plain trees of a kind, its view, and what they become."""
        view = self.cycle.views[kind.name].name
        owner = is_apart(kind) and self.owner(kind)
        if owner:
            name, made = owner
            seen = (view if self.cycle.views[kind.name].plain == name
                    else f"λ n. {MADE[name]} plain.{made} ({view} n)")
            changed = self.defined.of_type(name) or "λ f. plain.changed_statement (renaming f)"
            return f"plain.{name}", seen, changed
        changed = self.defined.of_type(kind.name)
        if is_apart(kind):
            return (f"Attributed plain.{kind.name}", view,
                    f"λ f. renamed_attributed f ({changed} f)")
        return f"plain.{kind.name}", view, changed

    def implemented(self, name, ghosts, body):
        """What renames the values of a type."""
        lines = [f"    ghost {what} = {{ {it} }};\n\n"
                 for what, it in zip(("Plain", "view", "changed"), ghosts)]
        return (f"impl Rename for {name} {{\n{''.join(lines)}"
                "    fn renamed(&self, names: &NewNames, alloc: Global) -> Result<Self, AllocError>"
                f" {{\n{body}\n}}\n}}\n")

    def functions(self, kind):
        """The functions that copy a node."""
        if self.cycle.has(Part("", kind.name)):
            yield self.in_cycle(kind)
            return
        if self.crate == "attribute" and kind.form == "struct":
            if self.defined.clause("renamed_attribute", short(kind.name)):
                yield self.arguments(kind)
            return
        body = (self.enum if kind.form == "enum" else self.struct)(kind, "self")
        plain, view, changed = self.ghosts(kind)
        yield self.implemented(kind.name, (plain, view, changed), body)
        if kind.is_spanned:
            ghosts = (f"Spanned {plain}", f"spanned_view {view}",
                      f"λ f. renamed_spanned ({changed} f)")
            body = "renamed_spanned(self, names, alloc)"
            yield self.implemented(f"{kind.name}Node", ghosts, body)

    def function(self, name, types, clause, body, mark="", value="node"):
        """A function that copies a value."""
        given, made = types
        return (f"{mark}fn renamed_{name}({value}: &{given}, names: &NewNames, alloc: Global)"
                f" -> Result<{made}, AllocError>\n"
                f"    ensures {{ IfOk result (λ copy.\n        {clause}) }}\n{{ {body} }}\n")

    def arguments(self, kind):
        """The function that copies the arguments of an attribute."""
        seen = f"plain.{short(kind.name)} ({self.cycle.views[kind.name].name}"
        clause = (f"{seen} copy)\n        ≡ renamed_attribute (renaming_by names.now)\n"
                  f"        ({seen} node.now))")
        return self.function(short(kind.name), (kind.name, kind.name), clause,
                             self.struct(kind, "node"))

    def in_cycle(self, kind):
        """The function that copies a node of the kinds that contain each other."""
        seen, changed = whole(self.cycle, kind), f"plain.changed_{self.cycle.stem(kind.name)}"
        if is_apart(kind):
            changed = "plain.changed_statement"
        clause = (f"{seen('copy')}\n        ≡ {changed} (change_by names.now)\n"
                  f"        ({seen('node.now')})")
        body = (self.enum if kind.form == "enum" else self.struct)(kind, "node")
        mark = "#[cycle(statements)]\n"
        mark += "pub(crate) " * (kind.name == "CompoundStatement")
        return self.function(self.cycle.stem(kind.name), (kind.name, kind.name), clause, body, mark)

    def own_function(self, part):
        """The function that copies a list or a part that may be left out."""
        item = self.cycle.node(part)
        first, copy = "", f"renamed_{self.cycle.stem(part.item)}(node, names, alloc)?"
        if self.cycle.is_spanned(part):
            first = f"let copy = {copy.replace('(node,', '(node.node(),')};"
            copy = "Spanned::new(alloc, copy, node.span())?"
        given, made = f"Option<{item}>", f"Option<{item}>"
        body = f"match part {{ None => Ok(None), Some(node) => {{ {first} Ok(Some({copy})) }} }}"
        if part.is_list:
            given, made = f"[{item}]", f"Vec<{item}>"
            body = ("let mut copies = Vec::with_capacity(alloc, part.len())?; 'nodes: for node in "
                    f"part {{ {first} copies.push({copy})?; }} Ok(copies)")
        seen, change = seen_by(self.cycle, part)
        mapped = "map" if part.is_list else "option_map"
        clause = (f"{seen('copy.items' if part.is_list else 'copy')}\n"
                  f"        ≡ {mapped} (plain.{change} (change_by names.now))\n"
                  f"        ({seen('part.now')})")
        return self.function(self.cycle.stem(part.held), (given, made), clause, body,
                             "#[cycle(statements)]\n", "part")

    def heads(self, code):
        """The definitions that the clauses name."""
        text, words = clauses_in(code)
        yield from ghost_uses("std.specs.Option", ["option_map"] * ("option_map" in words))
        prelude = ["◌≡◌"] * ("≡" in text) + [it for it in ("IfOk", "map") if it in words]
        yield from ghost_uses("std.specs.Prelude", prelude)
        yield from ghost_uses(f"{MODEL}.Attributed", ["Attributed"] * ("Attributed" in words))
        if "= { Spanned " in text:
            yield f"ghost use Rattle.{MODEL}.Spanned as plain_spanned;"
        yield f"ghost use Rattle.{MODEL}.{PLAIN[self.crate]} as plain;"
        names = [it for it in self.defined.types if it in words]
        yield from ghost_uses("wgsl_model_names.specs.Renamed", sorted(names))
        yield from ghost_uses("wgsl_span.specs.View", ["spanned_view"] * ("spanned_view" in words))
        views = {it for it in words if it.endswith("_view")} - {"spanned_view"}
        views |= {"as_directive"} & words
        yield from ghost_uses(f"wgsl_tree_{self.crate}.specs.View", sorted(views))
        found = sorted({"renaming_by", "change_by"} & words)
        yield from ghost_uses("wgsl_tree_renamed.specs.NewNames", found)

    def code(self):
        """The file of the functions."""
        texts = [it for kind in self.kinds for it in self.functions(kind)]
        if self.crate == "statement":
            texts += map(self.own_function, self.cycle.own_parts)
        text = "\n".join(texts)
        heads = list(self.heads(text))
        text = text.replace("= { Spanned ", "= { plain_spanned.Spanned ")
        return "\n".join([f"//! {WRITTEN}: copies with new names.", "", *heads, "",
                          *uses(text, self.crate, self.at, USED), "", text])

    def answers(self, kind):
        """The proof for a struct that is copied but for its attributes."""
        _, made = self.owner(kind)
        goal = f"{HERE}.proofs.{self.crate}_nodes.{kind.name}Rename.renamed.Goals"
        return "\n".join([
            f"-- {WRITTEN}.", "use Rattle.std.proofs.Common.{ap}",
            f"use Rattle.{MODEL}.Attributed.{{Attributed, with_attributes}}",
            f"use Rattle.{MODEL}.{PLAIN[self.crate]} as plain", f"use {goal} as goal", "",
            "pub returns : goal.returns", "returns c =",
            f"    let node = ap (λ (d : Attributed plain.{kind.name}). d.node) "
            "c.in_ok-copy.ensures.copy in",
            f"    λ i. with_attributes (c.in_ok-copy-2.ensures i) (plain.{made} (node i))", ""])


def write(path, text):
    """Writes a file, and its folder if need be."""
    path.parent.mkdir(parents=True, exist_ok=True)
    path.write_text(text)


def main():
    table, at = Table(), places()
    cycle = Cycle(table, at)
    for crate in PLAIN:
        renames = Renames(table, crate, at, cycle)
        write(CRATE / f"src/{crate}_nodes.rt", renames.code())
        for kind in renames.kinds:
            if renames.has_texts(kind) and renames.owner(kind):
                path = f"proofs/{crate}_nodes/{kind.name}Rename/renamed/Answers.antt"
                write(CRATE / path, renames.answers(kind))
    folder = CRATE / "proofs/statement_nodes/+statements"
    write(folder / "Answers.antt", Answers(cycle).text())
    write(folder / "Invariants.antt", invariants_of(cycle))
