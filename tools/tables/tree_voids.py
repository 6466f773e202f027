"""Writes the functions that remove the empty statements from every list of statements, each from
the fields and variants of its node, and their proofs.

By hand, each statement that holds others would be in two more files.
"""
import re
from pathlib import Path

import goals
import inputs
from cycle_parts import COMMON, CRATE, DECLARED, LAYERS, LIBRARY, STATEMENTS, Cycle
from goals import c, proof
from node_table import TABLE, Table, snake
from plain_trees import OWN, constructor, is_apart
from tree_nodes import Plain, ghost_uses, places
from tree_terms import bracketed

READS = (inputs.NODES, inputs.TREES, inputs.SOURCES, inputs.VIEWS,
         "crates/wgsl_tree_statement/proofs/BlockStatements.antt",
         "crates/wgsl_tree_statement/proofs/EmptyStatements.antt",
         "crates/wgsl_tree_statement/proofs/Views.antt")
WRITES = ("crates/wgsl_tree_statement/src/voids_nodes.rt",
          "crates/wgsl_tree_statement/proofs/+remove/*.antt")

FOLDER = Path("crates/wgsl_tree_statement")
GOALS = f"{CRATE}.proofs.+remove"
WRITTEN = f"Written by tools/tables/tree_voids.py from {TABLE}"
# what is known of the call that a function has for an item
CALL = c.of("remove_voids")
# the kinds from which others remove empty statements
PUBLIC = ["Statement", "CompoundStatement"]
EMPTY = "Rattle.wgsl_model.specs.Trees.EmptyItems"


class Full:
    """The functions of plain trees that leave the empty items out."""

    def __init__(self, cycle):
        self.cycle = cycle
        self.text = Plain("Trees.EmptyItems").text

    def of_type(self, plain):
        """That of a type."""
        full = re.search(rf"pub (full_\w+) : {plain} → {plain}$", self.text, re.M)
        if full:
            return full[1]
        stated = rf"pub (changed_\w+) : Change → {plain} → {plain}$"
        change = re.search(stated, self.cycle.trees, re.M)
        return f"{change[1]} without_empty"

    def of(self, held):
        """That of a type of the table."""
        if held in OWN:
            return self.of_type(OWN[held][0])
        full = self.of_type(held)
        apart = is_apart(self.cycle.table.by_name[held])
        return f"full_attributed {bracketed(full)}" if apart else full


class Code:
    """Writes the functions."""

    def __init__(self, cycle, full):
        self.cycle, self.full = cycle, full

    def call(self, part):
        """What removes the empty statements from a part of a struct, if it has some."""
        if self.cycle.is_own(part):
            return f"remove_from_{self.cycle.stem(part.held)}(&mut self.{part.name});"
        return f"self.{part.name}.remove_voids();" if self.cycle.has(part) else ""

    def method(self, kind):
        """The function of a kind."""
        view, full = self.cycle.views[kind.name].name, self.full.of(kind.name)
        body = " ".join(map(self.call, self.cycle.parts(kind)))
        mark = "pub" if kind.name in PUBLIC else "pub(crate)"
        doc = "    /// Removes the empty statements from every list of statements in it.\n"
        doc = doc if kind.name in PUBLIC else ""
        if kind.form == "enum":
            held = [part for part in self.cycle.parts(kind) if self.cycle.has(part)]
            others = [part for part in self.cycle.parts(kind) if part not in held]
            arms = [f"{kind.name}::{part.name}(inner) => inner.remove_voids()," for part in held]
            left = " | ".join(f"{kind.name}::{part.name}{'(_)' if part.held else ''}"
                              for part in others)
            body = f"match self {{ {' '.join(arms)} {left} => {{}} }}"
        return (f"impl {kind.name} {{\n{doc}    #[cycle(remove)]\n"
                f"    {mark} fn remove_voids(&mut self)\n"
                f"        ensures {{ {view} self.new\n            ≡ {full} ({view} self.old) }}\n"
                f"    {{ {body} }}\n}}\n")

    def function(self, part):
        """The function of a list or of a part that may be left out."""
        is_spanned, item = self.cycle.is_spanned(part), self.cycle.node(part)
        node = ".node_mut()" * is_spanned
        type_ = f"&mut {'Vec' if part.is_list else 'Option'}<{item}>"
        body = f"if let Some(node) = part {{ node{node}.remove_voids(); }}"
        if part.is_list:
            body = f"'items: for i in 0..part.len() {{ part[i]{node}.remove_voids(); }}"
            body += " part.retain(|node| !node.node().is_void());" if is_spanned else ""
        items = ".items" if part.is_list else ""
        seen = [self.cycle.shown(part.held, f"part.{it}{items}") for it in ("new", "old")]
        return (f"#[cycle(remove)]\nfn remove_from_{self.cycle.stem(part.held)}(part: {type_})\n"
                f"    ensures {{ {seen[0]}\n        ≡ {self.full.of(part.held)} ({seen[1]}) }}\n"
                f"{{ {body} }}\n")

    def text(self):
        """The file of the functions."""
        cycle = self.cycle
        body = "\n".join([*map(self.method, [cycle.root, *cycle.structs]),
                          *map(self.function, cycle.own_parts)])
        words = set(re.findall(r"\w+", body))
        trees = [it for it in words if it.startswith("changed_") or it.endswith("_of")
                 or it.startswith("maybe_")]
        full = [it for it in words if it.startswith("full_") or it == "without_empty"]
        seen = [it for it in words if it.endswith("_view")]
        return "\n".join([
            f"//! {WRITTEN}: statements without the", "//! empty ones in their lists.", "",
            "ghost use Rattle.std.specs.Option.{option_map};",
            "ghost use Rattle.std.specs.Prelude.{◌≡◌, map};",
            *ghost_uses("wgsl_model.specs.Trees.EmptyItems", sorted(full)),
            *ghost_uses("wgsl_model.specs.Trees.Statements", sorted(trees)),
            *ghost_uses("wgsl_tree_statement.specs.View", sorted(seen)), "",
            *cycle.uses(words), "", body])


class Answers:
    """Writes the proofs."""

    def __init__(self, cycle, full):
        self.cycle, self.full = cycle, full

    def method(self, kind):
        """The path of the function of a kind, which is by the module of that."""
        return f"{self.cycle.at[kind.name].module}::{kind.name}::remove_voids"

    def calls(self, kind):
        """The parts of a struct that are changed, each with its call and its value after it."""
        parts = [it for it in self.cycle.parts(kind) if self.cycle.has(it)]
        calls = goals.in_order(f"remove_from_{self.cycle.stem(it.held)}" if self.cycle.is_own(it)
                               else "remove_voids" for it in parts)
        for part, call in zip(parts, map(c.of, calls)):
            yield part, call, call.new("part" if self.cycle.is_own(part) else "self")

    def changes(self, kind):
        """What is shown of the parts that are changed one after another: the layer after each, and
        that it is the one before but for its part."""
        layer, reread = f"(r : Opened layer.{kind.name}-F)", f"layers.out-roll-{kind.name}"
        state, same = "original", ""
        for at, (part, call, new) in enumerate(self.calls(kind), 1):
            items = ".items" if part.is_list and self.cycle.is_own(part) else ""
            full = bracketed(self.full.of(part.held))
            seen = f"{full} ({self.cycle.shown(part.held, f'r.{part.name}{items}')})"
            more = f" ∙ ap (λ {layer}. {seen}) same_{at - 1}" if same else ""
            yield f"let {part.name} = {call.ensures()}{more} in"
            change = f"{{ {part.name} = {new} }}"
            again = f"layers.out-{kind.name} (layers.roll-{kind.name}"
            before = f"({again} {state}))" if same else state
            yield f"let changed_{at} = record {before} {change} in"
            clean = f"record clean_{at - 1} {change}" if same else f"changed_{at}"
            yield f"let clean_{at} : Opened layer.{kind.name}-F = {clean} in"
            after = f" ∙ ap (λ {layer}. record r {change}) same_{at - 1}" if same else ""
            same = f"{reread} changed_{at}{after}"
            yield f"let same_{at} : {again} changed_{at}) ≡ clean_{at} = {same} in"
            state = f"changed_{at}"

    def struct(self, kind):
        """That a struct is without its empty statements where its parts are."""
        parts, name = self.cycle.parts(kind), snake(kind.name)
        calls = list(self.calls(kind))
        lines = list(self.changes(kind)) if len(calls) > 1 else [
            f"let {part.name} = {call.ensures()} in" for part, call, _ in calls]
        values = {part.name: f"{part.name} i" if self.cycle.has(part)
                  else self.cycle.shown(part.held, f"original.{part.name}") for part in parts}
        roll = self.cycle.rolled(kind)
        view = self.cycle.views[kind.name].name
        if len(calls) > 1:
            del lines[-3:]
            roll = (f"ap (λ (r : Opened layer.{kind.name}-F). {view} (layers.roll-{kind.name} r)) "
                    f"(ap (λ (r : Opened layer.{kind.name}-F). record r "
                    f"{{ {calls[-1][0].name} = {calls[-1][2]} }}) same_{len(calls) - 1}) ∙ {roll}")
        lets = "".join(f"    {line}\n" for line in [
            f"let original = layers.out-{kind.name} {c.given('self')} in", *lines])
        full = bracketed(self.full.of(kind.name))
        return proof(goals.returns(self.method(kind)), f"\n{lets}    {roll} ∙ "
                     f"(λ i. {self.cycle.made(kind, values)}) ∙ "
                     f"sym (ap {full} ({name}_out {c.given('self')}))")

    def variants(self):
        """That a variant of a statement is without its empty statements where what it holds is."""
        root = self.cycle.root
        held = [part for part in self.cycle.parts(root) if self.cycle.has(part)]
        for at, part in enumerate(held):
            kind, view = self.cycle.table.by_name[part.held], self.cycle.view(part.held)
            full, is_ = self.full.of(part.held), f"is_{snake(part.name)}"
            arm = c.arm(part.name)
            call = c.of(goals.at("remove_voids", goals.arm(part.name)) if at else "remove_voids")
            made = (f"(plain.as_statement plain.{constructor(root, part.name)})" if is_apart(kind)
                    else "plain.block_statement")
            block = ("" if is_apart(kind)
                     else f" ∙ sym (block_full ({view} {arm.of('inner')}))")
            yield proof(
                goals.returns(self.method(root), goals.arm(part.name)),
                f"\n    let seen = {call.ensures()} ∙ ap (λ (b : {part.held}). {full} ({view} b)) "
                f"{arm.of('inner-is')} in\n"
                f"    let whole = {is_} {call.new('self')} ∙ ap {made} seen{block} ∙ "
                f"sym (ap full_statement ({is_} {arm.of('inner')})) in\n"
                f"    rw {arm.of('is')} (search (rules, whole))",
                front=f"unfolding roll-{root.name} Carrier.roll\n")

    def function(self, part):
        """That a list, or a part that may be left out, is without its empty statements."""
        cycle, stem = self.cycle, self.cycle.stem(part.held)
        view, full = cycle.view(part.item), self.full.of(part.held)
        name = f"voids_nodes::remove_from_{stem}"
        if part.is_list:
            yield from self.listed(part, name, view)
            return
        whole = f"λ (o : {cycle.type(part.held)}). {cycle.shown(part.held, 'o')}"
        done = f"λ (o : {cycle.type(part.held)}). {full} ({cycle.shown(part.held, 'o')})"
        one = f"plain.{OWN[part.held][2]}"
        some, none = c.arm("Some"), c.of(goals.DEFAULT).of("is")
        lets, seen = "", CALL.ensures()
        if cycle.is_spanned(part):
            lets = (f"    let x = {some.of('node')} in\n"
                    "    let y = record x { node = record x.node "
                    f"{{ value = {CALL.new('self')} }} }} in\n"
                    f"    let full : {view} y ≡ full_node ({view} x) = search rules in\n")
            seen = "full"
        yield proof(goals.returns(name, goals.arm("Some")), f"\n{lets}    ap {one} {seen} ∙ "
                    f"sym (ap ({done}) {some.of('is')})")
        yield proof(goals.returns(name, goals.DEFAULT),
                    f" ap ({whole}) {none} ∙ sym (ap ({done}) {none})")

    def listed(self, part, name, view):
        """That a list is without its empty statements: one item more, and all."""
        is_spanned, item = self.cycle.is_spanned(part), self.item(part)
        index, items = c.of("index_mut"), c.of("items")
        given, x, y = f"{c.given('part')}.items", index.of("result.now"), CALL.new("self")
        done, before = items.of("part.items"), items.of("invariant")
        lets, seen = "", CALL.ensures()
        if is_spanned:
            y = f"(record {x} {{ node = record {x}.node {{ value = {y} }} }})"
            lets = f"    let seen : {view} {y} ≡ {item} ({view} {x}) = search rules in\n"
            seen = "seen"
        yield proof(goals.preserved(name, "items"), f"\n{lets}"
                    f"    next_done {view} {bracketed(item)} {done} {given} {items.of('i')} "
                    f"{x} {y} (search rules) {index.ensures('value')} {seen} {before}")
        all_done = (f"all_done {view} {bracketed(item)} {done} {given} "
                    f"{before}.0.0 (λ k d lt. {before}.1 k d (search rules))")
        if is_spanned:
            kept = ("filter_from_retain _ _ (λ p x b q called. search rules) _ _ _ "
                    f"{c.of('retain').ensures('filtered')}")
            whole = (f"ap {self.cycle.seen(part.held, '').strip()} ({kept}) ∙ "
                     f"list_full {done} {given} ({all_done})")
        else:
            whole = (f"ap {self.cycle.made_of(part.held)} ({all_done}) ∙ "
                     f"{self.cycle.stem(part.held)}_full (map {view} {given})")
        yield proof(goals.returns(name), f"\n    {whole}")

    def item(self, part):
        """What leaves the empty statements out of an item of a list."""
        return "full_node" if self.cycle.is_spanned(part) else self.full.of(part.item)

    def invariant(self, part):
        """The invariant of the loop over a list: what is done so far."""
        name = f"voids_nodes::remove_from_{self.cycle.stem(part.held)}"
        return (goals.invariant(name, "items"),
                f"goal.{goals.unvisited(name, 'items')} l × Done {self.cycle.view(part.item)} "
                f"{bracketed(self.item(part))} l.part.items l.initial.part.items l.i")

    def text(self):
        """The file of the proofs."""
        cycle = self.cycle
        texts = [it for part in cycle.own_parts for it in self.function(part)]
        body = "\n".join([*map(self.struct, cycle.structs), *texts, *self.variants()])
        others = {COMMON: ["rules", "◌≡◌", "◌∙◌", "sym", "ap", "map", "Option"],
                  "Rattle.std.proofs.lemmas.List.Elements": ["filter_from_retain"],
                  **LIBRARY}
        seen = [f"Rattle.wgsl_tree_{it}.specs.View"
                for it in ("expression", "attribute", "simple")]
        modules = ["Rattle.wgsl_model.specs.Trees.Attributed", EMPTY, STATEMENTS, *seen,
                   f"{CRATE}.specs.View", f"{CRATE}.proofs.Views",
                   f"{CRATE}.proofs.BlockStatements", f"{CRATE}.proofs.EmptyStatements"]
        return cycle.file(f"{WRITTEN}.", body, modules, others, f"{STATEMENTS} as plain", LAYERS,
                          f"{DECLARED}.TheOpen as layer", f"{DECLARED}.TheViews.{{roll-Statement}}",
                          "denote.Hole.Carrier as Carrier", f"{GOALS}.Goals as goal")


def main():
    cycle = Cycle(Table(), places())
    full = Full(cycle)
    answers, proofs = Answers(cycle, full), FOLDER / "proofs/+remove"
    proofs.mkdir(parents=True, exist_ok=True)
    (FOLDER / "src/voids_nodes.rt").write_text(Code(cycle, full).text())
    (proofs / "Answers.antt").write_text(answers.text())
    modules = [EMPTY, f"{CRATE}.specs.View", f"{CRATE}.proofs.EmptyStatements"]
    (proofs / "Invariants.antt").write_text(
        cycle.invariants(f"{WRITTEN}.", answers.invariant, modules, {}, GOALS))
