"""Renamed statements, for tools/tables/renamed_trees.py: the proofs of the functions that copy the
kinds that contain each other with new names."""
import goals
from cycle_parts import COMMON, CRATE, LAYERS, LIBRARY, STATEMENTS
from goals import c, proof
from names_defined import owners
from node_table import TABLE, snake
from plain_trees import constructor, is_apart

HERE = "Rattle.wgsl_tree_renamed"
WRITTEN = f"Written by tools/tables/renamed_trees.py from {TABLE}."
GOALS = f"{HERE}.proofs.statement_nodes.+statements"


def made_by(cycle, kind):
    """What makes a statement of a struct that has its attributes apart."""
    variants = [name for name, held in cycle.root.parts if held == kind.name]
    return f"plain.as_statement plain.{constructor(cycle.root, variants[0])}"


def whole(cycle, kind):
    """How a node is seen, as a statement if its attributes are apart."""
    view = cycle.views[kind.name].name
    if not is_apart(kind):
        return lambda place: f"{view} {place}"
    return lambda place: f"{made_by(cycle, kind)} ({view} {place})"


def seen_by(cycle, part):
    """How the items of a list or of an optional part are seen, and what changes one of them."""
    view = cycle.view(part.item)
    change = "node" if cycle.is_spanned(part) else cycle.stem(part.item)
    mapped = "map" if part.is_list else "option_map"
    return (lambda place: f"{mapped} {view} {place}"), f"changed_{change}"


class Answers:
    """The proofs."""

    def __init__(self, cycle):
        self.cycle = cycle

    def goal(self, name, lines):
        """A goal about a call, with its proof."""
        return proof(name, f"\n    let f = renaming_by {c.given('names')} in\n{lines}")

    def call(self, part):
        """What is called to copy a part of a struct."""
        if part.held == "Attribute*":
            return "renamed_attributes"
        return f"renamed_{self.cycle.stem(part.held)}" if self.cycle.has(part) else "renamed"

    def copied(self, part, call):
        """That the copy of a part is seen as what the part becomes."""
        ensured = c.ok(call).ensures()
        if not self.cycle.is_own(part):
            return ensured
        stem, maker = self.cycle.stem(part.held), f"plain.{self.cycle.made_of(part.held)}"
        seen, change = seen_by(self.cycle, part)
        if part.is_optional:
            return f"ap {maker} {ensured} ∙ {stem}_renamed f _"
        more = (f"{ensured} ∙ ap (λ xs. map ({change} (renaming f)) ({seen('xs')})) "
                f"{c.of('deref').ensures('value')}")
        if self.cycle.is_spanned(part):
            return f"{stem}_renamed f original.{part.name}.items _ ({more})"
        return f"ap {maker} ({more}) ∙ {stem}_renamed f _"

    def struct(self, kind):
        """That the copy of a struct is seen as what it becomes."""
        parts, node = self.cycle.parts(kind), c.given("node")
        calls = goals.in_order(map(self.call, parts))
        lets = "".join(f"    let {part.name} = {self.copied(part, call)} in\n"
                       for part, call in zip(parts, calls))
        if "original." in lets:
            lets = f"    let original = layers.out-{kind.name} {node} in\n{lets}"
        change = f"changed_{self.cycle.stem(kind.name)} (renaming f)"
        roll = self.cycle.rolled(kind)
        tree = self.cycle.tree(kind, {part.name: f"{part.name} i" for part in parts})
        if is_apart(kind):
            made = made_by(self.cycle, kind)
            roll = f"ap ({made}) ({roll})"
            tree = f"plain.statement (attributes i) ({made.split()[1]} ({tree}))"
            change = f"λ s. changed_statement (renaming f) ({made} s)"
        return self.goal(goals.returns(f"renamed_{self.cycle.stem(kind.name)}"),
                         f"{lets}    {roll} ∙ (λ i. {tree}) ∙ "
                         f"sym (ap ({change}) ({snake(kind.name)}_out {node}))")

    def listed(self, part):
        """That a list is copied: one item more, and all."""
        name, item = f"renamed_{self.cycle.stem(part.held)}", self.cycle.stem(part.item)
        seen, change = seen_by(self.cycle, part)
        view, items, nodes = self.cycle.view(part.item), c.given("part"), c.of("nodes")
        node, made = c.item("node"), c.ok(f"renamed_{item}")
        copy, same = made.of("field-0"), made.ensures()
        if self.cycle.is_spanned(part):
            made, new = c.ok("copy"), c.ok("new")
            copy, spans = new.of("field-0"), f"{new.ensures('span')} ∙ {c.of('span').ensures()}"
            same = (f"(node_renamed f {node.of('result')} {copy} {made.of('copy')} "
                    f"{new.ensures('node')} ({spans}) "
                    f"({made.ensures()} ∙ ap (λ (s : {part.item}). changed_{item} "
                    f"(renaming f) ({self.cycle.views[part.item].name} s)) "
                    f"{c.of('node').ensures()}))")
        yield self.goal(goals.preserved(name, "nodes"), (
            f"    ap (map {view}) {c.ok('push').ensures('items')} ∙ item_more {view} ({change} "
            f"(renaming f)) {items} {nodes.of('copies.items')} {nodes.of('node-index')} "
            f"{node.of('result')} {copy} (search rules) {node.of('is')} "
            f"{nodes.of('invariant')} {same}"))
        yield self.goal(goals.returns(name), (
            f"    {nodes.of('invariant')} ∙ ap (λ xs. map ({change} (renaming f)) ({seen('xs')})) "
            f"(take_all _ {items} {c.ended('nodes')})"))

    def variant(self, name, held):
        """That a statement of a variant is copied."""
        kind = self.cycle.table.by_name.get(held)
        is_ = f"(is_{snake(name)} _)" if held else "is_empty"
        was = f"ap (λ (s : Statement). statement_view s) {c.arm(name).of('is')}"
        if not held:
            return self.goal(goals.returns("renamed_statement", goals.arm(name)),
                             f"    variant_renamed f _ _ {is_} refl ({was} ∙ {is_})")
        call = f"renamed_{self.cycle.stem(held)}" if kind in self.cycle.kinds else "renamed"
        call = goals.at(call, goals.arm(name))
        same = c.ok(call).ensures()
        if not is_apart(kind):
            same = f"(ap plain.block_statement {same} ∙ block_renamed f _)"
        elif len(list(owners(self.cycle.table, kind))) > 1:
            same = f"(ap ({made_by(self.cycle, kind)}) {same})"
        return self.goal(goals.returns("renamed_statement", goals.ok(call)),
                         f"    variant_renamed f _ _ {is_} {same} ({was} ∙ {is_[1:-1]})")

    def left_out(self, part):
        """That an optional part is copied: where it is absent, and where it is there."""
        name, item = f"renamed_{self.cycle.stem(part.held)}", self.cycle.stem(part.item)
        seen, change = seen_by(self.cycle, part)
        was = f"ap (λ o. option_map ({change} (renaming f)) ({seen('o')}))"
        yield self.goal(goals.returns(name, goals.arm("None")),
                        f"    sym ({was} {c.arm('None').of('is')})")
        if not self.cycle.is_spanned(part):
            call = goals.at(f"renamed_{item}", goals.arm("Some"))
            yield self.goal(goals.returns(name, goals.ok(call)),
                            f"    ap Some {c.ok(call).ensures()} ∙ "
                            f"sym ({was} {c.arm('Some').of('is')})")

    def text(self):
        """The file of the proofs."""
        texts = [*map(self.struct, self.cycle.structs),
                 *(it for part in self.cycle.lists for it in self.listed(part)),
                 *(self.variant(*part) for part in self.cycle.root.parts),
                 *(it for part in self.cycle.optional for it in self.left_out(part))]
        others = {COMMON: ["rules", "◌∙◌", "refl", "sym", "ap", "map", "Some"],
                  "Rattle.std.proofs.lemmas.List": ["take_all"], **LIBRARY,
                  f"{HERE}.specs.NewNames": ["renaming_by"]}
        modules = [STATEMENTS, "Rattle.wgsl_model_names.specs.Renamed", f"{CRATE}.specs.View",
                   f"{CRATE}.proofs.Views", f"{HERE}.proofs.Lists", f"{HERE}.proofs.Statements"]
        return self.cycle.file(WRITTEN, "\n".join(texts), modules, others, f"{STATEMENTS} as plain",
                               LAYERS, f"{GOALS}.Goals as goal")


def invariants_of(cycle):
    """The invariants of the loops: what is copied so far."""
    def invariant(part):
        seen, change = seen_by(cycle, part)
        name = goals.invariant(f"renamed_{cycle.stem(part.held)}", "nodes")
        return name, (f"{seen('l.copies.items')} ≡ map ({change} (change_by l.names)) "
                      f"({seen('(take l.node-index l.part)')})")

    modules = [STATEMENTS, f"{CRATE}.specs.View", f"{HERE}.specs.NewNames"]
    return cycle.invariants(WRITTEN, invariant, modules, {COMMON: ["◌≡◌", "map", "take"]}, GOALS)
