"""Copies of the kinds that contain each other, for tools/tables/tree_copies.py: of lists and of
parts that may be left out, and the proofs that a copy is seen as its node is."""
import goals
from cycle_parts import COMMON, CRATE, LAYERS, LIBRARY, STATEMENTS
from goals import c, proof
from node_table import TABLE, snake
from tree_terms import bracketed

WRITTEN = f"Written by tools/tables/tree_copies.py from {TABLE}."
GOALS = f"{CRATE}.proofs.copies_nodes.+clone"


def clone_of(kind):
    """The function that copies a kind."""
    return goals.method(kind.name, "CloneWith", "clone_with")


def own_functions(cycle):
    """The functions that copy the lists and the optional parts of a cycle."""
    for part in cycle.own_parts:
        is_spanned, item = cycle.is_spanned(part), cycle.node(part)
        given, made = (f"&[{item}]", f"Vec<{item}>") if part.is_list else (
            f"&Option<{item}>", f"Option<{item}>")
        first = "let copy = node.node().clone_with(alloc)?;" if is_spanned else ""
        copy = "node.clone_with(alloc)?"
        copy = "Spanned::new(alloc, copy, node.span())?" if is_spanned else copy
        body = f"match part {{ None => Ok(None), Some(node) => {{ {first} Ok(Some({copy})) }} }}"
        if part.is_list:
            body = (f"let mut copies = Vec::new(alloc); 'nodes: for node in part {{ {first} "
                    f"copies.push({copy})?; }} Ok(copies)")
        seen = cycle.seen(part.held, "copy.items" if part.is_list else "copy")
        yield (f"#[cycle(clone)]\nfn clone_{cycle.stem(part.held)}(part: {given}, alloc: Global)"
               f" -> Result<{made}, AllocError>\n    ensures {{ IfOk result (λ copy.\n"
               f"        {seen} ≡ {cycle.seen(part.held, 'part.now')}) }}\n{{ {body} }}\n")


class Answers:
    """The proofs of a cycle."""

    def __init__(self, cycle):
        self.cycle = cycle

    def call(self, part):
        """What is called to copy a part of a struct."""
        if part.held == "Attribute*":
            return "clone_attributes"
        return f"clone_{self.cycle.stem(part.held)}" if self.cycle.is_own(part) else "clone_with"

    def copied(self, part, call):
        """That the copy of a part is seen as the part is, from what its call ensures."""
        copied, place = c.ok(call).ensures("copy"), f"original.{part.name}"
        seen = self.cycle.seen(part.held, place)
        if part.held == "Attribute*" or self.cycle.is_own(part):
            more = ""
            if part.is_list and self.cycle.is_own(part):
                items = c.of("deref").ensures("value")
                more = f" ∙ ap (λ xs. {self.cycle.seen(part.held, 'xs')}) {items}"
            return f"let {part.name} = {c.ok(call).ensures()}{more} in"
        if self.cycle.has(part):
            return f"let {part.name} = {copied} in"
        if part.held == "Expression?":
            return f"let {part.name} = maybe_expression_copied {place} _ {copied} in"
        if part.held == "Expression":
            copy = c.ok(call).of("field-0")
            return (f"let {part.name} : {self.cycle.seen(part.held, copy)} ≡ {seen}"
                    f" = search rules in")
        view = self.cycle.view(part.item)
        kind = "items" if part.is_list else "option"
        place += ".items" * part.is_list
        return f"let {part.name} = {kind}_copied {view} {place} _ {copied} in"

    def struct(self, kind):
        """That the copy of a struct is seen as it is."""
        parts, name = self.cycle.parts(kind), snake(kind.name)
        calls = goals.in_order(map(self.call, parts))
        lets = "".join(f"    {self.copied(*it)}\n" for it in zip(parts, calls))
        values = {it.name: self.cycle.as_own(it.held, f"{it.name} i") for it in parts}
        if "original." in lets:
            lets = f"    let original = layers.out-{kind.name} {c.given('self')} in\n{lets}"
        return proof(goals.returns(clone_of(kind)), f"\n{lets}"
                     f"    record {{ copy = {self.cycle.rolled(kind)} ∙ "
                     f"(λ i. {self.cycle.made(kind, values)})"
                     f" ∙ sym ({name}_out {c.given('self')}) }}")

    def listed(self, part):
        """That a list is copied: one item more, and all."""
        seen, name = self.cycle.seen(part.held, ""), f"clone_{self.cycle.stem(part.held)}"
        view = bracketed(seen.strip())
        item = self.cycle.view(part.item)
        items, made, nodes = c.given("part"), c.ok("clone_with"), c.of("nodes")
        node, same = c.item("node").of("result"), ""
        copy, more, last = made.of("field-0"), f"item_more {item} {items}", made.ensures("copy")
        if self.cycle.is_spanned(part):
            copy, more, last = c.ok("new").of("field-0"), f"node_more {items}", "same"
            same = f"    let same : {item} {copy} ≡ {item} {node} = search rules in\n"
        yield proof(goals.preserved(name, "nodes"), f"\n{same}"
                    f"    ap {view} {c.ok('push').ensures('items')} ∙ {more} "
                    f"{nodes.of('copies.items')} {nodes.of('node-index')} {node} {copy} "
                    f"(search rules) {c.item('node').of('is')} {nodes.of('invariant')} {last}")
        yield proof(goals.returns(name), f" {nodes.of('invariant')} ∙ ap {view} "
                    f"(take_all _ {items} {c.ended('nodes')})")

    def optional(self, part):
        """That an optional part is copied: where it is absent, and where it is there."""
        name, view = f"clone_{self.cycle.stem(part.held)}", self.cycle.view(part.item)
        yield proof(goals.returns(name, goals.arm("None")),
                    f" sym (ap (option_map {view}) {c.arm('None').of('is')})")
        if not self.cycle.is_spanned(part):
            call = goals.at("clone_with", goals.arm("Some"))
            yield proof(goals.returns(name, goals.ok(call)),
                        f" ap Some {c.ok(call).ensures('copy')} ∙ "
                        f"sym (ap (option_map {view}) {c.arm('Some').of('is')})")

    def blocks(self):
        """That a block as a statement is copied: its plain tree has the parts of the block."""
        call = goals.at("clone_with", goals.arm("Compound"))
        return proof(goals.returns(clone_of(self.cycle.root), goals.ok(call)),
                     " record { copy = is_compound _ ∙ "
                     f"ap block_statement {c.ok(call).ensures('copy')} ∙ "
                     "sym (ap (λ (s : Statement). statement_view s) "
                     f"{c.arm('Compound').of('is')} ∙ is_compound _) }}")

    def text(self):
        """The file of the proofs."""
        texts = [*map(self.struct, self.cycle.structs),
                 *(it for part in self.cycle.lists for it in self.listed(part)),
                 *(it for part in self.cycle.optional for it in self.optional(part)),
                 self.blocks()]
        others = {COMMON: ["rules", "◌≡◌", "◌∙◌", "sym", "ap", "map", "Some"],
                  "Rattle.std.proofs.lemmas.List": ["take_all"], **LIBRARY}
        modules = ["Rattle.wgsl_model.specs.Trees.Attributed", STATEMENTS,
                   *(f"Rattle.wgsl_tree_{it}.specs.View" for it in ("expression", "simple")),
                   "Rattle.wgsl_tree_attribute.proofs.Copies", f"{CRATE}.specs.View",
                   f"{CRATE}.proofs.Views", f"{CRATE}.proofs.Copies"]
        return self.cycle.file(WRITTEN, "\n".join(texts), modules, others, f"{STATEMENTS} as plain",
                               LAYERS, f"{GOALS}.Goals as goal")

    def invariant(self, part):
        """The invariant of the loop over a list: what is copied so far."""
        seen = [self.cycle.seen(part.held, it)
                for it in ("l.copies.items", "(take l.node-index l.part)")]
        name = goals.invariant(f"clone_{self.cycle.stem(part.held)}", "nodes")
        return name, " ≡ ".join(seen)


def answers_of_cycle(cycle, folder):
    """Writes the proofs of a cycle."""
    answers = Answers(cycle)
    folder.mkdir(parents=True, exist_ok=True)
    (folder / "Answers.antt").write_text(answers.text())
    (folder / "Invariants.antt").write_text(cycle.invariants(
        WRITTEN, answers.invariant, [f"{CRATE}.specs.View"], {COMMON: ["◌≡◌", "map", "take"]},
        GOALS))
