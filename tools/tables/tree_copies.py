"""Writes the functions that copy a node, each from the fields of its node, and what of their proofs
follows from these.

Copies of expressions are written by hand. What proves copies of kinds that contain each other is in
cycle_copies.py.
"""
import re
from pathlib import Path

import goals
import inputs
from cycle_copies import answers_of_cycle, own_functions
from cycle_parts import Cycle, Part
from goals import c, proof
from node_table import TABLE, Table
from tree_nodes import COPIED, ghost_uses, places, use_lines, views

READS = (inputs.NODES, inputs.TREES, inputs.SOURCES, inputs.VIEWS,
         "crates/wgsl_tree_*/proofs/Copies.antt", "crates/wgsl_tree_statement/proofs/Views.antt")
WRITES = ("crates/wgsl_tree_*/src/copies_nodes.rt",
          "crates/wgsl_tree_*/proofs/copies_nodes/+clone/*.antt",
          "crates/wgsl_tree_*/proofs/copies_nodes/*/clone_with/Answers.antt")

CRATES = ["attribute", "simple", "statement", "unit"]
# the crates whose functions copy a list of attributes, and a list of names
LISTS = {"clone_attributes": ("simple", "attributes"), "clone_names": ("unit", "extensions")}
LEMMAS = "Rattle.wgsl_tree_attribute.proofs.Copies"
# types that need no allocator
PLAIN = ["bool", "i64", "i32", "u32", *COPIED]


class Copies:
    """Writes the copies of the nodes of a crate."""

    def __init__(self, table, crate, at):
        self.table, self.crate, self.at = table, crate, at
        self.views = {name: view for it in CRATES for name, view in views(it).items()}
        self.views |= views("expression")
        self.kinds = [kind for kind in table.kinds
                      if at[kind.name].crate == crate and kind.name not in COPIED]
        self.cycle = Cycle(table, at) if crate == "statement" else None

    def is_plain(self, held):
        """Whether a value is copied without an allocator."""
        kind = self.table.by_name.get(held.removesuffix("?"))
        return held in PLAIN or kind is not None and kind.form == "words"

    def copy(self, held, place):
        """What copies a value."""
        if self.is_plain(held):
            return place
        if held == "String":
            return f"String::from_str(alloc, {place}.as_str())?"
        if held in ("Attribute*", "String*"):
            return f"clone_{'names' if held == 'String*' else 'attributes'}(&{place}, alloc)?"
        if self.cycle and self.cycle.is_own(Part("", held)):
            return f"clone_{self.cycle.stem(held)}(&{place}, alloc)?"
        return f"{place}.clone_with(alloc)?"

    def variant(self, kind, name, held):
        """The arm that copies a variant."""
        made = f"{kind.name}::{name}"
        if not held:
            return f"{made} => Ok({made}),"
        inner = "*inner" if self.is_plain(held) else self.copy(held, "inner")
        short = f"{made}(inner) => Ok({made}({inner})),"
        return short if len(short) <= 88 else f"{made}(inner) => {{ Ok({made}({inner})) }}"

    def body(self, kind):
        """What copies a node."""
        if kind.form == "enum":
            return f"match self {{ {' '.join(self.variant(kind, *part) for part in kind.parts)} }}"
        parts = [f"{name}: {self.copy(held, f'self.{name}')}," for name, held in kind.parts]
        return f"Ok({kind.name} {{ {' '.join(parts)} }})"

    def functions(self, kind):
        """The functions that copy a node."""
        view = self.views[kind.name].name
        same = f" {view} copy ≡ {view} self.now"
        same = same if len(same) <= 60 else f"\n           {same}"
        made = "(&self, alloc: Global) -> Result<Self, AllocError>"
        return (f"impl {kind.name} {{\n"
                "    /// Returns a copy, unless allocation fails.\n"
                f"    pub fn clone{made}\n"
                f"        ensures {{ IfOk result (λ copy.{same}) }}\n"
                "    {\n        self.clone_with(alloc)\n    }\n}\n\n"
                f"impl CloneWith for {kind.name} {{\n"
                f"    ghost copies = {{ λ node copy. {view} copy ≡ {view} node }};\n\n"
                f"{self.marks(kind)}    fn clone_with{made} {{\n        {self.body(kind)}\n"
                "    }\n}\n")

    def marks(self, kind):
        """What is before a function of the kinds that contain each other."""
        if not self.cycle:
            return ""
        by = "    #[tactic(auto, using(crate::proofs::Views::variants))]\n"
        return f"{by * (kind.form == 'enum')}    #[cycle(clone)]\n"

    def uses(self, text):
        """The lines that import what the functions name."""
        found = {"std::alloc": ["AllocError", "Global"], "wgsl_span": ["CloneWith"]}
        if "Spanned::" in text:
            found["wgsl_span"].append("Spanned")
        names = [kind.name for kind in self.kinds]
        names += [f"{it.name}Node" for it in self.kinds if f"{it.name}Node" in text]
        for name in names:
            found.setdefault(f"crate::{self.at[name].module}", []).append(name)
        for name, (crate, module) in LISTS.items():
            if f"{name}(" in text:
                key = f"crate::{module}" if crate == self.crate else f"wgsl_tree_{crate}"
                found.setdefault(key, []).append(name)
        return use_lines(found)

    def code(self):
        """The file of the functions."""
        more = own_functions(self.cycle) if self.cycle else []
        text = "\n".join([*map(self.functions, self.kinds), *more])
        names = [self.views[kind.name].name for kind in self.kinds]
        names += sorted(set(re.findall(r"\w+_view", text)) - set(names))
        prelude = ["ghost use Rattle.std.specs.Prelude.{◌≡◌, IfOk};"]
        if more:
            prelude = ["ghost use Rattle.std.specs.Option.{option_map};",
                       "ghost use Rattle.std.specs.Prelude.{◌≡◌, IfOk, map};"]
        return "\n".join([
            f"//! Written by tools/tables/tree_copies.py from {TABLE}: copies of nodes.", "",
            *prelude,
            *ghost_uses(f"wgsl_tree_{self.crate}.specs.View", names), "",
            *self.uses(text), "", text])

    def shown(self, name, held, copied):
        """The lemma that shows that the copy of a field is seen as the field is, the type whose
        view it is given, and the lines that cite it."""
        part, place = held.rstrip("*?"), f"original.{name}"
        if part == "Expression" and held.endswith("?"):
            lemma, part = f"maybe_expression{'s' * ('*' in held)}_copied", None
        elif held.endswith("?"):
            lemma = "option_copied"
        else:
            lemma = "nodes_copied" if self.table.by_name[part].is_spanned else "items_copied"
            place += ".items"
        view = f" {self.views[part].name}" if part else ""
        return lemma, part, [f"    let {name} = {lemma}{view} {place} _", f"        {copied} in"]

    def answers(self, kind):
        """The proof that a copy is seen as its node is, where a field is a list or a type that may
        be left out; search finds the others."""
        copied = [it for it in kind.parts if self.copy(it[1], "").endswith(".clone_with(alloc)?")]
        lines, lemmas, seen, hard = [], set(), set(), False
        for (name, held), call in zip(copied, goals.in_order(["clone_with"] * len(copied))):
            if held[-1] in "*?":
                hard = hard or held != "Expression?"
                lemma, part, cited = self.shown(name, held, c.ok(call).ensures("copy"))
                lemmas.add(lemma)
                seen |= {part} if part else set()
                lines += cited
        return self.answer(kind, lines, sorted(lemmas), sorted(seen)) if hard else None

    def answer(self, kind, lines, lemmas, seen):
        """The file of a proof."""
        uses = [f"use Rattle.wgsl_tree_{self.at[part].crate}.specs.View.{{{self.views[part].name}}}"
                for part in seen]
        proofs = f"Rattle.wgsl_tree_{self.crate}.proofs.copies_nodes"
        return "\n".join([
            f"-- Written by tools/tables/tree_copies.py from {TABLE}.",
            "use Rattle.std.proofs.Common.{rules}", *uses,
            f"use {LEMMAS}.{{{', '.join(lemmas)}}}",
            f"use {proofs}.{kind.name}CloneWith.clone_with.Goals as goal", "",
            proof(goals.returns(), "\n".join([
                "", f"    let original = {c.given('self')} in", *lines, "    search rules"]), "c")])


def main():
    table, at = Table(), places()
    for crate in CRATES:
        copies, folder = Copies(table, crate, at), Path(f"crates/wgsl_tree_{crate}")
        (folder / "src/copies_nodes.rt").write_text(copies.code())
        if copies.cycle:
            answers_of_cycle(copies.cycle, folder / "proofs/copies_nodes/+clone")
        for kind in copies.kinds if not copies.cycle else []:
            answers = copies.answers(kind) if kind.form == "struct" else None
            if answers:
                place = folder / f"proofs/copies_nodes/{kind.name}CloneWith/clone_with/Answers.antt"
                place.parent.mkdir(parents=True, exist_ok=True)
                place.write_text(answers)
