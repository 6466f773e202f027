"""Writes `==` of the kinds that contain each other, from their fields and variants, with the proofs
that it is sameness of the codes of the plain trees.
"""
import re
import sys
from dataclasses import dataclass
from pathlib import Path

import goals
import inputs
from cycle_parts import COMMON, CRATE, LAYERS, LIBRARY, ROOT, STATEMENTS, Cycle
from goals import c, proof, then, unless, w
from node_table import TABLE, Table, snake
from plain_trees import coded
from tree_nodes import ghost_uses, places
from tree_terms import bracketed

READS = (inputs.NODES, inputs.TREES, inputs.SOURCES, inputs.VIEWS,
         "crates/wgsl_tree_code/specs/*.antt", "crates/wgsl_tree_*/proofs/Equalities.antt",
         "crates/wgsl_tree_statement/proofs/BlockStatements.antt",
         "crates/wgsl_tree_statement/proofs/Views.antt")
WRITES = ("crates/wgsl_tree_statement/src/equality_nodes.rt",
          "crates/wgsl_tree_statement/proofs/EqualityNodes.antt",
          "crates/wgsl_tree_statement/proofs/equality_nodes/+equal/*.antt")

FOLDER = Path("crates/wgsl_tree_statement")
WRITTEN = f"Written by tools/tables/tree_equalities.py from {TABLE}"
GOALS = f"{CRATE}.proofs.equality_nodes.+equal"
SAME = re.compile(r"^pub (\w+_same) : \(a b : (\w+)\)", re.M)


@dataclass(frozen=True)
class Step:
    """A part of a struct that `==` compares: its call, and the test of it and of those before."""

    part: object
    call: str
    test: str


def steps(cycle, kind):
    """The parts of a struct, with the names that their calls and tests have in a proof."""
    found, parts = [], cycle.parts(kind)
    names = [f"{cycle.stem(it.held)}_equal" if cycle.is_own(it) else "eq" for it in parts]
    for part, name, test in zip(parts, names, goals.in_order(names)):
        call = name if test == name else goals.at(name, then(found[-1].test))
        found.append(Step(part, call, test))
    return found


def eq_of(kind):
    """The function that tests a kind."""
    return goals.method(kind.name, "PartialEq", "eq")


class Code:
    """Writes the functions."""

    def __init__(self, cycle):
        self.cycle = cycle

    def compared(self, part):
        """The test of a part of a struct."""
        if self.cycle.is_own(part):
            return f"{self.cycle.stem(part.held)}_equal(&self.{part.name}, &other.{part.name})"
        return f"self.{part.name} == other.{part.name}"

    def body(self, kind):
        """What tests a node."""
        if kind.form == "struct":
            return " && ".join(map(self.compared, self.cycle.parts(kind)))
        arms = [f"{kind.name}::{name}(a) => matches!(other, {kind.name}::{name}(b) if *a == *b),"
                if held else f"{kind.name}::{name} => matches!(other, {kind.name}::{name}),"
                for name, held in kind.parts]
        return f"match self {{ {' '.join(arms)} }}"

    def impl(self, kind):
        """`==` of a kind."""
        code, view = self.cycle.whole_code(kind.name), self.cycle.views[kind.name].name
        by = (f"    #[tactic(auto, using(crate::proofs::Views::variants))]\n"
              if kind.form == "enum" else "")
        return (f"impl PartialEq for {kind.name} {{\n"
                f"    ghost eq = {{ λ a b. same ({code} ({view} a)) ({code} ({view} b)) }};\n\n"
                f"    ghost laws = {{ on_per (λ e. {code} ({view} e)) same_partial }};\n\n"
                f"{by}    #[cycle(equal)]\n    fn eq(&self, other: &{kind.name}) -> bool {{\n"
                f"        {self.body(kind)}\n    }}\n}}\n")

    def function(self, part):
        """The test of a list or of a part that may be left out."""
        item, node = self.cycle.node(part), ".node()" * self.cycle.is_spanned(part)
        of = [self.cycle.code(part.held, f"{it}.now") for it in "ab"]
        type_ = f"&[{item}]" if part.is_list else f"&Option<{item}>"
        body = (f"match a {{ None => b.is_none(), Some(a) => match b {{ None => false, "
                f"Some(b) => *a{node} == *b{node}, }}, }}")
        if part.is_list:
            a, b = (f"*{it}[i].node()" if node else f"{it}[i]" for it in "ab")
            body = (f"if a.len() != b.len() {{ return false; }}\n"
                    f"'items: for i in 0..a.len() {{ if !({a} == {b}) {{ return false; }} }}\ntrue")
        return (f"#[cycle(equal)]\nfn {self.cycle.stem(part.held)}_equal(a: {type_}, b: {type_}) "
                f"-> bool\n    ensures {{ result\n        ≡ same ({of[0]})\n        ({of[1]}) }}\n"
                f"{{\n{body}\n}}\n")

    def text(self):
        """The file of the functions."""
        cycle = self.cycle
        body = "\n".join([*map(self.impl, cycle.kinds), *map(self.function, cycle.own_parts)])
        words = set(re.findall(r"\w+", body))
        codes = sorted(it for it in words if it.endswith("_code") and it != "attributed_code")
        seen = sorted(it for it in words if it.endswith("_view"))
        made = sorted({cycle.made_of(it.held) for it in cycle.own_parts} & words)
        whole = [it for it in ("attributed_code", "list") if it in words]
        return "\n".join([
            f"//! {WRITTEN}: `==` of nodes.", "",
            "ghost use Rattle.std.specs.Cmp.{on_per};",
            "ghost use Rattle.std.specs.Option.{option_map};",
            "ghost use Rattle.std.specs.Prelude.{◌≡◌, map};",
            *ghost_uses(STATEMENTS.removeprefix("Rattle."), made),
            *ghost_uses("wgsl_tree_code.specs.Code", whole),
            "ghost use Rattle.wgsl_tree_code.specs.Laws.{same_partial};",
            "ghost use Rattle.wgsl_tree_code.specs.Same.{same};",
            *ghost_uses(f"wgsl_tree_code.specs.{ROOT}Nodes", codes),
            *ghost_uses("wgsl_tree_statement.specs.View", seen), "", *cycle.uses(words), "", body])


class Lemmas:
    """Writes what `==` of each struct is, part by part."""

    def __init__(self, cycle):
        self.cycle = cycle

    def part(self, held):
        """The test of a part as plain data."""
        name, type_ = f"{self.cycle.stem(held)}_alike", self.cycle.type(held)
        x, y = (self.cycle.code(held, it) for it in "xy")
        return (f"abbrev pub {name} : {type_} → {type_} → Bool\n"
                f"{name} x y = same ({x}) ({y})\n")

    def compared(self, part):
        """The test of a part of two layers."""
        items = ".items" if self.cycle.is_own(part) and part.is_list else ""
        return (f"{self.cycle.stem(part.held)}_alike a.{part.name}{items} b.{part.name}{items}")

    def struct(self, kind):
        """The tests of a struct, and that they are that of its codes."""
        name, parts = snake(kind.name), self.cycle.parts(kind)
        layers = "".join(f"    let {it} = layers.out-{kind.name} {whole} in\n"
                         for it, whole in [("a", "n"), ("b", "m")])
        named = "".join(f"    let part_{at} = {self.compared(part)} in\n"
                        for at, part in enumerate(parts, 1))
        code, out = self.cycle.whole_code(kind.name), f"{name}_out"
        view = self.cycle.views[kind.name].name
        proof = f"(λ i. same ({code} ({out} n i)) ({code} ({out} m i)))"
        for at in range(2, len(parts)):
            first, last = bracketed(chain(at - 1)), bracketed(rest(at + 1, len(parts)))
            proof += f" ∙ and_3 {first} part_{at} {last}"
        return (f"abbrev pub {name}_parts : {kind.name} → {kind.name} → Bool\n"
                f"{name}_parts n m =\n{layers}{named}    {chain(len(parts))}\n\n"
                f"pub {name}_same : (n m : {kind.name})\n"
                f"    → same ({code} ({view} n)) ({code} ({view} m)) ≡ {name}_parts n m\n"
                f"{name}_same n m =\n{layers}{named}    {proof}\n")

    def items(self, part):
        """The codes of the items of a list, and that they are compared."""
        stem, view = self.cycle.stem(part.held), self.cycle.view(part.item)
        type_, item = self.cycle.type(part.held), self.cycle.type(part.item)
        code = (coded(f"{part.item}Node") if self.cycle.is_spanned(part)
                else self.cycle.whole_code(part.item))
        listed = f"{stem}_code ({self.cycle.shown(part.held, 'xs')})"
        return (f"abbrev pub {stem}_item : {item} → Code\n{stem}_item x = {code} ({view} x)\n\n"
                f"{stem}_listed : (xs : {type_}) → {listed} ≡ codes_of {stem}_item xs\n"
                f"{stem}_listed [] = refl\n"
                f"{stem}_listed (x ∷ xs) = ap (code_before ({stem}_item x)) ({stem}_listed xs)\n\n"
                f"pub {stem}_same : (xs ys : {type_})\n"
                f"    → {stem}_alike xs ys ≡ all_same {stem}_item xs ys\n"
                f"{stem}_same xs ys =\n"
                f"    λ i. same (list ({stem}_listed xs i)) (list ({stem}_listed ys i))\n")

    def text(self):
        """The file of the lemmas."""
        cycle = self.cycle
        helds = {part.held: 0 for kind in cycle.structs for part in cycle.parts(kind)}
        body = "\n".join(["-- the parts, compared", *map(self.part, helds),
                          *map(self.struct, cycle.structs),
                          "-- the codes of items of lists", *map(self.items, cycle.lists)])
        others = {COMMON: ["Bool", "◌&&◌", "List", "[]", "◌∷◌", "Option", "map", "◌≡◌", "refl",
                           "◌∙◌", "ap"], **LIBRARY}
        codes = "Rattle.wgsl_tree_code.specs"
        modules = [
            STATEMENTS, *(f"{codes}.{it}" for it in ("Code", "Same", "Lists", "ExpressionNodes",
                                                     "AttributeNodes", "StatementNodes")),
            "Rattle.wgsl_tree_expression.specs.View", "Rattle.wgsl_tree_attribute.specs.View",
            "Rattle.wgsl_tree_simple.specs.View", f"{CRATE}.specs.View",
            f"{CRATE}.proofs.Views", f"{CRATE}.proofs.Equalities"]
        return cycle.file(f"{WRITTEN}: `==`, part by part.", body, modules, others, LAYERS)


def chain(count):
    """The first parts in the order in which they are tested."""
    text = "part_1"
    for at in range(2, count + 1):
        text = f"{bracketed(text)} && part_{at}"
    return text


def rest(first, last):
    """The last parts as the code of a struct has them."""
    return f"part_{last}" if first == last else f"part_{first} && ({rest(first + 1, last)})" \
        if first + 1 < last else f"part_{first} && part_{last}"


class Answers:
    """Writes the proofs of the goals."""

    def __init__(self, cycle):
        self.cycle = cycle
        text = "".join(Path(f"crates/wgsl_tree_{it}/proofs/Equalities.antt").read_text()
                       for it in ("attribute", "simple"))
        self.same = {kind: lemma for lemma, kind in SAME.findall(text)}

    def by_code(self, held):
        """The view and the code of a kind of another crate, and that its test is that of codes."""
        if held in ("Expression", "TypeExpression", "FunctionCall"):
            return self.cycle.view(held), coded(f"{held}Node" if held == "Expression" else held), \
                "(λ x y. refl)"
        if held not in self.same:
            sys.exit(f"tools/tables/tree_equalities.py: no lemma about == of {held}")
        return self.cycle.view(held), bracketed(self.cycle.whole_code(held)), self.same[held]

    def alike(self, part):
        """What leads from the test of a part to that of its codes, if that is another."""
        name = part.name
        if part.held == "Attribute*":
            return f" ∙ attribute_lists_same a.{name}.items b.{name}.items"
        if self.cycle.has(part):
            return ""
        view, code, same = self.by_code(part.item)
        if part.is_list:
            return f" ∙ lists_same {view} {code} _ {same} a.{name}.items b.{name}.items"
        if part.is_optional:
            return f" ∙ options_same {view} {code} _ {same} (λ x. refl) a.{name} b.{name}"
        return f" ∙ {same} a.{name} b.{name}" if same in self.same.values() else ""

    def tested(self, step, before, known):
        """That a call tests a part, from what is known."""
        said = f"{known.of(step.call).ensures()}{self.alike(step.part)}"
        if self.cycle.is_own(step.part) and step.part.is_list:
            first, second = (known.of(it).ensures("value")
                             for it in ("deref", goals.at("deref", then(before))))
            said += f" ∙ (λ i. {self.cycle.stem(step.part.held)}_alike ({first} i) ({second} i))"
        return said

    def value(self, found, count):
        """The value of the tests of the first parts."""
        return c.of("eq.result") if count == 1 else c.test(found[count - 2].test).of("value")

    def tests(self, kind, found):
        """The parts of a node, and that the tests of all but the last are those of their codes."""
        lemmas = Lemmas(self.cycle)
        lines = [f"let {it} = layers.out-{kind.name} {c.given(whole)} in"
                 for it, whole in [("a", "self"), ("b", "other")]]
        lines += [f"let part_{at} = {lemmas.compared(step.part)} in"
                  for at, step in enumerate(found, 1)]
        first = self.tested(found[0], "", c)
        lines.append(f"let tested_1 : {self.value(found, 1)} ≡ part_1 = {first} in")
        for at in range(2, len(found)):
            test, step = found[at - 2].test, found[at - 1]
            type_, before = f"{self.value(found, at)} ≡ {chain(at)}", f"tested_{at - 1}"
            yes, no = (goals.at(eq_of(kind), way(test)) for way in (then, unless))
            lines += [
                f"let tested_{at} : {type_} = elim {c.test(test).of('branch')} [",
                f"  | {yes} w ↦ and_true {w.test(test).of('true')} {before} "
                f"({w.of('value-is')} ∙ {self.tested(step, test, w)})",
                f"  | {no} w ↦ and_false _ {w.test(test).of('false')} {before} {w.of('value-is')}",
                "] in"]
        return lines

    def struct(self, kind):
        """The two goals of a struct: the last part is tested, or is not."""
        found = steps(self.cycle, kind)
        lines = "".join(f"    {line}\n" for line in self.tests(kind, found))
        test, count = found[-2].test, len(found) - 1
        same = f"sym ({snake(kind.name)}_same {c.given('self')} {c.given('other')})"
        last = bracketed(self.tested(found[-1], test, c))
        yes, no = (c.test(test).of(it) for it in ("true", "false"))
        for way, said in [(then, f"and_true {yes} tested_{count} {last}"),
                          (unless, f"and_false _ {no} tested_{count} refl")]:
            yield proof(goals.returns(eq_of(kind), way(test)), f"\n{lines}    {said} ∙ {same}")

    def listed(self, part):
        """The goals of the test of a list."""
        stem = self.cycle.stem(part.held)
        lets = f"    let xs = {c.given('a')} in\n    let ys = {c.given('b')} in\n"
        item, i, so_far = f"{stem}_item", c.of("items.i"), c.of("items.invariant")
        x, y = c.index("a", "i"), c.index("b", "i")
        differ = (f"    let differ : same ({item} {x.of('result')}) ({item} {y.of('result')}) "
                  "≡ false = search rules in\n")
        found = "(search rules) (search rules)"
        for places, more, said in [
                ([then("a-b")], "", f"unlike {item} xs ys (λ e. search rules)"),
                ([then("not-eq")], differ, f"next_differs {item} xs ys {i} _ _ {found} "
                 f"{x.of('is')} {y.of('is')} {so_far} differ"),
                ([], "", f"none_left {item} xs ys {i} {found} {so_far}")]:
            yield proof(goals.returns(f"{stem}_equal", *places), f"\n{lets}{more}"
                        f"    sym ({stem}_same xs ys ∙ {said})")

    def variants(self):
        """The goals of the variants of the enum that hold something: they are equal, or are not."""
        root = self.cycle.root
        parts = [part for part in self.cycle.parts(root) if part.held]
        for number, part in enumerate(parts, 1):
            call = "eq" if number == 1 else goals.at("eq", goals.arm(part.name))
            a, b = c.arm(part.name), c.of(goals.matches(part.name))
            x, y, alike = a.of("a"), b.of("b"), f"{c.of(call).ensures()}"
            if part.held == "CompoundStatement":
                view = self.cycle.view(part.held)
                alike += f" ∙ sym (blocks_same ({view} {x}) ({view} {y}))"
            elif not self.cycle.has(part):
                alike += f" ∙ {self.same[part.held]} {x} {y}"
            is_ = f"is_{snake(part.name)}"
            for place in (goals.matches(part.name), goals.differs(number)):
                yield proof(goals.returns(eq_of(root), place),
                            f" of_one_kind {a.of('is')} ({is_} {x}) {b.of('is')} ({is_} {y})\n"
                            f"    {bracketed(alike)} (search rules)")

    def text(self):
        """The file of the proofs."""
        cycle = self.cycle
        texts = [it for kind in cycle.structs for it in self.struct(kind)]
        texts += [it for part in cycle.lists for it in self.listed(part)]
        body = "\n".join([*texts, "-- the kinds of statements", *self.variants()])
        others = {COMMON: ["rules", "◌≡◌", "true", "false", "refl", "sym", "◌∙◌", "◌&&◌"]}
        codes = "Rattle.wgsl_tree_code.specs"
        modules = [f"{codes}.{it}" for it in ("Code", "Same", "Lists", "ExpressionNodes",
                                              "StatementNodes")]
        modules += [f"Rattle.wgsl_tree_{it}.specs.View" for it in ("expression", "simple")]
        modules += [f"Rattle.wgsl_tree_{it}.proofs.Equalities" for it in ("attribute", "simple")]
        modules += [f"{CRATE}.{it}" for it in (
            "specs.View", "proofs.Views", "proofs.BlockStatements",
            "proofs.Equalities", "proofs.EqualityNodes")]
        branches = [goals.at(eq_of(kind), way(step.test)) for kind in cycle.structs
                    for step in steps(cycle, kind)[:-2] for way in (then, unless)]
        return cycle.file(f"{WRITTEN}.", body, modules, others, LAYERS, f"{GOALS}.Goals as goal",
                          f"{GOALS}.Goals.{{{', '.join(branches)}}}")

    def invariant(self, part):
        """The invariant of the loop over a list: what is left to compare."""
        stem = self.cycle.stem(part.held)
        same = f"all_same {stem}_item"
        return (goals.invariant(f"{stem}_equal", "items"),
                f"{same} l.a l.b ≡ {same} (drop l.i l.a) (drop l.i l.b)")


def main():
    cycle = Cycle(Table(), places())
    answers, proofs = Answers(cycle), FOLDER / "proofs/equality_nodes/+equal"
    proofs.mkdir(parents=True, exist_ok=True)
    (FOLDER / "src/equality_nodes.rt").write_text(Code(cycle).text())
    (FOLDER / "proofs/EqualityNodes.antt").write_text(Lemmas(cycle).text())
    (proofs / "Answers.antt").write_text(answers.text())
    items = [f"{cycle.stem(part.held)}_item" for part in cycle.lists]
    others = {COMMON: ["◌≡◌", "drop"], "Rattle.wgsl_tree_code.specs.Lists": ["all_same"],
              f"{CRATE}.proofs.EqualityNodes": items}
    (proofs / "Invariants.antt").write_text(
        cycle.invariants(f"{WRITTEN}.", answers.invariant, [], others, GOALS))
