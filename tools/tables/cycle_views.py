"""Writes what the kinds that contain each other are as plain data, from their fields and variants:
each is a fold of one layer of each type; and what each view is of one layer and of each variant.

A fold takes an argument for each kind: by hand, one more kind would change all lists of these.
"""
from itertools import product
from pathlib import Path
from string import ascii_lowercase

import inputs
from cycle_parts import COMMON, CRATE, DECLARED, LAYERS, LIBRARY, ROOT, STATEMENTS, Cycle
from node_specs import cycle as names_of
from node_table import TABLE, Table, snake
from plain_trees import OWN, constructor, is_apart
from tree_nodes import ghost_uses, places
from tree_terms import bracketed

READS = (inputs.NODES, inputs.TREES, inputs.SOURCES, inputs.VIEWS, "crates/wgsl_span/specs/*.antt")
WRITES = ("crates/wgsl_tree_statement/specs/View.antt",
          "crates/wgsl_tree_statement/proofs/Views.antt")

FOLDER = Path("crates/wgsl_tree_statement")
WRITTEN = f"Written by tools/tables/cycle_views.py from {TABLE}"
PRELUDE = ["Bool", "List", "[]", "◌∷◌", "Option", "None", "Some", "map", "◌≡◌", "refl", "sym",
           "◌∙◌", "ap"]
SEEN = ["Rattle.wgsl_model.specs.Trees.Attributed", "Rattle.wgsl_span.specs.Spanned",
        "Rattle.wgsl_span.specs.View", "Rattle.wgsl_tree_expression.specs.View",
        "Rattle.wgsl_tree_attribute.specs.View", "Rattle.wgsl_tree_simple.specs.View"]


class Fold:
    """The types of a cycle as the parameters of a layer: the first kind, then the others by their
    names; each has a letter."""

    def __init__(self, cycle):
        self.cycle = cycle
        self.names = names_of(cycle.table, cycle.root.name)
        self.letters = ascii_lowercase[:len(self.names)]
        self.all = " ".join(self.letters)
        self.bound = f"({self.all} : Type 0)"

    def layer(self, name, letter):
        """What makes a type of a layer."""
        return f"layer.{name}-F {self.all} → {letter}"

    def plain(self, name):
        """The plain type of a kind."""
        type_ = f"plain.{self.cycle.views[name].plain}"
        return f"Attributed {type_}" if is_apart(self.cycle.table.by_name[name]) else type_

    def types(self):
        return " ".join(bracketed(self.plain(name)) for name in self.names)

    def steps(self):
        return " ".join(f"{snake(name)}_step" for name in self.names)


class Views:
    """Writes the views."""

    def __init__(self, cycle):
        self.cycle, self.fold = cycle, Fold(cycle)

    def nodes(self):
        """Spanned plain trees, lists of them, and one that may be left out."""
        root = self.cycle.root.name
        held, made = f"plain.{root}", f"plain.{snake(root)}_node"
        yield "-- parts whose own parts are plain data"
        yield (f"abbrev pub node_of : Spanned {held} → plain.{root}Node\n"
               f"node_of s = {made} (spanned_node s) (span_view (spanned_span s))\n")
        type_, none, one = OWN[f"{root}*"]
        yield (f"abbrev pub nodes_of : List (Spanned {held}) → plain.{type_}\n"
               f"nodes_of [] = plain.{none}\n"
               f"nodes_of (s ∷ ss) = plain.{one} (node_of s) (nodes_of ss)\n")
        type_, none, one = OWN[f"{root}?"]
        yield (f"abbrev pub maybe_node_of : Option (Spanned {held}) → plain.{type_}\n"
               f"maybe_node_of None = plain.{none}\n"
               f"maybe_node_of (Some s) = plain.{one} (node_of s)\n")

    def part(self, part):
        """A part of a layer whose own parts are plain data."""
        cycle, place = self.cycle, f"s.{part.name}"
        if not cycle.has(part):
            return cycle.seen(part.held, place)
        if cycle.table.by_name[part.item].is_spanned:
            front = "nodes_of" if part.is_list else "maybe_node_of"
        elif part.held in OWN:
            front = f"plain.{cycle.made_of(part.held)}"
        else:
            return place
        return f"{front} {place}{'.items' * part.is_list}"

    def variant(self, kind, part):
        """What a variant of a layer is."""
        made = f"plain.{constructor(kind, part.name)}"
        if not part.held:
            return f"layer.{part.name}", f"plain.unattributed {made}"
        held = self.cycle.table.by_name[part.held]
        left = f"(layer.{part.name} s)"
        seen = "s" if self.cycle.has(part) else f"{self.cycle.view(part.held)} s"
        if self.cycle.views[part.held].plain == kind.name:
            return left, seen
        if not is_apart(held):
            return left, f"plain.block_statement {bracketed(seen)}"
        return left, f"plain.as_statement {made} {bracketed(seen)}"

    def step(self, kind):
        """One layer of a kind."""
        name, type_ = f"{snake(kind.name)}_step", self.fold.plain(kind.name)
        lines = [f"abbrev pub {name} : Layer layer.{kind.name}-F → {type_}"]
        if kind.form == "struct":
            values = {part.name: self.part(part) for part in self.cycle.parts(kind)}
            lines.append(f"{name} s = {self.cycle.made(kind, values)}")
        else:
            lines += [f"{name} {' = '.join(self.variant(kind, part))}"
                      for part in self.cycle.parts(kind)]
        return "\n".join([*lines, ""])

    def viewed(self):
        """A fold with these layers."""
        fold = self.fold
        makers = "".join(f"    → ({fold.layer(name, letter)})\n"
                         for name, letter in zip(fold.names, fold.letters))
        return (f"-- a fold with these layers\nabbrev pub viewed : {{R : {fold.bound} → Type 0}}\n"
                f"    → ({fold.bound}\n{makers}    → R {fold.all})\n    → Layer R\n"
                f"viewed fold = fold {fold.types()} {fold.steps()}\n")

    def view(self, kind):
        """A kind as plain data."""
        view = self.cycle.views[kind.name].name
        return (f"abbrev pub {view} : {kind.name} → {self.fold.plain(kind.name)}\n"
                f"{view} = viewed folds.fold-{kind.name}\n")

    def spanned(self):
        """A node with its span, and a list of them."""
        root = self.cycle.root.name
        node = f"{snake(root)}_node"
        type_, none, one = OWN[f"{root}*"]
        yield "-- with spans"
        yield (f"abbrev pub {node}_view : Spanned {root} → plain.{root}Node\n"
               f"{node}_view s = plain.{node} ({snake(root)}_view (spanned_node s)) "
               "(span_view (spanned_span s))\n")
        yield (f"abbrev pub {node}s_view : List (Spanned {root}) → plain.{type_}\n"
               f"{node}s_view [] = plain.{none}\n"
               f"{node}s_view (s ∷ ss) = plain.{one} ({node}_view s) ({node}s_view ss)\n")

    def text(self):
        """The file."""
        cycle, fold = self.cycle, self.fold
        kinds = [cycle.table.by_name[name] for name in fold.names]
        body = "\n".join([
            *self.nodes(), "-- a layer whose parts are plain data",
            f"abbrev pub Layer : ({fold.bound} → Type 0) → Type 0\nLayer F = F {fold.types()}\n",
            "-- one layer of each type", *map(self.step, kinds), self.viewed(),
            "-- each type: a fold of its layers", *map(self.view, kinds), *self.spanned()])
        others = {"Rattle.std.specs.Prelude": PRELUDE, **LIBRARY}
        head, blank, rest = cycle.file(
            f"{WRITTEN}: nodes as plain data.", body, SEEN, others, f"{STATEMENTS} as plain",
            f"{DECLARED}.TheOpen as layer", f"{DECLARED}.TheFolds as folds").partition("\n\n")
        return "\n".join([head, *self.passed_on()]) + blank + rest

    def passed_on(self):
        """Which variant a plain tree is, as a part of this module."""
        held = [part for part in self.cycle.parts(self.cycle.root) if part.held]
        names = [f"is_{snake(part.name)}" for part in held]
        for line in ghost_uses("wgsl_tree_statement.specs.VariantsNodes", names):
            yield "pub " + line.removeprefix("ghost ").removesuffix(";")


class Lemmas:
    """Writes what each view is of one layer, and of each variant."""

    def __init__(self, cycle):
        self.cycle, self.fold, self.views = cycle, Fold(cycle), Views(cycle)

    def for_views(self):
        """A law of all folds, for the folds that the views are."""
        fold = self.fold
        pairs = list(zip(fold.names, fold.letters))
        taken = "".join(f"    → ({fold.layer(name, letter)})\n" for name, letter in pairs)
        named = "".join(f"    (in_{letter} : {fold.layer(name, letter)})\n"
                        for name, letter in pairs)
        makers = " ".join(f"in_{letter}" for letter in fold.letters)
        return (f"abbrev pub for_views : {{R : {fold.bound}\n{taken}    → Type 0}}\n"
                f"    → ({fold.bound}\n{named}    → R {fold.all} {makers})\n"
                f"    → R {fold.types()} {fold.steps()}\n"
                f"for_views law = law {fold.types()} {fold.steps()}\n")

    def seen_nodes(self):
        """Spanned nodes, seen through their boxes."""
        root = self.cycle.root.name
        one, node = OWN[f"{root}*"][2], f"{snake(root)}_node"
        return (f"seen : Spanned {root} → Spanned plain.{root}\n"
                f"seen s = record {{ node = record {{ ptr = s.node.ptr; alloc = s.node.alloc; "
                f"value = {snake(root)}_view s.node.value }}; span = s.span }}\n\n"
                f"nodes_seen : (xs : List (Spanned {root})) → nodes_of (map seen xs) ≡ "
                f"{node}s_view xs\n"
                f"unfolding seen\nnodes_seen [] = refl\n"
                f"nodes_seen (s ∷ ss) = ap (plain.{one} ({node}_view s)) (nodes_seen ss)\n")

    def part(self, part, place):
        """A part of a layer as plain data."""
        seen = self.cycle.seen(part.held, place)
        if part.is_list and self.cycle.is_own(part):
            seen += ".items"
        shown = self.cycle.as_own(part.held, seen)
        if part.is_optional and self.cycle.is_own(part) and self.cycle.is_spanned(part):
            return f"{self.cycle.stem(part.held)}_view {place}"
        return f"plain.{shown}" if shown != seen else shown

    def whole(self, kind, front):
        """The plain tree of a layer whose parts are at a place."""
        return self.cycle.made(kind, {part.name: self.part(part, f"{front}{part.name}")
                                      for part in self.cycle.parts(kind)})

    def rolled(self, kind, view):
        """What the view of one layer is."""
        name, roll, fold = f"{snake(kind.name)}_roll", f"layers.roll-{kind.name}", \
            f"for_views folds.fold-roll-{kind.name}"
        if not self.cycle.split(kind):
            nodes = [part for part in self.cycle.parts(kind)
                     if part.is_list and self.cycle.is_own(part) and self.cycle.is_spanned(part)]
            values = {part.name: f"nodes_seen x.{part.name}.items i" if part in nodes
                      else self.part(part, f"x.{part.name}") for part in self.cycle.parts(kind)}
            more = f" ∙ (λ i. {self.cycle.made(kind, values)})" if nodes else ""
            unfold = "unfolding seen\n" if nodes else ""
            return (f"pub {name} : (x : Opened layer.{kind.name}-F)\n    → {view} ({roll} x) ≡ "
                    f"{self.whole(kind, 'x.')}\n{unfold}{name} x = {fold} x{more}\n")
        parts = self.cycle.parts(kind)
        taken = " ".join(f"({part.name} : {self.field_type(part)})" for part in parts)
        made = record({part.name: part.name for part in parts})
        lines = [f"pub {name} : {taken}\n    → {view} ({roll} ({made})) ≡ {self.whole(kind, '')}"]
        choices = [[None, f"one_{part.name}"] if self.cycle.is_own(part) and part.is_optional
                   else [part.name] for part in parts]
        for chosen in product(*choices):
            values = {part.name: "None" if it is None else f"Some {it}" if it != part.name else it
                      for part, it in zip(parts, chosen)}
            arguments = " ".join(map(bracketed, values.values()))
            lines.append(f"{name} {arguments} = {fold} ({record(values)})")
        return "\n".join([*lines, ""])

    def field_type(self, part):
        """The type of a field."""
        type_ = self.cycle.type(part.held)
        return f"Vec {type_.removeprefix('List ')} Global" if type_.startswith("List ") else type_

    def opened(self, kind, view):
        """What the view of a node is, from its layer."""
        name, out = snake(kind.name), f"layers.out-{kind.name} x"
        arguments = f"({out})"
        if self.cycle.split(kind):
            arguments = " ".join(f"({out}).{part.name}" for part in self.cycle.parts(kind))
        return (f"pub {name}_out : (x : {kind.name}) → {view} x ≡ {self.whole(kind, f'({out}).')}\n"
                f"{name}_out x = ap {view} (sym (layers.roll-out-{kind.name} x))"
                f" ∙ {name}_roll {arguments}\n")

    def variant(self, kind, part):
        """What the view of a variant is."""
        view, fold = self.cycle.views[kind.name].name, f"for_views folds.fold-roll-{kind.name}"
        unfold = f"unfolding roll-{kind.name} Carrier.roll\n"
        _, made = self.views.variant(kind, part)
        if not part.held:
            return (f"pub is_empty : {view} variant.{part.name} ≡ {made}\n{unfold}"
                    f"is_empty = {fold} layer.{part.name}\n")
        name = f"is_{snake(part.name)}"
        seen = f"{self.cycle.view(part.held)} x"
        made = made.removesuffix("(" + seen.replace(" x", " s") + ")").removesuffix(" s")
        made = f"{made.strip()} ({seen})" if made.strip() != self.cycle.view(part.held) else seen
        return (f"pub {name} : (x : {part.held}) → {view} (variant.{part.name} x) ≡ {made}\n"
                f"{unfold}{name} x = {fold} (layer.{part.name} x)\n")

    def rulesets(self):
        """The lemmas, for search."""
        cycle = self.cycle
        variants = cycle.parts(cycle.root)
        held = {part.held for part in variants}
        outs = [(kind.name in held, f"{snake(kind.name)}_out") for kind in cycle.structs
                if kind.parts[0][0] == "attributes"]
        yield "-- of a variant, for search"
        names = [f"is_{snake(part.name)}" if part.held else "is_empty" for part in variants]
        yield f"pub ruleset variants = ({', '.join(names)})\n"
        yield "-- of the layers that have attributes: those of variants, and the others"
        for name, is_held in [("layer_views", True), ("clause_views", False)]:
            names = [out for of_variant, out in outs if of_variant == is_held]
            yield f"pub ruleset {name} = ({', '.join(names)})\n"

    def text(self):
        """The file."""
        cycle, fold = self.cycle, self.fold
        body = ["-- a layer of the types themselves",
                f"abbrev pub Opened : ({fold.bound} → Type 0) → Type 0",
                f"Opened F = F {' '.join(fold.names)}\n",
                "-- a law of all folds, for the folds that the views are", self.for_views(),
                "-- a spanned node, seen through its box", self.seen_nodes()]
        for part in cycle.optional:
            if cycle.is_spanned(part):
                view = f"{cycle.stem(part.held)}_view"
                body.append(f"-- a node that may be left out\nabbrev pub {view} : "
                            f"{cycle.type(part.held)} → plain.{OWN[part.held][0]}\n{view} part = "
                            f"plain.{cycle.shown(part.held, 'part')}\n")
        for kind in cycle.structs:
            view = cycle.views[kind.name].name
            body += [self.rolled(kind, view), self.opened(kind, view)]
        variants = [self.variant(cycle.root, part) for part in cycle.parts(cycle.root)]
        body += ["-- of a variant", *variants, *self.rulesets()]
        uses = [f"{DECLARED}.{it}" for it in ("TheOpen as layer", "TheFolds as folds")]
        uses += [LAYERS, f"{DECLARED}.TheVariants as variant",
                 f"{DECLARED}.TheViews.{{roll-{ROOT}}}", "denote.Hole.Carrier as Carrier"]
        return cycle.file(f"{WRITTEN}: what each view is of one layer, and of each variant.",
                          "\n".join(body), [*SEEN, f"{CRATE}.specs.View"],
                          {COMMON: PRELUDE, **LIBRARY}, f"{STATEMENTS} as plain", *uses)


def record(values):
    """A record with these fields."""
    return f"record {{ {'; '.join(f'{name} = {value}' for name, value in values.items())} }}"


def main():
    cycle = Cycle(Table(), places())
    (FOLDER / "specs/View.antt").write_text(Views(cycle).text())
    (FOLDER / "proofs/Views.antt").write_text(Lemmas(cycle).text())
