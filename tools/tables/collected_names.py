"""Writes the functions of wgsl_tree_names that collect the names of a node, from its end to its
start, each from what the definitions say of it, and the invariants of their loops.

It reads crates/wgsl_model/nodes, the views of the crates, and Names of wgsl_model_names. The proof
of a kind cites its lemma `.._before` of proofs/Blocks, if it has one: where a scope is more or less
than a block. The names of expressions are collected by hand. By hand, each statement would be in
one more file.
"""
import re
from pathlib import Path

import goals
import inputs
from cycle_parts import COMMON, STATEMENTS, Cycle, Part
from name_steps import Said
from names_defined import PLAIN, clauses_in, uses
from node_table import TABLE, Table, snake
from plain_trees import constructor, is_apart, short
from tree_nodes import ghost_uses, places

READS = (inputs.NODES, inputs.TREES, inputs.NAMES, inputs.SOURCES, inputs.VIEWS,
         "crates/wgsl_tree_names/proofs/Blocks.antt", "crates/wgsl_tree_names/specs/Found.antt")
WRITES = ("crates/wgsl_tree_names/src/*_nodes.rt",
          "crates/wgsl_tree_names/proofs/statement_nodes/+statements/Invariants.antt")

CRATE = Path("crates/wgsl_tree_names")
HERE = "Rattle.wgsl_tree_names"
TREES = "wgsl_model.specs.Trees"
NAMES = "wgsl_model_names.specs.Names"
WRITTEN = f"Written by tools/tables/collected_names.py from {TABLE}"
# what is collected in a file by hand
APART = ["TranslationUnit"]
# what the functions use that is by hand, and `put_compound`: its module, and how it is used
USED = {"AllocError": ["std::alloc"], "Collected": ["crate::collected"],
        "Kind": ["crate::collected"], "Occurrence": ["crate::collected"],
        "Named": ["crate::named", ".put_names("], "put_declared": ["crate::declared"],
        "put_call": ["crate::expression"], "put_expression": ["crate::expression"],
        "put_unknown": ["crate::expression"], "put_compound": ["crate::statement_nodes"],
        "put_declared_parameters": ["crate::unit"]}
# the enums whose variants declare names: what says which, what says it with the attributes, and
# what the functions are named by
DECLARING = {"Statement": ("name_declared", "statement_declared", "declared_statement"),
             "GlobalDeclaration": ("global_name", "global_declared", "declared_global")}
GIVEN = "found: &mut Collected<'t>) -> Result<(), AllocError>"


def laid(pattern, body):
    """An arm of a `match`, in braces where it has several calls or is too long for a line."""
    arm = f"{pattern} => {body},"
    return f"{pattern} => {{ {body} }}" if "?;" in body or len(pattern) < 80 < len(arm) - 8 else arm


class Collects:
    """Writes the functions of the nodes of a crate."""

    def __init__(self, table, crate, at, cycle):
        self.table, self.crate, self.at, self.cycle = table, crate, at, cycle
        self.said = Said(table)
        self.defined = self.said.defined
        lemmas = (CRATE / "proofs/Blocks.antt").read_text()
        self.lemmas = re.findall(r"^pub (\w+)_before :", lemmas, re.M)
        self.kinds = [kind for kind in table.kinds
                      if self.home(kind) == crate and kind.name not in APART]

    def home(self, kind):
        """The crate whose file has the function of a kind: of a word, that of declarations."""
        is_word = kind.form == "words" and self.defined.of_type(kind.name)
        return "simple" if is_word else self.at[kind.name].crate

    def held(self, kind, place):
        """The type of what is at a place in a node."""
        for name in filter(None, place.split(".")):
            kind, held = self.table.by_name.get(dict(kind.parts)[name]), dict(kind.parts)[name]
        return held

    def put(self, kind, step, node):
        """What puts a step before what was collected."""
        place = ".".join(filter(None, [node, step.place]))
        if step.what in ("start", "end"):
            return f"found.put(Occurrence::Scope{step.what.capitalize()})"
        if step.what == "use":
            return f"found.put(Occurrence::Use({place}.name()))"
        if step.what == "unknown":
            return f"put_unknown(&{place}, found)"
        if step.what == "all":
            return f"put_declared_parameters(&{place}, found)"
        held = self.held(kind, step.place) if node and step.place else ""
        if held and self.cycle.has(Part("", held)):
            return f"put_{self.cycle.stem(held)}(&{place}, found)"
        if held == "FunctionCall":
            return f"put_call(&{place}, Kind::Use, found)"
        return f"{place}.put_names(found)"

    def body(self, kind, steps, node):
        """What collects the names of some steps, the last first."""
        calls = [self.put(kind, step, node) for step in reversed(steps)]
        return "?; ".join(calls)

    def arm(self, kind, name, held):
        """What collects the names of what a variant holds, and the pattern of that."""
        made, struct = constructor(kind, name), self.table.by_name.get(held)
        if held.startswith("("):
            return self.template(kind, made)
        if kind.name == "Attribute":
            return "inner", self.argument(made, held, struct)
        if held and self.cycle.has(Part("", held)) and self.crate == "statement":
            return "inner", f"put_{self.cycle.stem(held)}(inner, found)"
        if struct and struct.form == "struct":
            return "inner", self.body(struct, self.said.of_variant(kind, made, struct), "inner")
        return "inner", held and "inner.put_names(found)"

    def template(self, kind, made):
        """That of an optional pair, whose parts are named as in the definition."""
        clause = self.defined.clause(self.defined.of_type(kind.name), made)
        steps = self.said.of_clause(clause, kind)
        return f"Some(({', '.join(step.place for step in steps)}))", self.body(kind, steps, "")

    def argument(self, made, held, struct):
        """That of an attribute, if there are names of the module in it."""
        if held == "Expression":
            right = self.defined.argument("attribute_names", made)
            return ("put_expression(inner, Kind::Unknown, found)" if "unknown" in right
                    else "inner.put_names(found)")
        if struct and self.defined.clause("attribute_names", short(held)):
            return self.body(struct, self.said.steps(struct), "inner")
        return ""

    def enum(self, kind, node):
        """What collects the names of an enum by its variant."""
        arms, without = {}, []
        for name, held in kind.parts:
            full = f"{kind.name}::{name}"
            inner, body = self.arm(kind, name, held)
            if body:
                arms.setdefault((held, body), []).append(f"{full}({inner})")
            if not body:
                without.append(f"{full}(_)" if held else full)
            elif inner != "inner":
                without.append(f"{full}(None)")
        texts = [laid(" | ".join(patterns), body) for (_, body), patterns in arms.items()]
        texts += [f"{' | '.join(without)} => Ok(()),"] * bool(without)
        return f"match {node} {{ {' '.join(texts)} }}"

    def words(self, kind):
        """What collects the word of a value."""
        arms = " ".join(f'{kind.name}::{name} => "{word}",' for name, word in kind.parts)
        return f"found.put(Occurrence::Use(match self {{ {arms} }}))"

    def implemented(self, kind):
        """What collects the names of the values of a type."""
        plain, name, node = f"plain.{kind.name}", kind.name, "self"
        if kind.form == "words":
            plain, view, body = f"plain_value.{name}", f"{snake(name)}_view", self.words(kind)
        else:
            view = self.cycle.views[name].name
        if kind.is_spanned:
            plain, view, node = f"Spanned {plain}", f"spanned_view {view}", "self.node()"
            name = f"{name}Node"
        elif is_apart(kind):
            plain = f"Attributed {plain}"
        if kind.form != "words":
            body = self.collected(kind, node)
        ghosts = (("Plain", plain), ("view", view), ("names", self.said.names(kind)))
        lines = "".join(f"    ghost {what} = {{ {it} }};\n\n" for what, it in ghosts)
        return (f"impl Named for {name} {{\n{lines}"
                f"    fn put_names<'t>(&'t self, {GIVEN} {{\n{body}\n}}\n}}\n")

    def collected(self, kind, node):
        """What collects the names of a node."""
        if kind.form == "enum":
            return self.enum(kind, node)
        return self.body(kind, self.said.steps(kind), node)

    def function(self, name, given, names, body, mark="#[cycle(statements)]\n"):
        """A function that collects names."""
        return (f"{mark}fn put_{name}<'t>({given}, {GIVEN}\n"
                f"    ensures {{ IfOk result (λ _. Collects\n        ({names})\n"
                f"        found.old found.new) }}\n{{ {body} }}\n")

    def in_cycle(self, kind):
        """The function of a node of the kinds that contain each other."""
        stem, view = self.cycle.stem(kind.name), self.cycle.views[kind.name].name
        mark = "#[cycle(statements)]\n"
        if stem in self.lemmas:
            mark += f"#[tactic(auto, using(crate::proofs::Blocks::{stem}_before))]\n"
        mark += "pub(crate) " * (kind.name == "CompoundStatement")
        body = self.collected(kind, "node")
        if kind.name in DECLARING:
            body = f"put_{DECLARING[kind.name][2]}(node, found)?; {body}"
        return self.function(stem, f"node: &'t {kind.name}",
                             f"{self.said.names(kind)} ({view} node.now)", body, mark)

    def own_names(self, part, place):
        """The names of a list or of a part that may be left out."""
        return f"{self.cycle.stem(part.held)}_names ({self.cycle.shown(part.held, place)})"

    def own_function(self, part):
        """The function of a list or of a part that may be left out."""
        is_spanned, item = self.cycle.is_spanned(part), self.cycle.node(part)
        node, stem = ".node()" * is_spanned, self.cycle.stem(part.item)
        if part.is_list:
            place = f"nodes[i]{node}" if is_spanned else "&nodes[i]"
            body = (f"'nodes: for i in (0..nodes.len()).rev() {{ put_{stem}({place}, found)?; }} "
                    "Ok(())")
            return self.function(self.cycle.stem(part.held), f"nodes: &'t Vec<{item}>",
                                 self.own_names(part, "nodes.now.items"), body)
        body = f"match part {{ None => Ok(()), Some(part) => put_{stem}(part{node}, found), }}"
        return self.function(self.cycle.stem(part.held), f"part: &'t Option<{item}>",
                             self.own_names(part, "part.now"), body)

    def declared(self, kind):
        """The function that collects what a statement or a declaration of a module declares."""
        named, names, stem = DECLARING[kind.name]
        arms, is_global = [], kind.name == "GlobalDeclaration"
        for name, held in filter(lambda it: it[1], kind.parts):
            clause = self.defined.clause(named, constructor(kind, name))
            some = clause and re.fullmatch(r"Some \w+\.(\w+)", " ".join(clause[1]))
            ident = f"Some(inner.{some[1]}.name())" if some else "None"
            arms.append(laid(f"{kind.name}::{name}(inner)",
                             f"put_declared(&inner.attributes, {ident}, found)"))
        without = " | ".join(f"{kind.name}::{name}" for name, held in kind.parts if not held)
        node, view = "node" + ".node()" * is_global, self.cycle.views[kind.name].name
        return self.function(stem, f"node: &'t {kind.name}{'Node' * is_global}",
                             f"{names} ({'spanned_view ' * is_global}{view} node.now)",
                             f"match {node} {{ {' '.join(arms)} {without} => Ok(()), }}",
                             "pub(crate) " * is_global)

    def functions(self):
        """The functions of a crate."""
        for kind in self.kinds:
            if self.cycle.has(Part("", kind.name)):
                yield self.in_cycle(kind)
            elif self.crate == "attribute" and kind.form == "struct":
                continue
            elif kind.form != "struct" or self.said.of_struct(kind):
                yield self.implemented(kind)
            if kind.name in DECLARING:
                yield self.declared(kind)
        if self.crate == "statement":
            yield from map(self.own_function, self.cycle.own_parts)

    def heads(self, code):
        """The definitions that the clauses name."""
        text, words = clauses_in(code)
        yield from ghost_uses("std.specs.Option", ["option_map"] * ("option_map" in words))
        prelude = [it for it in ("IfOk", "map") if it in words]
        yield from ghost_uses("std.specs.Prelude", prelude)
        for name in ("Attributed", "Spanned"):
            yield from ghost_uses(f"{TREES}.{name}", [name] * (name in words))
        if "plain_value" in words:
            yield f"ghost use Rattle.{TREES}.NamedValues as plain_value;"
        if "plain" in words:
            yield f"ghost use Rattle.{TREES}.{PLAIN[self.crate]} as plain;"
        makers = {self.cycle.made_of(part.held) for part in self.cycle.own_parts} & words
        yield from ghost_uses(f"{TREES}.Statements", sorted(makers))
        yield from ghost_uses(NAMES, [it for it in self.defined.types if it in words])
        yield from ghost_uses("wgsl_model_names.specs.Scopes", ["◌then◌"] * (" then " in text))
        yield from ghost_uses("wgsl_span.specs.View", ["spanned_view"] * ("spanned_view" in words))
        of_words = [f"{snake(kind.name)}_view" for kind in self.kinds if kind.form == "words"]
        views = {it for it in words if it.endswith("_view")} - {"spanned_view", *of_words}
        yield from ghost_uses(f"wgsl_tree_{self.crate}.specs.View", sorted(views))
        yield from ghost_uses("wgsl_tree_words.specs.View", of_words)
        for file, names in (("Attributed", ["attributed", "statement_declared"]),
                            ("Found", ["Collects"])):
            yield from ghost_uses(f"wgsl_tree_names.specs.{file}",
                                  [name for name in names if name in words])

    def code(self):
        """The file of the functions."""
        text = "\n".join(self.functions())
        return "\n".join([f"//! {WRITTEN}: names of nodes.", "", *self.heads(text), "",
                          *uses(text, self.crate, self.at, USED), "", text])

    def invariants(self):
        """The invariants of the loops: what is put are the last items."""
        def invariant(part):
            names = self.own_names(part, "(drop l.i l.nodes.items)")
            return (goals.invariant(f"put_{self.cycle.stem(part.held)}", "nodes"),
                    f"Collects ({names}) l.fn.found l.found")

        modules = [STATEMENTS, f"Rattle.{NAMES}", "Rattle.wgsl_tree_statement.specs.View",
                   f"{HERE}.specs.Found"]
        return self.cycle.invariants(f"{WRITTEN}.", invariant, modules, {COMMON: ["drop", "map"]},
                                     f"{HERE}.proofs.statement_nodes.+statements")


def main():
    table, at = Table(), places()
    cycle = Cycle(table, at)
    for crate in PLAIN:
        collects = Collects(table, crate, at, cycle)
        (CRATE / f"src/{crate}_nodes.rt").write_text(collects.code())
        if crate == "statement":
            folder = CRATE / "proofs/statement_nodes/+statements"
            folder.mkdir(parents=True, exist_ok=True)
            (folder / "Invariants.antt").write_text(collects.invariants())
