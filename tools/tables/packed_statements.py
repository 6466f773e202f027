"""Writes the functions of wgsl_tree_packed that write the packed forms of statements, and which of
these a `;` ends.

By hand, each statement would be in one more file, in two if no `;` ends it.
"""
import re
from dataclasses import replace
from pathlib import Path

import inputs
from antt import enclosed
from cycle_parts import Cycle
from node_table import Table, snake
from packed_equations import ROOT, Equations
from plain_trees import constructor, is_apart, short
from tree_nodes import places

READS = (inputs.NODES, inputs.TREES, inputs.SOURCES, inputs.VIEWS,
         "crates/wgsl_model_packed/specs/Statements.antt", "crates/wgsl_tree_packed/src/*.rt")
WRITES = ("crates/wgsl_tree_packed/src/statement.rt", "crates/wgsl_tree_packed/specs/Ended.antt")

CRATE = Path("crates/wgsl_tree_packed")
TREES = "Rattle.wgsl_model.specs.Trees"
MINE = "Rattle.wgsl_tree_packed.specs"
VIEW = "Rattle.wgsl_tree_statement.specs.View"
PACKED = "Rattle.wgsl_model_packed.specs"
BY = "Written by tools/tables/packed_statements.py from the equations of packed forms"
# how many columns an arm has, without those before it
WIDTH = 92
# how many columns a form has in a line of a clause
LONGEST = 85
# the files whose functions are called
CALLED = ["attribute", "expression", "rules", "simple", "text", "traits"]
# what one call writes of several parts
TOGETHER = {("rule", "attribute_line", "expression_node"): "on_expression",
            ("rule", "attribute_line"): "attributed", ("rule", "span"): "placed"}
STATEMENT = """\
/// Writes the packed form of a statement, with the `;` that ends it.
#[cycle(statements)]
pub fn pack_statement(node: &Statement, out: &mut Vec<u8>) -> Result<(), AllocError>
    ensures { OnOk result (out.new.items
        ≡ out.old.items ++ packed_statement (statement_view node.now)) }
{
    if !is_ended(node) {
        return pack_unended(node, out);
    }
    pack_rule(ENDED, out)?;
    pack_unended(node, out)
}
"""
IS_ENDED = """\
/// Returns whether a `;` ends a statement.
fn is_ended(node: &Statement) -> bool
    ensures { result ≡ is_ended (statement_view node.now) }
{
"""
UNENDED = """\
/// Writes the packed form of a statement, without the `;` that ends it.
#[cycle(statements)]
fn pack_unended(node: &Statement, out: &mut Vec<u8>) -> Result<(), AllocError>
    ensures { OnOk result (out.new.items
        ≡ out.old.items ++ packed_unended (statement_view node.now)) }
{
"""
BLOCK = """\
/// Writes a block: its attributes, what is in it, and the rule that ends it, one if a statement
/// other than `;` is in it, and one if not.
#[cycle(statements)]
fn pack_block(
    some: u8,
    none: u8,
    node: &CompoundStatement,
    out: &mut Vec<u8>,
) -> Result<(), AllocError>
    ensures { OnOk result (out.new.items
        ≡ out.old.items ++ packed_block some none (compound_statement_view node.now)) }
{
    pack_attributed(BLOCK, &node.attributes, out)?;
    let mut end = none;
    'statements: for item in &node.statements {
        if item.node().is_void() {
            pack_placed(VOID_ITEM, item.span(), out)?;
            continue;
        }
        pack_placed(ITEM, item.span(), out)?;
        pack_statement(item.node(), out)?;
        end = some;
    }
    pack_rule(end, out)
}

/// Writes the packed form of a block.
#[cycle(statements)]
pub fn pack_compound(node: &CompoundStatement, out: &mut Vec<u8>) -> Result<(), AllocError>
    ensures { OnOk result (out.new.items
        ≡ out.old.items ++ packed_compound (compound_statement_view node.now)) }
{
    pack_block(BLOCK_END, EMPTY_END, node, out)
}
"""
END_OF_CLAUSES = """\
/// Returns the rule that ends the clauses of a `switch`.
fn end_of_clauses(clauses: &Vec<SwitchClause>) -> u8
    ensures { result ≡ end_of_clauses (clauses_of (map switch_clause_view clauses.now.items)) }
{
    if clauses.as_slice().is_empty() {
        EMPTY_END
    } else {
        BLOCK_END
    }
}
"""


def listed(names):
    """Names as an import lists them."""
    return ", ".join(sorted(set(names)))


def spanned(cycle, name):
    """The type of a kind, with its span if it has one."""
    return f"{name}Node" if cycle.table.by_name[name].is_spanned else name


def place(field, node):
    """The argument for a field. A whole node is a reference, and so is what is called on one."""
    if not field:
        return node
    return f"{node}.{field}" if field.endswith("()") else f"&{node}.{field}"


def call(function, parts, node):
    """The call that writes parts."""
    arguments = []
    for part in parts:
        arguments += part.rules
        arguments += [] if part.field is None else [place(part.field, node)]
    return f"pack_{function}({', '.join([*arguments, 'out'])})"


def front(parts):
    """The function that writes the first parts, and how many these are."""
    functions = [part.function for part in parts]
    for together, function in TOGETHER.items():
        if functions[:len(together)] == [*together]:
            return function, len(together)
    return functions[0], 1


def loop(equations, part):
    """What writes a list, each item after a rule, and the rule after them."""
    held, field = equations.own[part.function], place(part.field, "node")
    items = "".join(f"{it}?; " for it in calls(equations, equations.of_one(held), "item"))
    [end] = [f"{it}({field})" for it in part.given] or equations.of_none(held).rules
    return f"'{part.field}: for item in {field} {{ {items}}} pack_rule({end}, out)"


def calls(equations, parts, node="node"):
    """What writes parts, one after another."""
    if parts[-1].function == "end_of":
        return [call("block", [replace(parts[-1], field="")], node)]
    found = []
    while parts:
        function, count = front(parts)
        is_list = equations.own.get(function, "").endswith("*")
        found.append(loop(equations, parts[0]) if is_list else call(function, parts[:count], node))
        parts = parts[count:]
    return found


def body(found):
    """Calls, each of which may fail."""
    return "?; ".join(found)


def ended(equations):
    """The function that says whether a `;` ends a statement."""
    arms = {False: [], True: []}
    for name, held in equations.root.parts:
        arms[equations.is_ended(name)].append(f"{ROOT}::{name}{'(_)' if held else ''}")
    arms = "".join(f"{' | '.join(those)} => {str(it).lower()}, " for it, those in arms.items())
    return f"{IS_ENDED}match node {{ {arms} }} }}\n"


def unended(equations):
    """The function that writes a statement: at once, if one call does."""
    arms = ""
    for name, held in equations.root.parts:
        parts = equations.of_variant(name)
        if not held:
            rule = call("rule", parts[:1], "")
            arms += f"{ROOT}::{name} => {{ {rule}?; pack_rule(NOTHING, out) }}"
            continue
        found = calls(equations, parts, "inner")
        written = found[0] if len(found) == 1 else f"pack_{short(held)}(inner, out)"
        arm = f"{ROOT}::{name}(inner) => {written},"
        arms += arm if len(arm) <= WIDTH else f"{ROOT}::{name}(inner) => {{ {written} }}"
    return f"{UNENDED}match node {{ {arms} }} }}\n"


def function(equations, name, parameter, type_, form, made):
    """A function of the cycle, whose clause says the form that it writes."""
    doc = f"/// Writes {equations.comments[name]}.\n" if name in equations.comments else ""
    if len(form) > LONGEST:
        form = form.replace(" (", "\n        (", 1)
    return (f"{doc}#[cycle(statements)]\n"
            f"fn pack_{name}({parameter}: &{type_}, out: &mut Vec<u8>) -> Result<(), AllocError>\n"
            f"    ensures {{ OnOk result (out.new.items ≡ out.old.items\n        ++ {form}) }}\n"
            f"{{\n{made}\n}}\n")


def of_struct(equations, name, kind):
    """The function that writes a struct: all of a statement, and of another what its own gives."""
    view = f"({snake(kind.name)}_view node.now)"
    form, parts = f"packed_{name} {view}", equations.of_struct(kind, name)
    if is_apart(kind):
        [variant] = [it for it, held in equations.root.parts if held == kind.name]
        form = f"packed_unended_of plain.{constructor(equations.root, variant)} {view}"
        parts = equations.of_variant(variant)
    return function(equations, name, "node", kind.name, form, body(calls(equations, parts)))


def of_optional(equations, cycle, name, held):
    """The function that writes what may be left out."""
    node, none = spanned(cycle, held[:-1]), call("rule", [equations.of_none(held)], "")
    found = body(calls(equations, equations.of_one(held)))
    form = f"packed_{name} ({cycle.made_of(held)} (option_map {snake(node)}_view part.now))"
    return function(equations, name, "part", f"Option<{node}>", form,
                    f"match part {{ None => {none}, Some(node) => {{ {found} }} }}")


def functions(equations, cycle):
    """The functions of the cycle and those that they call, but for those of other files."""
    names = [kind.name for kind in cycle.kinds]
    yield from [STATEMENT, ended(equations), unended(equations), BLOCK]
    for name, type_ in equations.functions():
        held = equations.own.get(name, "")
        if type_ in names and type_ != ROOT and name != "compound":
            yield of_struct(equations, name, equations.by_name[type_])
        elif held.endswith("?"):
            yield of_optional(equations, cycle, name, held)
        elif name == "clauses":
            yield END_OF_CLAUSES


def called(file, words):
    """What imports the functions and constants of a file that are named."""
    text = (CRATE / f"src/{file}.rt").read_text()
    names = re.findall(r"^pub (?:const|fn) (\w+)", text, re.M)
    return f"crate::{file}::{{{listed(set(names) & words)}}}"


def source(equations, cycle):
    """The text of statement.rt."""
    text = "\n".join(functions(equations, cycle))
    words = set(re.findall(r"\w+", text))
    own = {"packed_block", "packed_unended_of"}
    forms = {it for it in words if it.startswith("packed_")} - own
    makers = [it for it in (cycle.made_of(part.held) for part in cycle.own_parts) if it in words]
    views = {it for it in words if it.endswith("_view")}
    ghosts = ["Rattle.std.specs.Prelude.{◌≡◌, ◌++◌, map, OnOk}",
              "Rattle.std.specs.Option.{option_map}", f"{TREES}.Statements as plain",
              f"{TREES}.Statements.{{{listed(makers)}}}",
              f"{PACKED}.Statements.{{{listed(['end_of_clauses', *forms])}}}",
              f"{MINE}.Ended.{{is_ended}}",
              f"{MINE}.Statements.{{{listed(own)}}}",
              f"{VIEW}.{{{listed(views)}}}"]
    types = words & {name for it in cycle.kinds for name in (it.name, spanned(cycle, it.name))}
    uses = [*(called(file, words) for file in CALLED), "std::alloc::AllocError",
            f"wgsl_tree_statement::{{{listed(types)}}}"]
    return "\n".join([f"//! {BY}: statements.",
                      "#![tactic(auto, using(wgsl_tree_statement::proofs::Views::variants))]", "",
                      *(f"ghost use {it};" for it in ghosts), "", *(f"use {it};" for it in uses),
                      "", text])


def definition(equations):
    """The definition that says which statements a `;` ends."""
    unended = list(equations.unended())
    names = ["Statement", "statement", *(pattern.split()[0] for pattern in unended)]
    return "\n".join([
        f"-- {BY}: which statements a `;` ends.",
        "use Rattle.std.specs.Prelude.{Bool, true, false}",
        f"use {TREES}.Statements.{{{', '.join(names)}}}", "", "-- a `;` ends a statement",
        f"abbrev pub is_ended : {ROOT} → Bool",
        *(f"is_ended (statement attributes {enclosed(it)}) = false" for it in unended),
        "is_ended s = true", ""])


def main():
    table = Table()
    equations, cycle = Equations(table), Cycle(table, places())
    (CRATE / "src/statement.rt").write_text(source(equations, cycle))
    (CRATE / "specs/Ended.antt").write_text(definition(equations))
