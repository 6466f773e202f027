"""Which nodes belong together: by the module of their plain trees, by the crate that declares them,
and by what contains them. It reads crates/wgsl_model/nodes, the crates of the trees and the plain
trees of wgsl_model."""
import re

from node_specs import MODEL, cycle, types
from node_table import WORDS
from plain_trees import INLINE
from tree_nodes import places

# the modules of codes: what each has, and the module of its plain trees
MODULES = [("WordNodes", "Words", "NamedValues"), ("OperatorNodes", "Operators", "Operators"),
           ("ExpressionNodes", "Expressions and types", "Expressions"),
           ("AttributeNodes", "Attributes", "Attributes"),
           ("StatementNodes", "Statements", "Statements"), ("UnitNodes", "Modules", "Units")]


def held_by(kind):
    """The types that the fields or variants of a kind name."""
    return [] if kind.form == "words" else re.findall(r"\w+", " ".join(it for _, it in kind.parts))


def in_cycle(table, root):
    """The kinds that contain an enum and that it contains, in the order of the table."""
    names = cycle(table, root)
    return [kind.name for kind in table.kinds if kind.name in names]


def plain_modules(table):
    """The module of the plain tree of each kind; a kind without a type of its own there has that of
    the others of its crate."""
    at, declared = places(), types(MODEL)
    found = {kind.name: declared[kind.name].split(".")[-1] for kind in table.kinds
             if kind.name in declared}
    of_crate = {at[name].crate: module for name, module in found.items() if at[name].crate != WORDS}
    return {name: found.get(name) or of_crate[at[name].crate] for name in table.by_name}


def ranks(table):
    """The place of each kind among the definitions of plain trees, of words in the table; a variant
    without a type of its own there is before the next that has one."""
    words = {kind.name for kind in table.of_form("words")}
    names = [name for name in types(MODEL) if name not in words]
    rank = {name: (at, 0) for at, name in enumerate(names)}
    for kind in table.of_form("enum"):
        after = (len(names), 0)
        for _, held in reversed(kind.parts):
            if held in table.by_name and held not in {*rank, *words}:
                rank[held] = (after[0], after[1] - 1)
            after = rank.get(held, after)
    return {it.name: rank.get(it.name, (len(names), at)) for at, it in enumerate(table.kinds)}


def by_module(table):
    """The kinds of each module of codes in the order of the definitions of their plain trees, each
    but those of the cycle of expressions after what it holds."""
    module, rank, order = plain_modules(table), ranks(table), {}
    expressions = in_cycle(table, "Expression")

    def visit(name):
        if name not in order:
            order[name] = None
            for held in held_by(table.by_name[name]) if name not in expressions else []:
                if module.get(held) == module[name]:
                    visit(held)
            order[name] = order.pop(name)

    for name in sorted(module, key=rank.get):
        visit(name)
    return {codes: [it for it in order if module[it] == plain and it not in INLINE]
            for codes, _, plain in MODULES}
