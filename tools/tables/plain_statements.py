"""How statements are made of their parts and changed, as plain_nodes.py writes it."""
from plain_files import comment, spoken
from plain_trees import CONSTRUCTED, OWN, constructor, maker, short
from plain_types import doc_of, parts_of, type_of

# what a change does to the parts in which there are no statements, by their types
CHANGED = {"Attribute*": "attributes", "Expression": "expression", "Expression?": "condition",
           "CaseSelector*": "selectors", "BreakIfStatement?": "break_if"}
CHANGE = """\
-- a change: what is done to the parts without statements, and which statements lists leave out
pub record Change : Type 0 where
  pub attributes : Attributes → Attributes
  pub expression : ExpressionNode → ExpressionNode
  -- an expression that may be left out, as the condition of a `for`
  pub condition : Option ExpressionNode → Option ExpressionNode
  pub selectors : List CaseSelector → List CaseSelector
  pub break_if : Option (Attributed BreakIfStatement) → Option (Attributed BreakIfStatement)
  -- a statement in which there are no others
  pub simple : UnattributedStatement → UnattributedStatement
  pub span : Span → Span
  pub leaves_out : StatementNode → Bool

-- statements after a change
abbrev mutual
"""
NODES = """\
pub changed_statement : Change → Statement → Statement
changed_statement c (statement attributes s) =
    statement (c.attributes attributes) (changed_unattributed c s)

pub changed_node : Change → StatementNode → StatementNode
changed_node c (statement_node s span) = statement_node (changed_statement c s) (c.span span)
"""


def of_several(table, held):
    """What makes a list or an optional part that has a type of its own."""
    (type_, none, one), name, inner = OWN[held], maker(held), held[:-1]
    doc = f"{spoken(inner)}, or none"
    part = f"({maker(inner)} x)" if inner in OWN else "x"
    clauses = [("None", none), ("(Some x)", f"{one} {part}")]
    if held.endswith("*"):
        doc = f"the {spoken(held)} of a list"
        clauses = [("[]", none), ("(x ∷ xs)", f"{one} x ({name} xs)")]
    return [f"-- {doc}", f"abbrev pub {name} : {type_of(table, held)} → {type_}",
            *(f"{name} {pattern} = {made}" for pattern, made in clauses), ""]


def variables(kind):
    """The parts of a struct by names that are not constructors, with the types of their fields."""
    taken = {made.split()[0] for made in CONSTRUCTED.values()}
    return {f"its_{name}" if name in taken else name: held for name, held in parts_of(kind).items()}


def of_parts(table, name, kind):
    """What makes a statement of its parts."""
    parts = variables(kind)
    types = " → ".join(type_of(table, held) for held in parts.values())
    fields = "; ".join(map(" = ".join, zip(parts_of(kind), parts)))
    made = f"record {{ {fields} }}"
    if kind.name in CONSTRUCTED:
        made = " ".join([CONSTRUCTED[kind.name].split()[0], *(
            f"({maker(held)} {part})" if held in OWN else part for part, held in parts.items())])
    function = f"{short(kind.name)}_of"
    made = f"{constructor(table.by_name['Statement'], name)} ({made})"
    return [*comment(doc_of(kind)), f"abbrev pub {function} : {types} → UnattributedStatement",
            f"{function} {' '.join(parts)} = {made}", ""]


def makers(table, by_hand):
    """What makes the statements of their parts, but for those that are made by hand."""
    for name, held in table.by_name["Statement"].parts:
        kind = table.by_name.get(held)
        if kind and parts_of(kind) and f"{short(held)}_of" not in by_hand:
            yield from of_parts(table, name, kind)


def change(held):
    """What changes a value of a type."""
    if held in CHANGED:
        return f"c.{CHANGED[held]}"
    name = "node" if held == "Statement" else short(OWN[held][0] if held in OWN else held)
    return f"changed_{name} c"


def changed(name, type_, clauses):
    """The function that changes the trees of a type."""
    name = f"changed_{short(name)}"
    return [f"pub {name} : Change → {type_} → {type_}",
            *(f"{name} c {pattern} = {made}" for pattern, made in clauses), ""]


def changed_variants(table):
    """The change of a statement after its attributes: of those that hold no others at once."""
    clauses = []
    for name, held in table.by_name["Statement"].parts:
        made = constructor(table.by_name["Statement"], name)
        if held in CONSTRUCTED:
            inner = "Statement*" if held == "CompoundStatement" else held
            clauses.append((f"({made} x)", f"{made} ({change(inner)} x)"))
    return changed("UnattributedStatement", "UnattributedStatement",
                   [*clauses, ("s", "c.simple s")])


def changed_struct(kind):
    """The change of a struct."""
    made, parts = CONSTRUCTED[kind.name].split()[0], variables(kind)
    values = [f"({change(held)} {name})" for name, held in parts.items()]
    return changed(kind.name, kind.name,
                   [(f"({' '.join([made, *parts])})", " ".join([made, *values]))])


def changed_several(held):
    """The change of a list or an optional part."""
    type_, none, one = OWN[held]
    made = f"{one} ({change(held[:-1])} x)"
    if held.endswith("?"):
        return changed(type_, type_, [(none, none), (f"({one} x)", made)])
    if held == "Statement*":
        rest = f"{change(held)} ss"
        made = f"if c.leaves_out s then {rest}\n    else {one} ({change('Statement')} s) ({rest})"
        return changed(type_, type_, [(none, none), (f"({one} s ss)", made)])
    made = f"{made} ({change(held)} xs)"
    return changed(type_, type_, [(none, none), (f"({one} x xs)", made)])


def changes(table, structs, lists):
    """A change, and what is changed by it."""
    lines = [*NODES.splitlines(), "", *changed_variants(table)]
    lines += [line for kind in structs for line in changed_struct(kind)]
    lines += [line for held in lists for line in changed_several(held)]
    return [*CHANGE.splitlines(), *mutual(lines)]


def mutual(lines):
    """Lines in a block of definitions that name one another."""
    return [f"  {line}" if line else "" for line in "\n".join(lines).split("\n")]
