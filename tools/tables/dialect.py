"""Writes the rules of the languages that are recognised, each in the form in which one token
decides, as steps over tokens: the language that is parsed, without its checks, and the smaller one
of `recognize_str`. The rules that are the same in both are written once.
"""
import re
import textwrap
from pathlib import Path

import goals
import inputs
import token_table
from goals import c, proof
from tables import DIALECTS, Tables, rules

READS = (inputs.TOKENS, inputs.FACTORED)
WRITES = ("crates/wgsl_read_dialect/src/[!dlw]*.rt", "crates/wgsl_read_dialect/specs/Symbols.antt",
          "crates/wgsl_read_dialect/proofs/rules/*/Answers.antt")

CRATE = Path("crates/wgsl_read_dialect")


class Steps:
    """The steps of right sides, each a tuple, with the sets of the tables in their order."""

    def __init__(self, tables, place):
        self.tables = tables
        self.place = place

    def begins(self, g):
        if g.kind == "symbol":
            return sorted(self.tables.first[g.data], key=self.place.get)
        if g.kind in ("empty", "token"):
            return list(g.data or ())
        sets = list(map(self.begins, g.parts))
        if g.kind == "choice":
            return sets[0] + sets[1]
        if g.kind in ("sequence", "left_chain") and self.tables.nullable(g.parts[0]):
            return sets[0] + sets[1]
        return sets[0]

    def of(self, g):
        if g.kind == "empty":
            return []
        if g.kind == "token":
            return [("Token", list(g.data))]
        if g.kind == "symbol":
            return [("Symbol", g.data)]
        if g.kind == "sequence":
            return self.of(g.parts[0]) + self.of(g.parts[1])
        if g.kind == "choice":
            return [("Choice", self.begins(g.parts[0]), self.of(g.parts[0]), self.of(g.parts[1]))]
        if g.kind == "left_chain":
            return self.of(g.parts[0]) + [("Repeat", self.begins(g.parts[1]), self.of(g.parts[1]))]
        return self.of(g.parts[0])


def symbols_in(steps):
    for step in steps:
        if step[0] == "Symbol":
            yield step[1]
        if step[0] in ("Choice", "Repeat"):
            for part in step[2:]:
                yield from symbols_in(part)


def kinds_in(steps):
    for step in steps:
        yield step[0]
        if step[0] in ("Choice", "Repeat"):
            for part in step[2:]:
                yield from kinds_in(part)


def reached(found, start):
    """The symbols that the steps of a symbol lead to."""
    seen, waiting = set(), [start]
    while waiting:
        n = waiting.pop()
        if n not in seen:
            seen.add(n)
            waiting += symbols_in(found[n])
    return seen


# the symbol whose steps include those of each symbol in it: the statements that end with a block
OPENED = ("further", "braced_part")


def opened(steps, found):
    """Steps, with those of each symbol in its place; in items the symbols stay."""
    made = []
    for step in steps:
        if step[0] == "Symbol":
            made += found[step[1]]
        elif step[0] == "Choice":
            made.append((*step[:2], *[opened(part, found) for part in step[2:]]))
        else:
            made.append(step)
    return made


def camel(n):
    return "".join(word.capitalize() for word in n[1].split("_"))


def capitals(n):
    return n[1].upper()


# the last written symbol of the first two parts of the grammar, and the further symbols of all but
# the units
LAST = {"expressions": "lhs_expression", "statements": "for_update"}
FURTHER = {
    "expressions": """template_ argument_ components factors summands sum_rest relation_rest
        and_rest or_rest bitwise_ expression_rest left_side_in_parentheses prefixed_left_side""",
    "statements": """selectors statement_rest loop_ continuing_ clause_ else_rest init_part
        condition_part update_part braced_part ended_part""",
    "simple": """returning_part local_part value_part phony_part simple_part assert_part
        left_side_rest name_rest_statement parenthesized_statement plain_statement""",
}
SAYS = {
    "expressions": "The rules of names, expressions and templates",
    "statements": "The rules of statements and their blocks",
    "units": "The rules of attributes, declarations, directives and units",
    "simple": "The rules of statements that hold no others",
}
# the part with the rules of the language that is parsed that are others in the smaller one
OWN = "parsed"
OWN_SAYS = "The rules of the language that is parsed where the smaller one has others"


# what each symbol derives
MEANT = dict(re.findall(r"(\w+): (.+)", """
ident: a name
type_specifier: a type, or an identifier with the arguments of its template
template_list: a template list
arguments: arguments in parentheses
literal: a literal
primary_expression: a primary expression
singular_expression: a primary expression and its components
component: a component
unary_expression: an operand with the operators before it
multiplicative_expression: a product
negated_expression: a product of the negation that the second minus of `--` begins
shift_expression: a shift or a sum
relational_expression: a comparison, a shift or a sum
expression: an expression
lhs_expression: a left side
template_items: the arguments of a template list, one at least, and its end
template_rest: what follows a comma in a template list: further arguments, or none, and its end
template_more: what follows an argument in a template list, up to its end
argument_rest: what follows the `(` of arguments, or a comma in them, up to the `)`
argument_more: what follows an argument, up to the `)`
components: the components after a base, none too
factors: the factors after a first one, none too
summands: the summands after a first one, none too
sum_rest: what makes an operand a shift, or a sum of products
relation_rest: what makes an operand a comparison, or nothing
and_rest: the operands of `&&` after a first one
or_rest: the operands of `||` after a first one
bitwise_and_rest: the operands of `&` after a first one
bitwise_or_rest: the operands of `|` after a first one
bitwise_xor_rest: the operands of `^` after a first one
expression_rest: what makes an operand an expression
left_side_in_parentheses: a left side in parentheses, with its components
prefixed_left_side: a left side that begins with `*` or `&`
returning_part: `return`, with a value if there is one, without its `;`
local_part: a `var` among statements, without its `;`
value_part: a `let` or `const` among statements, without its `;`
phony_part: an assignment to `_`
simple_part: a call, an assignment, an increment or a decrement that does not begin with `(`
assert_part: `const_assert` and its expression, without its `;`
left_side_rest: what follows a left side: an operator and a value, or `++` or `--`
name_rest_statement: what follows the name that a statement begins with
parenthesized_statement: an assignment, an increment or a decrement that begins with `(`
plain_statement: a statement that has no attributes, with its `;`
compound_statement: a block
statement: a statement
switch_clause: a clause of a `switch`
case_selector: a selector of a clause
for_init: what is done before the first turn of a `for`
for_update: what is done after each turn of a `for`
selectors: selectors with commas between, also after the last
statement_rest: statements and the `}` after them
loop_rest: the statements of a `loop`, its `continuing` if there is one, and the `}`
continuing_rest: the statements of a `continuing`, its `break if` if there is one, and the `}`
clause_rest: further clauses of a `switch` and the `}` after them
else_rest: the clauses of an `if` after the first
init_part: what is done before the first turn of a `for`, if anything, and its `;`
condition_part: the condition of a `for`, if there is one, and its `;`
update_part: what is done after each turn of a `for`, if anything, and the `)`
braced_part: a statement that ends with a block
ended_part: a statement other than `break` that a `;` ends, with its `;`
clause_part: a clause of a `switch` after its attributes
continuing_part: a `continuing`
attribute: an attribute
var_template: `var` and its template
typed_ident: a name, and its type if there is one
struct_member: a member of a structure
formal_parameter: a parameter of a function
global_declaration: a declaration of a module
diagnostic_severity: `diagnostic (` and a severity
unit: a module
member_items: the members of a structure, one at least, and the `}`
member_rest: what follows a comma between members, up to the `}`
member_more: what follows a member, up to the `}`
parameter_rest: what follows the `(` of parameters, or a comma between them, up to the `)`
parameter_more: what follows a parameter, up to the `)`
name_items: the names of a directive, one at least, and its `;`
name_rest: what follows a comma between the names of a directive, up to its `;`
name_more: what follows a name of a directive, up to its `;`
attribute_list: attributes, none too
var_part: a `var` of a module after its attributes
override_part: an `override` after its attributes
function_part: a function after its attributes
const_part: a `const` of a module after its attributes
alias_part: an `alias` after its attributes
struct_part: a `struct` after its attributes
enable_part: an `enable` after its attributes
requires_part: a `requires` after its attributes
diagnostic_part: a `diagnostic` after its attributes
attributed_part: a `var`, an `override` or a function, after its attributes
led_part: a `const`, an `alias`, a `struct` or a `const_assert`, after its attributes
directive_part: a directive after its attributes
declaration_list: declarations, none too
front: the directives and the declarations of a module, or those that are left
"""))


def documented(text):
    """A sentence as the comment of an item."""
    return textwrap.indent(textwrap.fill(f"{text}.", 96), "/// ")


def in_parts(order, needed):
    """The symbols that are needed, by the part of the grammar that they belong to."""
    parts = {part: [] for part in SAYS}
    names = list(parts)
    at = 0
    for n in order:
        if n[0] == "of":
            parts[names[at]].append(n)
            if n[1] == LAST.get(names[at]):
                at += 1
        else:
            home = [part for part, starts in FURTHER.items()
                    if n[1].startswith(tuple(starts.split()))]
            parts[home[0] if home else "units"].append(n)
    parts["statements"] = [n for n in parts["statements"] if n[1] != "attribute"]
    parts["units"].insert(0, ("of", "attribute"))
    return {part: [n for n in symbols if n in needed] for part, symbols in parts.items()}


class Writer:
    """Writes the rules; sets of more than two classes that are in several places get a name."""

    def __init__(self, found, parts, empty):
        self.found = found
        self.parts = parts
        self.empty = empty
        users = {}
        for n, steps in found.items():
            for classes in self.sets(steps):
                users.setdefault(tuple(classes), []).append(n)
        shared = [it for it, symbols in users.items() if len(it) > 2 and len(symbols) > 1]
        self.names = {classes: self.name(classes, users) for classes in shared}
        home = {n: part for part, symbols in reversed(parts.items()) for n in symbols}
        first = list(parts).index
        self.homes = {self.names[classes]: min((home[n] for n in users[classes]), key=first)
                      for classes in shared}

    def name(self, classes, users):
        """The name of a set: by the first symbols before which it is asked for, else by the rule
        that goes on with it."""
        for steps in self.found.values():
            for step in self.choices(steps):
                symbols = self.first_symbols(step[2])
                if tuple(step[1]) == classes and symbols:
                    return f"BEGINS_{'_'.join(map(capitals, symbols))}"
        return f"CONTINUES_{capitals(users[classes][0])}"

    def meant(self, name):
        """What the tokens of a set do, by its name."""
        does, symbols = name.lower().split("_", 1)
        if does == "continues":
            return f"The tokens with which {MEANT[symbols]} goes on"
        several = next(([symbols.removesuffix(f"_{rest}"), rest] for rest in MEANT
                        if symbols.endswith(f"_{rest}")
                        and symbols.removesuffix(f"_{rest}") in MEANT), [symbols])
        meant = [re.sub(", (with|none|after) .*", "", MEANT[it]) for it in several]
        return f"The tokens that begin {' or '.join(meant)}"

    def first_symbols(self, steps):
        """The symbols at the front of some steps, up to the first that cannot be empty."""
        symbols = []
        for step in steps:
            if step[0] != "Symbol":
                break
            symbols.append(step[1])
            if not self.empty[step[1]]:
                break
        return symbols

    def choices(self, steps):
        for step in steps:
            if step[0] in ("Choice", "Repeat"):
                yield step
                for part in step[2:]:
                    yield from self.choices(part)

    def sets(self, steps):
        for step in self.choices(steps):
            yield step[1]

    def kinds(self, classes):
        name = self.names.get(tuple(classes))
        return name or "&[" + ", ".join(f"TokenKind::{c}" for c in classes) + "]"

    def steps(self, steps):
        return "&[" + ", ".join(map(self.step, steps)) + "]"

    def step(self, step):
        if step[0] == "Token":
            return f"Token({self.kinds(step[1])})"
        if step[0] == "Symbol":
            return f"Rule(Symbol::{camel(step[1])})"
        return f"{step[0]}({', '.join([self.kinds(step[1])] + list(map(self.steps, step[2:])))})"

    def rules(self, part):
        consts = [f"{documented(f'The steps of {MEANT[n[1]]}')}\n"
                  f"pub const {capitals(n)}: &[Step] = {self.steps(self.found[n])};"
                  for n in self.parts[part]]
        body = "\n\n".join(consts)
        used = [v for v in ("Choice", "Repeat", "Rule", "Token") if v + "(" in body]
        lines = [f"//! {SAYS.get(part, OWN_SAYS)}, written by tools/tables/dialect.py.", "",
                 *(f"use crate::{home}::{name};" for name, home in self.homes.items()
                   if home != part and re.search(rf"\b{name}\b", body)),
                 "use crate::rules::Symbol;",
                 f"use crate::step::Step::{{self, {', '.join(used)}}};",
                 "use wgsl_lex_token::kind::TokenKind;", ""]
        for classes, name in self.names.items():
            if self.homes[name] == part:
                kinds = ", ".join(f"TokenKind::{c}" for c in classes)
                lines += [documented(self.meant(name)),
                          f"pub const {name}: &[TokenKind] = &[{kinds}];", ""]
        return "\n".join(lines + [body, ""])


def symbols_text(order):
    return ["/// A symbol: those of the written grammar, and after them those that are a part of a "
            "rule.", "#[derive(Clone, Copy)]", "pub enum Symbol {",
            *(f"    {camel(n)}," for n in order), "}", ""]


def view_text(order):
    written, further = ([n[1] for n in order if n[0] == kind] for kind in ("of", "further"))
    symbols = ", ".join(f"Symbol.{it}" for it in written)
    factored = ["FactoredSymbol", "FactoredSymbol.of", "FactoredSymbol.further",
                *(f"Further.{it}" for it in further)]
    declared = "use Rattle.wgsl_read_dialect.specs.declared.rules.Symbol"
    return "\n".join([
        "-- The symbols of the code as those of the grammar, written by tools/tables/dialect.py.",
        f"use Rattle.wgsl_model.specs.Grammar.Symbols.{{{symbols}}}",
        f"use Rattle.wgsl_theory_grammar.specs.Factored.{{{', '.join(factored)}}}",
        f"{declared}.{{Symbol}}", f"{declared}.TheVariants as variant", "",
        "-- which symbol it is", "abbrev pub symbol_view : Symbol → FactoredSymbol",
        *(f"symbol_view variant.{camel(n)} = {n[0]} {n[1]}" for n in order), ""])


def side_text(name, language, homes):
    """The function that has the steps of each symbol in a language, by the part with its rule."""
    return [f"/// Returns the steps of a symbol in {language}.",
            f"fn {name}_side(symbol: Symbol) -> &'static [Step]",
            f"    ensures {{ steps_view result.now ≡ rule_steps {name} (symbol_view symbol) }}",
            "{", "    match symbol {",
            *(f"        Symbol::{camel(n)} => {part}::{capitals(n)}," for n, part in homes.items()),
            "    }", "}", ""]


RULES_HEAD = """\
//! The symbols of the grammar in which one token decides, and the steps of each,
//! written by tools/tables/dialect.py.

ghost use Rattle.std.specs.Prelude.{◌≡◌};
ghost use Rattle.wgsl_model.specs.Grammar.Symbols.{Dialect.parsed, Dialect.recognized};
ghost use Rattle.wgsl_read_dialect.specs.Dialects.{dialect_view};
ghost use Rattle.wgsl_read_dialect.specs.Steps.{rule_steps};
ghost use Rattle.wgsl_read_dialect.specs.Symbols.{symbol_view};
ghost use Rattle.wgsl_read_dialect.specs.View.{steps_view};

use crate::dialect::Dialect;"""
RIGHT_SIDE = """\
/// Returns the steps of a symbol in a dialect.
pub fn right_side(dialect: Dialect, symbol: Symbol) -> &'static [Step]
    ensures { steps_view result.now ≡ rule_steps (dialect_view dialect) (symbol_view symbol) }
{
    match dialect {
        Dialect::Parsed => parsed_side(symbol),
        Dialect::Recognized => recognized_side(symbol),
    }
}
"""


def rules_text(order, homes, own):
    """The file of the symbols, with the steps of each."""
    parsed = {n: OWN if n in own else part for n, part in homes.items()}
    return "\n".join([
        RULES_HEAD, *(f"use crate::{part};" for part in [*SAYS, OWN]), "use crate::step::Step;", "",
        *symbols_text(order), RIGHT_SIDE,
        *side_text("parsed", "the language that is parsed", parsed),
        *side_text("recognized", "the smaller language", homes)])


def answers(name, found):
    """The proofs that each rule has the steps of its symbol."""
    texts = ["-- Each rule has the steps of its symbol, written by tools/tables/dialect.py.",
             "use Rattle.wgsl_read_dialect.specs.Steps.{rule_steps}",
             "use Rattle.wgsl_read_dialect.proofs.Views.{choice_is, repeat_is}",
             f"use Rattle.wgsl_read_dialect.proofs.rules.{name}_side.Goals as goal", ""]
    for n, steps in found.items():
        laws = [str(c.arm(camel(n)).of("is"))]
        choices = [step for step in steps if step[0] == "Choice"]
        tactic = "simp" if len(choices) < 2 else "rw"
        if len(choices) > 1:
            laws += ["choice_is"] * len(choices)
        else:
            kinds = set(kinds_in(steps))
            laws += [f"{it.lower()}_is" for it in ("Choice", "Repeat") if it in kinds]
        by = laws[0] if len(laws) == 1 else f"({', '.join(laws)})"
        texts.append(proof(goals.returns("", goals.arm(camel(n))), f" {tactic} {by}", "c",
                           "unfolding rule_steps\n"))
    return "\n".join(texts)


def steps_in(language, steps):
    """The steps of every symbol in a language."""
    every = {n: steps.of(g) for n, g in rules(language).items()}
    every[OPENED] = opened(every[OPENED], every)
    return every


def main():
    classes = token_table.Table().classes
    tables = Tables(rules("parsed"))
    steps = Steps(tables, {c: i for i, c in enumerate(classes)})
    found = {language: steps_in(language, steps) for language in DIALECTS}
    needed = set.union(*(reached(every, ("of", "unit")) for every in found.values()))
    found = {language: {n: it for n, it in every.items() if n in needed}
             for language, every in found.items()}
    parsed, smaller = found["parsed"], found["recognized"]
    own = {n: s for n, s in parsed.items() if s != smaller[n]}
    parts = in_parts(smaller, needed)
    writers = {part: Writer(smaller, parts, tables.empty) for part in parts}
    writers[OWN] = Writer(own, {OWN: list(own)}, tables.empty)
    for part, writer in writers.items():
        (CRATE / f"src/{part}.rt").write_text(writer.rules(part))
    homes = {n: part for part, symbols in parts.items() for n in symbols}
    (CRATE / "src/rules.rt").write_text(rules_text(smaller, homes, own))
    (CRATE / "specs/Symbols.antt").write_text(view_text(smaller))
    for language, every in found.items():
        proofs = CRATE / f"proofs/rules/{language}_side"
        proofs.mkdir(parents=True, exist_ok=True)
        (proofs / "Answers.antt").write_text(answers(language, {n: every[n] for n in homes}))
