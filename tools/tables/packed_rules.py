"""Writes the rules of the packed form, and their numbers: the definition of the rules and of their
JSON, the tables of both that the library prints by, and their numbers for the writer of the library
and for the Rust crate, with the places of each for that.

It puts a table of them into docs/TREE.md. It fails if the JSON of a rule has other places than its
text.
"""
import json
import re
import textwrap
from pathlib import Path
from typing import NamedTuple

import inputs
from filling import fill

READS = (inputs.RULES,)
WRITES = ("crates/wgsl_model_packed/specs/Rules.antt",
          "crates/wgsl_model_packed/specs/JsonRules.antt", "crates/wgsl_print_packed/src/rules.rt",
          "crates/wgsl_tree_packed/src/rules.rt", "bindings/rust/src/packed/rules.rs",
          "docs/TREE.md")

RULES = Path("crates/wgsl_model_packed/rules")
SPECS = Path("crates/wgsl_model_packed/specs/Rules.antt")
JSON = Path("crates/wgsl_model_packed/specs/JsonRules.antt")
TABLE = Path("crates/wgsl_print_packed/src/rules.rt")
NUMBERS = Path("crates/wgsl_tree_packed/src/rules.rt")
BINDING = Path("bindings/rust/src/packed/rules.rs")
DOCUMENT = Path("docs/TREE.md")
BY = "Written by tools/tables/packed_rules.py from crates/wgsl_model_packed/rules"

# how many columns the codes of a text have in a line
LONGEST = 110
LINE = re.compile(r'(\w+) ("(?:[^"\\]|\\.)*") -- (.*)')


class Rule(NamedTuple):
    """A rule: its name, its text as it is quoted, what it is for, and its JSON."""
    name: str
    text: str
    what: str
    json: str = ""


def read():
    """The rules in their order."""
    rules = []
    for line in RULES.read_text().splitlines():
        if not line or line.startswith(("--", "#")):
            continue
        if line.startswith("    "):
            rules[-1] = rules[-1]._replace(json=line.strip())
        elif it := LINE.fullmatch(line):
            rules.append(Rule(*it.groups()))
        else:
            raise SystemExit(f"{RULES}: {line!r} is not a rule")
    for rule in rules:
        check(rule)
    return rules


def places(text):
    """The places of a text that are filled from a form: `$`, `#` and `%`."""
    return re.sub("[^$#%]", "", re.sub("[&?]", "$", text))


def check(rule):
    """Fails unless a rule has JSON with the places of its text, once these are filled."""
    if places(rule.json) != places(rule.text):
        raise SystemExit(f"{RULES}: the JSON of {rule.name} has other places than its text")


def quoted(text):
    """A text between quotation marks, for both languages."""
    return json.dumps(text)


def codes(text):
    """The codes of a text, in two lines if they would be too long for one."""
    line = f"codes {quoted(text)}"
    if len(line) <= LONGEST:
        return line
    at = text.rindex(',"', 0, len(text) // 2 + 1)
    return f"(codes {quoted(text[:at])}\n    ++ codes {quoted(text[at:])})"


def definition(rules):
    """The definition of the rules, and of the number of each."""
    numbers = "\n".join(
        f"-- {rule.what}\nabbrev pub {rule.name}_rule : ℕ\n{rule.name}_rule = {number}\n"
        for number, rule in enumerate(rules))
    texts = "\n".join(f"    codes {rule.text} ∷" for rule in rules)
    return f"""\
-- {BY}: the rules.
use Rattle.std.specs.Prelude.{{ℕ, List, [], ◌∷◌, codes}}

{numbers}
-- what is printed by each rule, by its number
abbrev pub rules : List (List ℕ)
rules =
{texts}
    []
"""


def json_definition(rules):
    """The definition of the JSON of the rules."""
    texts = "\n".join(f"    {codes(rule.json)} ∷" for rule in rules)
    return f"""\
-- {BY}: the JSON of the rules.
use Rattle.std.specs.Prelude.{{ℕ, List, [], ◌∷◌, ◌++◌, codes}}

-- the JSON of each rule, by its number
abbrev pub json_rules : List (List ℕ)
json_rules =
{texts}
    []
"""


def table(rules):
    """The tables of the texts and of the JSON in Rattle."""
    texts = "".join(f"    {rule.text},\n" for rule in rules)
    jsons = "".join(f"    {quoted(rule.json)},\n" for rule in rules)
    return f"""\
//! {BY}: the rules.

/// What is printed by each rule, by its number.
pub static RULES: [&str; {len(rules)}] = [
{texts}];

/// The JSON of each rule, by its number.
pub static JSON_RULES: [&str; {len(rules)}] = [
{jsons}];
"""


def constants(rules):
    """The number of each rule as a constant."""
    lines = "".join(
        f"/// {rule.what[0].upper()}{rule.what[1:]}.\n"
        f"pub const {rule.name.upper()}: u8 = {number};\n\n"
        for number, rule in enumerate(rules))
    return f"//! {BY}: their numbers.\n\n{lines}".rstrip("\n") + "\n"


def binding(rules):
    """The same for Rust, with the table of the places."""
    filled = " ".join(f'b"{places(rule.text)}",' for rule in rules)
    filled = textwrap.fill(filled, 99, initial_indent="    ", subsequent_indent="    ")
    return f"""\
{constants(rules).replace("pub const", "pub(super) const")}
/// The places of each rule, by its number: `$` for another rule, `#` for a text, `%` for a span.
pub(super) static PLACES: [&[u8]; {len(rules)}] = [
{filled}
];
"""


def code(text):
    """A text in a cell of a table, or nothing."""
    return f"`` {text} ``".replace("|", "\\|") if text else ""


def document(rules):
    """The rules as a table of a document."""
    rows = "".join(f"| {number} | `{rule.name}` | {rule.what} | {code(rule.text[1:-1])} "
                   f"| {code(rule.json)} |\n" for number, rule in enumerate(rules))
    return f"\n\n| | Rule | | Printed | JSON |\n|---|---|---|---|---|\n{rows}\n"


def main():
    rules = read()
    written = {SPECS: definition(rules), JSON: json_definition(rules), TABLE: table(rules),
               NUMBERS: constants(rules), BINDING: binding(rules)}
    for path, text in written.items():
        path.write_text(text)
    fill(DOCUMENT, f"<!-- The table is {BY[0].lower()}{BY[1:]}. -->", document(rules),
         "<!-- The end of the table. -->")
