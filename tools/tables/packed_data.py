"""Writes the packed form as data, for readers and writers in any language: the rules, and the sorts
of what fills their places.

The same is a module of JavaScript.
"""
import json
from pathlib import Path

import inputs
import packed_rules
from node_table import Table
from packed_kinds import Sorts

READS = (inputs.NODES, inputs.RULES)
WRITES = ("include/wgsl_packed.json", "bindings/web/packed.js")

DATA = Path("include/wgsl_packed.json")
MODULE = Path("bindings/web/packed.js")


def rule_data(number, rule):
    """A rule as data."""
    text = json.loads(rule.text)
    places = packed_rules.places(text)
    return {"number": number, "name": rule.name, "places": places, "text": text}


def lines(brackets, items):
    """Items between brackets, each in a line."""
    return ",\n".join(items).join([f"{brackets[0]}\n", f"\n{brackets[1]}"])


def data(table):
    """The text of the data, with a line for each rule and each sort."""
    rules = [json.dumps(rule_data(*it)) for it in enumerate(packed_rules.read())]
    sorts = [f"{json.dumps(name)}: {json.dumps(sort)}" for name, sort in Sorts(table).found.items()]
    parts = [f'"rules": {lines("[]", rules)}', f'"sorts": {lines("{}", sorts)}']
    return lines("{}", parts) + "\n"


def main():
    text = data(Table())
    DATA.write_text(text)
    MODULE.write_text(f"// The packed form as data, which tools/tables/packed_data.py writes.\n"
                      f"export default {text.rstrip()};\n")
