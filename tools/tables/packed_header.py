"""Writes the names and the tables of include/wgsl_packed.h."""
import textwrap
from pathlib import Path

import inputs
import packed_rules
from filling import fill
from node_table import Table
from packed_kinds import Sorts
from packed_places import code

READS = (inputs.NODES, inputs.RULES)
WRITES = ("include/wgsl_packed.h",)

HEADER = Path("include/wgsl_packed.h")
# what a rule is in a list, by its role there
ROLES = {"before": "b", "first": "b", "last": "l", "void": "v", "end": "e", "none": "e"}


def rule_names(rules):
    """The numbers of the rules, each with what it is for."""
    return "\n".join(f"    /* {rule.what[0].upper()}{rule.what[1:]}. */\n"
                     f"    WGSL_RULE_{rule.name.upper()} = {number},"
                     for number, rule in enumerate(rules))[:-1]


def field_of(place):
    """The name of what fills a place: a field, or fields that are left out together."""
    return place.get("field") or place["sort"].split(".")[-1]


def numbered(sorts, rule, places, left):
    """The number of each part of a rule that fills a field."""
    at = len("%") if left else 0
    for place in places:
        at += len(code(sorts.found, place))
        if place["sort"] != "nothing":
            yield f"WGSL_PART_{rule.upper()}_{field_of(place).upper()}", at - 1


def field_names(sorts):
    """The parts of all rules that fill a field, without those of one name."""
    found = {}
    for sort in sorts.found.values():
        for form in sort.get("forms", []):
            if "rule" in form:
                found |= numbered(sorts, form["rule"], form["places"], form.get("left"))
        if "group" in sort:
            found |= numbered(sorts, sort["rule"], sort["group"], None)
    return ",\n".join(f"    {name} = {number}" for name, number in found.items())


def roles(sorts):
    """What each rule is in a list."""
    found = {}
    for sort in sorts.found.values():
        found |= {sort[role]: letter for role, letter in ROLES.items()
                  if "list" in sort and role in sort}
    return [f"'{found.get(rule, ' ')}'" for rule in sorts.rules]


def filled(items):
    """Items of an array, in lines."""
    lines = textwrap.fill(", ".join(items), 90, break_long_words=False, break_on_hyphens=False)
    return textwrap.indent(lines, " " * 8)


def main():
    sorts, rules = Sorts(Table()), packed_rules.read()
    places = [f'"{packed_rules.places(rule.text)}"' for rule in rules]
    fill(HEADER, "\nenum wgsl_rule {\n", rule_names(rules), "\n};\n")
    fill(HEADER, "\nenum wgsl_field {\n", field_names(sorts), "\n};\n")
    fill(HEADER, "\n#define WGSL_RULES ", str(len(rules)), "\n")
    fill(HEADER, "\n    static const char *const places[] = {\n", filled(places), "\n    };\n")
    fill(HEADER, "\n    static const char roles[] = {\n", filled(roles(sorts)), "\n    };\n")
