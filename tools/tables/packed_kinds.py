"""Reads crates/wgsl_model_packed/kinds: what may be at each place of a packed form. For
tools/tables/packed_data.py, tools/tables/packed_header.py and tools/tables/tree_types.py.

A sort says what is at a place: a text, one of some words, a node that has some forms, any of some
sorts, a list, or what may be left out.
"""
import json
import re
from functools import partial
from pathlib import Path

import packed_places
import packed_rules
from node_table import separated, snake

KINDS = Path("crates/wgsl_model_packed/kinds")
# a field of the JSON of a rule, and what fills its place
FIELD = re.compile(r'"(\w+)":(\{"span":%,"node":\$\}|\[\$\]|"#"|[$#%?])')
# the kind in which all others are
WHOLE = "TranslationUnit"
TEXT = "text"
NOTHING = "nothing"
CHAIN = "chain"


def lines():
    """The lines of the file, by what they are of."""
    text = re.sub(r"^(?:#.*|--.*|)\n", "", KINDS.read_text(), flags=re.M)
    return dict(re.split(r": ?", it, maxsplit=1)
                for it in re.sub(r"\n +", " ", text).splitlines())


def type_of(enum, variant):
    """The type of a node that is a variant without a struct."""
    return variant + enum


class Sorts:
    """The sorts by their names."""

    def __init__(self, table):
        self.table = table
        self.rules = {rule.name: rule for rule in packed_rules.read()}
        self.lines = lines()
        self.found = {TEXT: {"text": True}, NOTHING: {"nothing": NOTHING}}
        self.left = []
        self.place_of(WHOLE)
        for name, make in self.left:
            self.found[name] = make()
        packed_places.check(self.found, self.rules)

    def add(self, name, make):
        """The name of a sort, which is made later if it isn't there."""
        if name not in self.found:
            self.found[name] = None
            self.left.append((name, make))
        return name

    def place_of(self, held):
        """A place for what a type says."""
        kind = self.table.by_name.get(held)
        if held.endswith("*"):
            return self.list_of(held, held)
        if held.endswith("?"):
            return self.option_of(held, held)
        if held in ("Ident", "String") or re.fullmatch(r"[iu]\d+", held):
            return {"sort": TEXT}
        if kind.form == "words":
            words = [word for _, word in kind.parts]
            return {"sort": self.add(held, lambda: {"words": words})}
        make = self.enum if kind.form == "enum" else self.struct
        place = {"sort": self.add(held, partial(make, kind))}
        return {**place, "spanned": True} if kind.is_spanned else place

    def list_of(self, name, held):
        """A place for a list, whose rules are in the line of a name."""
        return {"sort": self.add(name, partial(self.made_list, name, held[:-1]))}

    def made_list(self, name, item):
        roles = dict(it.split() for it in self.lines[name].split(", "))
        made = {"list": self.place_of(item), **roles}
        if "void" in roles:
            made["empty"] = type_of(item, "Void")
        return made

    def option_of(self, name, held):
        """A place for what may be left out, whose rule is in the line of a name; some of these name
        the sort of what is there."""
        def made():
            rule, _, sort = self.lines[name].partition(" ")
            place = self.place_of(held[:-1])
            if sort:
                place["sort"] = self.named(sort)
            return {"option": place, "rule": rule}
        return {"sort": self.add(name, made)}

    def named(self, name):
        """The name of a sort that differs from that of its type by a word."""
        word, held = name.split()
        if word == "unended":
            return self.add(name, partial(self.unended, held))
        return self.add(name, partial(self.struct, self.table.by_name[held], name))

    def unended(self, held):
        """An enum without the rule that ends some variants."""
        variants = self.enum(self.table.by_name[held])["any"]
        return {"any": [{"sort": it["sort"]} for it in variants]}

    def enum(self, kind):
        """One of the variants of an enum."""
        made = {"any": []}
        groups = self.groups(kind)
        for held, name in groups.items():
            self.add(name, partial(self.by_word, kind, name, held))
            made["any"].append({"sort": name})
        for variant, held in kind.parts:
            name = f"{kind.name}.{variant}"
            if name in self.lines:
                self.add_any(made, name, partial(self.variant, kind.name, variant, held))
            elif held not in groups:
                self.add_any(made, held, partial(self.held, held))
        return made

    def groups(self, kind):
        """What variants of an enum hold whose name is a text, with the names of their lines."""
        front = f"{kind.name} of "
        held = [it.removeprefix(front) for it in self.lines if it.startswith(front)]
        return {it if it in self.table.by_name else "": front + it for it in held}

    def held(self, held):
        kind = self.table.by_name[held]
        return self.enum(kind) if kind.form == "enum" else self.struct(kind)

    def add_any(self, made, name, make):
        """Adds a sort to those that may be at a place: as a link of a chain, or after a rule."""
        first, _, rule = self.lines.get(name, "").split(", ")[0].partition(" ")
        self.add(name, make)
        if first == CHAIN:
            made.setdefault(CHAIN, CHAIN)
            made.setdefault("links", []).append(name)
        elif rule:
            made["any"].append({"sort": name, "before": first})
        else:
            made["any"].append({"sort": name})

    def by_word(self, kind, name, held):
        """The variants of an enum that hold the same, of which a text says which one it is."""
        words = self.table.attribute_words() if kind.name == "Attribute" else {}
        types = {words.get(variant, snake(variant)): type_of(kind.name, variant)
                 for variant, of in kind.parts if of == held}
        places = [{"field": "type", "sort": TEXT}]
        if held:
            places.append({"field": "value", **self.place_of(held)})
        return {"types": types, "forms": [{"rule": self.lines[name], "places": places}]}

    def variant(self, enum, variant, held):
        """A variant that holds no struct."""
        name = f"{enum}.{variant}"
        made = {"type": type_of(enum, variant), "forms": []}
        for rule in self.rules_of(name):
            form = {"rule": rule, "places": []}
            if held == "bool":
                form["values"] = {"value": rule == "true"}
            elif f"{name}.value" in self.lines:
                form["places"].append(self.group(f"{name}.value", {}))
            elif held:
                form["places"].append({"field": "value", **self.place_of(held)})
            elif variant == "Void":
                form["places"].append({"sort": NOTHING})
            made["forms"].append(form)
        return made

    def struct(self, kind, name=None):
        """A struct, by the rules in the line of a name."""
        name = name or kind.name
        forms = [self.form(kind, name, rule) for rule in self.rules_of(name)]
        return {"type": kind.name, "forms": forms}

    def rules_of(self, name):
        """The rules in the line of a name, without those that come before."""
        return [it.split(" ")[-1] for it in self.lines[name].split(", ")]

    def form(self, kind, name, rule):
        """A form of a struct: its rule, what fills the places of that, which field is the left one
        of a chain, and which are left out."""
        shapes = self.shapes(kind, rule)
        left = [field for field, shape in shapes.items() if shape == "%"]
        form = {"rule": rule} if rule else {}
        form["places"] = [self.field(kind, name, *it) for it in shapes.items() if it[0] not in left]
        if left:
            form["left"], = left
        filled = [*left, *self.fields(form)]
        if out := [it for it, _ in kind.parts if it not in filled]:
            form["values"] = dict.fromkeys(out)
        if patterns := self.lines.get(f"{rule} if"):
            form["if"] = json.loads(patterns)
        return form

    def shapes(self, kind, rule):
        """The fields that the JSON of a rule names, with what fills their places. JSON without
        names is of the first fields; a struct without a rule has the places of its fields."""
        names = [field for field, _ in kind.parts]
        if not rule:
            return dict.fromkeys(names, "")
        text = self.rules[rule].json
        return dict(FIELD.findall(text) or zip(names, packed_rules.places(text)))

    def field(self, kind, name, field, shape):
        """The place of a field, or of a group of fields that are left out together."""
        held = dict(kind.parts).get(field)
        line = f"{name}.{field}" if f"{name}.{field}" in self.lines else f"{kind.name}.{field}"
        if held is None:
            return self.group(line, dict(kind.parts))
        if held.endswith("?") and shape != "?":
            held = held[:-1]
        if line not in self.lines:
            place = self.place_of(held)
        elif held.endswith("?"):
            place = self.option_of(line, held)
        elif held.endswith("*"):
            place = self.list_of(line, held)
        else:
            place = {"sort": self.named(self.lines[line])}
        return {"field": field, **place}

    def fields(self, form):
        """The fields that the places of a form fill."""
        for place in form["places"]:
            group = re.search(r"\((.*)\)", self.lines.get(place["sort"], ""))
            yield from separated(group[1]) if group else [place["field"]]

    def group(self, name, fields):
        """A place for fields that are left out together."""
        rule, names = re.fullmatch(r"(\w+) \((.*)\)", self.lines[name]).groups()
        places = []
        for it in separated(names):
            field, _, held = it.partition(": ")
            held = held or fields[field].removesuffix("?")
            line = f"{name.split('.')[0]}.{field}"
            place = self.list_of(line, held) if line in self.lines else self.place_of(held)
            places.append({"field": field, **place})
        return {"sort": self.add(name, lambda: {"group": places, "rule": rule})}
