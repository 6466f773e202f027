"""Compares the trees that bindings/web/tree.js reads with the JSON that the library writes, for
tools/library_tests: of each text of a tree in tests/rows, and of each shader of the repository. The
JSON of one of these has to have each rule and each attribute.

The JSON is taken apart by crates/wgsl_model/nodes alone, without the data of the packed form.
"""
import json
import re
import struct
import subprocess
import sys
from pathlib import Path

from native import DONE
from row_files import rows_of

TOP = Path(__file__).resolve().parent.parent
sys.path.append(str(TOP / "tools" / "tables"))
import packed_rules  # noqa: E402
from node_table import Table  # noqa: E402

# the words of rows by which trees are read, in the order of their numbers, and their kinds
KINDS = {"unit": "TranslationUnit", "directive": "GlobalDirective",
         "declaration": "GlobalDeclaration", "statement": "Statement", "expression": "Expression"}
SHADERS = ["examples", "bindings/rust/tests"]
# a module with each variant, and how the JSON of rules begins that have no name
EVERY_KIND = TOP / "bindings" / "rust" / "tests" / "every_kind.wgsl"
UNNAMED = ('"', '{"', '["', '{"span":')
# the longest text of a row that is tried: its JSON may nest as deep as it is long
LONGEST = 4000
DEEPEST = 50_000
# whole numbers, of which a float would lose digits, and which are texts in the trees
NUMBER = re.compile(r'("(?:AbstractInt|I32|U32)":)(-?\d+)')


# how tools/tree_test.mts is checked
TSC = ["tsc", "--noEmit", "--strict", "--target", "es2022", "--module", "nodenext",
       "--moduleResolution", "nodenext", TOP / "tools" / "tree_test.mts"]


def check_types():
    """What TypeScript says against the types of the trees, nothing if it is right."""
    return subprocess.run(TSC, capture_output=True, text=True).stdout


def texts():
    """The texts, each with the number of its kind."""
    rows = [row for file in sorted((TOP / "tests" / "rows").glob("*.txt")) for row in rows_of(file)]
    shaders = [it for folder in SHADERS for it in sorted((TOP / folder).rglob("*.wgsl"))]
    words = list(KINDS)
    found = [(words.index(row.word), row.text) for row in rows if row.word in KINDS]
    found = [it for it in found if len(it[1]) <= LONGEST]
    return list(dict.fromkeys([*found, *((0, shader.read_bytes()) for shader in shaders)]))


def trees(library):
    """The texts that are trees, each with the number of its kind, its packed form and its JSON."""
    for number, text in texts():
        form = library.packed_tree(text, number)
        if form.status == DONE:
            tree = library.tree(text, number)
            if tree.status != DONE:
                sys.exit(f"a text has a packed form and no JSON:\n{text.decode()}")
            yield number, text, form.written, tree.written.decode()


def lacking(library):
    """What the JSON of the module with each variant lacks: how that of a rule with a name begins,
    and the words of attributes that are alone or have an expression."""
    tree = library.tree(EVERY_KIND.read_bytes(), list(KINDS).index("unit")).written.decode()
    begins = [re.split("[$#%&?]", rule.json)[0] for rule in packed_rules.read()]
    table = Table()
    words = table.attribute_words()
    wanted = [it for it in begins if '"' in it and it not in UNNAMED]
    wanted += [f'"{words[name]}"' for name, held in table.by_name["Attribute"].parts
               if held in ("Expression", "")]
    return [it for it in dict.fromkeys(wanted) if it not in tree]


def packed(forms):
    """Packed forms, each after how many bytes it has."""
    return b"".join(struct.pack("<Q", len(form)) + form for form in forms)


class Walk:
    """Makes the trees of the JSON of one text."""

    def __init__(self, table, text):
        self.table = table
        # the kinds whose JSON has another shape than their nodes
        self.own = {"Expression": self.expression, "TypeExpression": self.type_expression,
                    "TemplateArg": self.template_arg, "CaseSelector": self.case_selector,
                    "Attribute": self.attribute, "DeclarationKind": self.declaration_kind}
        # the variants of attributes by their names
        self.attributes = {word: name for name, word in table.attribute_words().items()}
        # the UTF-16 offset of each byte offset at which a character starts or ends
        self.offsets = {0: 0}
        size = units = 0
        for character in text.decode():
            size += len(character.encode())
            units += len(character.encode("utf-16-le")) // 2
            self.offsets[size] = units

    def span(self, places):
        """What a node has whose span this is."""
        start, end = (self.offsets[it] for it in places)
        return {"span": {"start": start, "end": end}}

    def tree(self, held, form, span=None):
        """What a tree has where the table says what it holds, and the JSON is this."""
        kind = self.table.by_name.get(held)
        if held.endswith("?"):
            return None if form is None else self.tree(held[:-1], form)
        if held.endswith("*"):
            return [self.tree(held[:-1], it) for it in form]
        if not kind or kind.form == "words":
            return form
        if kind.is_spanned and span is None:
            return self.tree(held, form["node"], self.span(form["span"]))
        if held == "Expression" and "Chain" in form:
            return self.chain(*form["Chain"], span)
        if held in self.own:
            return self.own[held](form, span or {})
        make = self.struct if kind.form == "struct" else self.variant
        return make(kind, form, span or {})

    def chain(self, first, *links):
        """Components, elements and operations after what is leftmost; last is the whole's span."""
        *links, whole = links
        fields = [next(iter(it.values())) for it in links]
        spans = [self.span(it.get("base") or it.get("left")) for it in fields]
        node = self.tree("Expression", first, spans[0])
        for link, span in zip(links, [*spans[1:], whole]):
            (name, inside), = link.items()
            kind = self.table.by_name[dict(self.table.by_name["Expression"].parts)[name]]
            left = "left" if "left" in inside else "base"
            others = {field: self.tree(held, inside[field]) for field, held in kind.parts
                      if field != left}
            node = {"type": kind.name, **span, left: node, **others}
        return node

    def struct(self, kind, form, span):
        """A struct, whose fields may be in that of its variant."""
        if len(form) == 1 and not form.keys() <= dict(kind.parts).keys():
            form, = form.values()
        if kind.name == "Function":
            result = form["result"] or {"attributes": [], "ty": None}
            form = {**form, "return_attributes": result["attributes"], "return_type": result["ty"]}
        fields = {name: self.tree(held, form[name]) for name, held in kind.parts}
        return {"type": kind.name, **span, **fields}

    def variant(self, kind, form, span):
        (name, inside), = form.items()
        return self.made(kind, name, inside, span)

    def made(self, kind, name, inside, span):
        """A variant by its name, with what is in it."""
        held = dict(kind.parts)[name]
        if (of := self.table.by_name.get(held)) and of.form != "words" and not of.is_spanned:
            return self.tree(held, inside, span)
        value = {"value": self.tree(held, inside)} if held else {}
        return {"type": f"{name}{kind.name}", **span, **value}

    def expression(self, form, span):
        """An expression that is no chain; a type is one too."""
        if isinstance(form, str) or "Template" in form:
            return self.type_expression(form, span)
        return self.variant(self.table.by_name["Expression"], form, span)

    def type_expression(self, form, span):
        fields = form["Template"] if "Template" in form else {"ident": form, "template_args": None}
        held = dict(self.table.by_name["TypeExpression"].parts)["template_args"]
        arguments = self.tree(held, fields["template_args"])
        return {"type": "TypeExpression", **span, **fields, "template_args": arguments}

    def template_arg(self, form, span):
        return {"type": "TemplateArg", "expression": self.tree("Expression", form)}

    def case_selector(self, form, span):
        kind = self.table.by_name["CaseSelector"]
        if form == "default":
            return self.made(kind, "Default", None, span)
        return self.made(kind, "Expression", form, span)

    def attribute(self, form, span):
        name, inside = (form, None) if isinstance(form, str) else next(iter(form.items()))
        variant = self.attributes.get(name, "Custom")
        return self.made(self.table.by_name["Attribute"], variant, inside, span)

    def declaration_kind(self, form, span):
        if isinstance(form, str):
            return {"type": f"{form.capitalize()}DeclarationKind"}
        space, mode = form["var"] or (None, None)
        return {"type": "VarDeclarationKind", "address_space": space, "access_mode": mode}


def compare(cases):
    """Compares the trees of texts, each given with the number of its kind, its packed form and its
    JSON. Returns how many there are, or what differs first."""
    kinds, table = list(KINDS.values()), Table()
    sys.setrecursionlimit(DEEPEST)
    lines = [json.dumps([kinds[number], text.decode(), form.hex()])
             for number, text, form, _ in cases]
    ran = subprocess.run(["node", TOP / "tools" / "tree_test.mjs"], input="\n".join(lines),
                         capture_output=True, text=True)
    if ran.returncode:
        return ran.stderr
    for (number, text, _, form), line in zip(cases, ran.stdout.splitlines(), strict=True):
        form = json.loads(NUMBER.sub(r'\1"\2"', form))
        wanted = Walk(table, text).tree(kinds[number], form, {})
        if json.loads(line) != wanted:
            return f"{text.decode()}\n{line}\n{json.dumps(wanted)}\n"
    return len(cases)
