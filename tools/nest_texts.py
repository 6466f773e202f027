"""Texts that nest or repeat: an opening many times, what is innermost, and the closing as many
times (NESTS), or one part many times without a nest (CHAINS), each also cut off in the middle of an
opening and with a wrong token innermost; brackets without an end or a start (BROKEN); and random
mixtures of nests."""
from typing import NamedTuple

# how deep a part of a chain nests at most
INSIDE = 2
# a token that is wrong before each closing, and those that are wrong anywhere
WRONG = "@"
STRAYS = ["# ", ") ", "] ", "} "]

# what is around a nest or a chain, by its place; mixtures have nests of statements and of values
PLACES = {
    "value": ("const x = ", ";"),
    "operand": ("const x = ", ";"),
    "after a name": ("const x = a", ";"),
    "arguments": ("const x = f(", ");"),
    "template arguments": ("const x = a<", ">;"),
    "assertion": ("const_assert ", ";"),
    "alignment": ("struct S { @align(", ") a: b }"),
    "workgroup size": ("@workgroup_size(1, ", ") fn f() {}"),
    "attribute": ("@a(", ") fn f() {}"),
    "type": ("alias T = ", ";"),
    "type of a variable": ("var<private> x: ", ";"),
    "type of a member": ("struct S { a: ", " }"),
    "type of a parameter": ("fn f(a: ", ") {}"),
    "type of a result": ("fn f() -> ", " {}"),
    "left side": ("fn f() { ", " = 1; }"),
    "counter": ("fn f() { ", "++; }"),
    "condition": ("fn f() { if ", " {} }"),
    "case": ("fn f() { switch a { case ", ": {} } }"),
    "statement": ("fn f() { ", " }"),
    "else": ("fn f() { if a {}", " }"),
    "clause": ("fn f() { switch a { ", " } }"),
    "member": ("struct S { ", " }"),
    "parameter": ("fn f(", ") {}"),
    "before a function": ("", "fn f() {}"),
    "module": ("", ""),
}

VALUES = ("value", "assertion", "alignment", "workgroup size", "attribute", "condition", "case")
TYPES = ("type", "type of a variable", "type of a member", "type of a parameter",
         "type of a result")
# the places, the opening, what is innermost, the closing, and how many levels these are
NESTS = [
    (VALUES, "(", "a", ")", 1),
    (VALUES, "f(", "a", ")", 1),
    (("value",), "f(a, ", "a", ", a)", 1),
    (("value",), "vec2<f32>(", "a", ")", 1),
    (("value", "attribute"), "a[", "0", "]", 1),
    (("value",), "a.b[", "0", "].c", 1),
    (("value",), "(", "a", ").b", 1),
    (("value",), "(", "a", ")[0]", 1),
    (("value", "attribute"), "a<", "a", ">", 1),
    (("value",), "a<a, ", "a", ", 1>", 1),
    (("operand",), "a<1 + 2 * ", "a", ">", 1),
    (("value",), "a<", "a", ">(a)", 1),
    (("value",), "a<(", "a", ")>", 2),
    (("value",), "a<f(", "a", ")>", 2),
    (VALUES, "- ", "a", "", 1),
    (("value",), "! ", "a", "", 1),
    (("value",), "~ ", "a", "", 1),
    (("value",), "* ", "a", "", 1),
    (("value",), "& ", "a", "", 1),
    (("value",), "-!~*& ", "a", "", 5),
    (("value",), "-(", "a", ")", 2),
    (("value",), "a + (", "a", ")", 1),
    (("value",), "a << (", "a", ")", 1),
    (("operand",), "(", "a", " * a)", 1),
    (("operand",), "a < (", "a", ")", 1),
    (("operand",), "a >= (", "a", ")", 1),
    (("operand",), "a && (", "a", ")", 1),
    (("operand",), "a && b + c * (", "a", ")", 1),
    (("operand",), "a || b == c + d * f(", "a", ")", 1),
    (("operand",), "(", "a", " || a)", 1),
    (TYPES, "array<", "a", ">", 1),
    (TYPES, "array<", "a", ", 4>", 1),
    (("left side", "counter"), "(", "a", ")", 1),
    (("left side", "counter"), "*", "a", "", 1),
    (("left side",), "& ", "a", "", 1),
    (("left side",), "*&", "a", "", 2),
    (("left side",), "*(", "a", ")", 2),
    (("left side",), "(", "a", ").b", 1),
    (("left side",), "(", "a", ")[0]", 1),
    (("left side", "counter"), "a[", "0", "]", 1),
    (("statement",), "{ ", "", "} ", 1),
    (("statement",), "if a { ", "", "} ", 1),
    (("statement",), "if a {} else { ", "", "} ", 1),
    (("statement",), "if a { x = 1; } else if b { ", "", "} else {} ", 1),
    (("statement",), "loop { ", "", "} ", 1),
    (("statement",), "loop { continuing { ", "", "} } ", 2),
    (("statement",), "loop { continuing { ", "", "break if a; } } ", 2),
    (("statement",), "switch a { case 1: { ", "", "} } ", 2),
    (("statement",), "switch a { default { ", "", "} } ", 2),
    (("statement",), "for (;;) { ", "", "} ", 1),
    (("statement",), "for (var i = 0; i < 9; i++) { ", "", "} ", 1),
    (("statement",), "while a { ", "", "} ", 1),
    (("statement",), "@a { ", "", "} ", 1),
]
# the places of a part that nests in nothing, the part, and what follows the last one
CHAINS = [
    (VALUES, "a + ", "a"),
    (("value",), "a - ", "a"),
    (("value",), "a * ", "a"),
    (("value",), "a % ", "a"),
    (("value",), "a && ", "a"),
    (("value",), "a || ", "a"),
    (("value",), "a & ", "a"),
    (("value",), "a | ", "a"),
    (("value",), "a ^ ", "a"),
    (("value",), "(a << b) + ", "a"),
    (("value",), "-a * ", "a"),
    (("value",), "a<b>(c) + ", "a"),
    (("after a name",), ".b", ""),
    (("after a name",), "[1]", ""),
    (("after a name",), ".b[1]", ""),
    (("arguments", "template arguments", "case"), "a, ", "a"),
    (("template arguments",), "a<b>, ", "a"),
    (("statement",), "x = 1; ", ""),
    (("statement",), "f(1); ", ""),
    (("statement",), "let a = 1; ", ""),
    (("statement",), "; ", ""),
    (("statement",), "{} ", ""),
    (("statement",), "if a {} ", ""),
    (("statement",), "loop { break; } ", ""),
    (("statement",), "// a\n", "x = 1; "),
    (("statement",), "/* a */ ", "x = 1; "),
    (("else",), " else if a {}", ""),
    (("clause",), "case 1: {} ", ""),
    (("member",), "a: b, ", ""),
    (("parameter",), "a: b, ", ""),
    (("before a function",), "@a ", ""),
    (("module",), "const a = 1; ", ""),
    (("module",), "alias A = B; ", ""),
    (("module",), "fn f() {} ", ""),
    (("module",), "struct S { a: b } ", ""),
    (("module",), "enable a; ", ""),
]
# the same of comments in one another, in which no token is wrong
COMMENTS = [(("statement",), "/* ", "", "*/ ", 0), (("statement",), "/* a\n * b\n", "", "*/ ", 0)]
# what brackets without an end or a start follow, and these
BROKEN = [(start, part) for start in ("", "const x = ", "fn f() ", "fn f() { ", "alias T = ")
          for part in ("(", "[", "{", "<", "a<", "a<(", "a[", "f(", "([{", "-(",
                       ")", "]", "}", ">")]


class Kind(NamedTuple):
    """A text with its opening and closing many times, with how many levels each of them is; a chain
    has none."""

    name: str
    before: str
    opening: str
    innermost: str
    closing: str
    after: str
    levels: int
    variants: tuple

    def around(self):
        """How many levels there are beside its openings: brackets around them, and a block after
        operators, which are open up to the token after it."""
        is_before_block = not self.closing and self.after.startswith(" {")
        return opened(self.before) + is_before_block

    def nesting(self, depth):
        """How deep the text with `depth` openings nests, of a chain at most."""
        return self.around() + (self.levels * depth or INSIDE)

    def openings(self, levels):
        """How many openings nest at most so many levels deep."""
        return (levels - self.around()) // self.levels


class Text(NamedTuple):
    """A text, whether it is a module, and then how deep it nests at most."""

    source: bytes
    is_module: bool
    nesting: int


def opened(before):
    """How many brackets are open after a text."""
    return sum(map(before.count, "([{<")) - sum(map(before.replace("->", "").count, ")]}>"))


def kinds():
    """All kinds of texts but the mixtures."""
    for rows, variants in ((NESTS, ("whole", "cut", "wrong")), (COMMENTS, ("whole", "cut"))):
        for places, opening, innermost, closing, levels in rows:
            for place in places:
                before, after = PLACES[place]
                name = f"{place}: {opening}..{closing}"
                yield Kind(name, before, opening, innermost, closing, after, levels, variants)
    for places, part, last in CHAINS:
        for place in places:
            before, after = PLACES[place]
            name = f"{place}: {part}{part}.."
            yield Kind(name, before, part, last, "", after, 0, ("whole", "cut", "wrong"))
    for start, part in BROKEN:
        yield Kind(f"broken: {start}{part}{part}..", start, part, "", "", "", 1, ("broken",))


def text_of_kind(kind, variant, depth):
    """The text of a kind with `depth` openings, whole or not."""
    opened = kind.before + kind.opening * depth
    closed = kind.closing * depth + kind.after
    source = {
        "whole": opened + kind.innermost + closed,
        "wrong": opened + WRONG + closed,
        "cut": opened + kind.opening[:len(kind.opening) // 2],
        "broken": opened,
    }[variant]
    return Text(source.encode(), variant == "whole", kind.nesting(depth))


def nests_at(place):
    """The opening, the closing and the levels of the nests at a place."""
    return [(opening, closing, levels) for places, opening, _, closing, levels in NESTS
            if place in places]


def text_of_mixture(random, count, variant):
    """A text with `count` openings: nests of statements, and in the innermost one a value of
    nests."""
    inner = random.randint(0, count)
    statements = random.choices(nests_at("statement"), k=count - inner)
    values = random.choices(nests_at("value"), k=inner)
    openings = [*(it[0] for it in statements), "x = ", *(it[0] for it in values), "a"]
    closings = [it[1] for it in reversed(values)] + ["; "] + [it[1] for it in reversed(statements)]
    if variant == "wrong":
        openings.insert(random.randint(0, len(openings)), random.choice(STRAYS))
    before, after = PLACES["statement"]
    source = before + "".join(openings + closings) + after
    if variant == "cut":
        source = source[:random.randrange(1, len(source))]
    nesting = opened(before) + sum(it[2] for it in statements + values)
    return Text(source.encode(), variant == "whole", nesting)
