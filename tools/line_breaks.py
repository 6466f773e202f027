"""Breaks the long lines of an antt file where they are loosest, in the layout that `rt fmt` keeps.

An item is a declaration, a clause, a field or a constructor, over one or more lines. `rt fmt`
indents its lines after the first by the same width, except that a tuple, a record, or the cases
of an `elim` with a break inside have each part on lines of its own. An item with a long line keeps
its breaks and gets those of least cost: a line costs, a break costs by how deep it is in brackets
and operators, and so does each column that a line has over the width.
"""
import re
import textwrap
from functools import lru_cache
from itertools import takewhile

WIDTH = 100     # to how many columns lines are filled
LONG = 120      # an item with a line over this is broken
LONGEST = {"specs": 120, "proofs": 160}     # what tools/lines permits
SHORT = 60      # brackets of fewer columns stay on one line

LINE = 4        # what a line costs
INSIDE = 6      # what a break costs at the first depth
OVER = 0.5      # what a column over the width costs
NEVER = 100     # what is left out wherever it can be

TOKEN = re.compile(r'(\s*)(--.*|"(?:[^"\\]|\\.)*"|[(){},;]|[^\s(){},;"]+)')
CLOSERS = {"(": ")", "{": "}", "[": "]"}
SEPARATORS = {"tuple": ",", "record": ";", "cases": "|"}
# how loose operators are, the loosest first; any other sign is as loose as those of the middle
LOOSENESS = [
    "→", "$", "↔", "⊎", "×", "≡ ≢ ≤ < ⊢", ">>=", "∙ ▸", "||", "&&", "", "or", "gives makes",
    "++ + -", "∷", "then ▹ * / %", "means", "◃", "^",
]
RANK = {sign: rank for rank, signs in enumerate(LOOSENESS) for sign in signs.split()}
NO_OPERATOR = {"!", "¬", ":", "=", "|", "↦", "[]", "_", "?", "λ"}
# after and before these words no break is made
BINDERS = [["elim"], ["as"], ["!"], ["¬"]]
BOUND = {"as", ":", "where"}
HEADERS = {"record", "data", "module"}
STARTS = ("use ", "pub use ", "unfoldable pub use ", "mod ", "pub mod ")


class Node:
    """A word, a comment, or brackets with what is in them.

    It has a blank before it or not, and a break or not (`hard`); `gap` is the cost of a break that
    can be there, and `opening` the cost of lines of their own for the parts in brackets.
    """

    def __init__(self, text, space, starts, inner=None):
        self.text, self.space, self.hard, self.inner = text, space, starts, inner
        self.kind = "word" if inner is None else "plain"
        self.gap, self.opening = None, NEVER
        self.is_comment = text.startswith("--")


def tokens_of(lines):
    """The tokens of lines, each with whether a blank is before it and whether it starts a line."""
    found = []
    for line in lines:
        for at, token in enumerate(TOKEN.finditer(line)):
            found.append((token[2], bool(token[1]), at == 0))
    return found


def tree_of(tokens):
    """The nodes of tokens, with those in brackets below their bracket."""
    top = Node("", False, False, [])
    stack = [top]
    for text, space, starts in tokens:
        if len(stack) > 1 and text == CLOSERS[stack[-1].text]:
            stack[-1].closes, stack[-1].end_space = starts, space
            stack.pop()
            continue
        node = Node(text, space, starts, [] if text in CLOSERS else None)
        stack[-1].inner.append(node)
        if text in CLOSERS:
            stack.append(node)
    if len(stack) > 1:
        raise ValueError("brackets that are not closed")
    name_kinds(top.inner)
    return top.inner


def name_kinds(nodes):
    """Names the kinds of brackets: tuples, records and cases, and others, which have no parts."""
    for at, node in enumerate(nodes):
        if node.inner is None:
            continue
        name_kinds(node.inner)
        words = {it.text for it in node.inner if it.inner is None}
        before = [it.text for it in nodes[max(0, at - 2):at]]
        if node.text == "[":
            node.kind = "cases"
        elif node.text == "{" and "record" in before and (before[-1] == "record" or "=" in words):
            node.kind = "record"
        elif node.text == "(" and "," in words:
            node.kind = "tuple"
        elif node.text == "{" and "," in words:
            node.kind = "names"


def parts_of(box):
    """The parts of a tuple, a record or cases, each its nodes, with comments in the part after."""
    parts, part = [], []
    for node in box.inner:
        if node.text == SEPARATORS[box.kind] and node.inner is None:
            parts.append(part)
            part = []
        else:
            part.append(node)
    parts.append(part)
    return [it for it in parts if it]


# ---- what a break costs

def allow(node, cost):
    """Permits a break before a node, if a blank is there."""
    if node.space and node.gap is None:
        node.gap = cost


def cost_at(depth):
    """The cost of a break at a depth, which grows more and more slowly."""
    return INSIDE * depth ** 0.5


def rank_of(node):
    """How loose an operator is, or None."""
    if node.inner is not None or node.is_comment or node.text in NO_OPERATOR:
        return None
    if node.text in RANK:
        return RANK[node.text]
    return None if re.search(r'[\w"◌.]', node.text) else LOOSENESS.index("")


def front_of(nodes):
    """How many nodes are before a λ, let or if, which reaches to the end."""
    return next((at for at, it in enumerate(nodes) if it.text in ("λ", "let", "if")), len(nodes))


def weigh(nodes, depth):
    """Gives the gaps of a term their costs."""
    until = front_of(nodes)
    ranks = [rank_of(it) for it in nodes[:until]]
    ranks = [None if at == 0 else it for at, it in enumerate(ranks)]
    loosest = min((it for it in ranks if it is not None), default=None)
    if loosest is None:
        return weigh_application(nodes, until, depth)
    begin = 0
    for at in [*(at for at, it in enumerate(ranks) if it == loosest), len(nodes)]:
        if begin:
            allow(nodes[begin - 1], cost_at(depth))
        weigh(nodes[begin:at], depth + 1)
        begin = at + 1


def weigh_application(nodes, until, depth):
    """Gives the gaps of a function's arguments their costs; the last may be a λ, let or if."""
    for at, node in enumerate(nodes[:until]):
        before = [it.text for it in nodes[max(0, at - 2):at]]
        bound = before[-1:] in BINDERS or "record" in before or node.text in BOUND
        if at and not bound and not node.is_comment and node.kind != "cases":
            allow(node, cost_at(depth) + (at == 1) * INSIDE / 2 + (node.inner is None))
        weigh_inside(node, depth + (4 if before[-1:] == ["elim"] else 1))
    if until == len(nodes):
        return
    if until:
        allow(nodes[until], cost_at(depth))
    {"λ": weigh_function, "let": weigh_let, "if": weigh_choice}[nodes[until].text](
        nodes[until:], depth)


def weigh_inside(node, depth):
    """Gives the gaps in brackets their costs; parts are weighed one by one."""
    if node.inner is None or node.kind == "names":
        return
    node.opening = 0
    if node.kind != "cases":
        node.opening = cost_at(depth) + NEVER * (len(text_of(node)) < SHORT)
    if node.kind != "plain":
        for part in parts_of(node):
            weigh_part(part, node.kind)
        return
    front = node.inner[:front_of(node.inner)]
    colon = next((at for at, it in enumerate(front) if it.text in (":", "=")), -1)
    weigh(node.inner[colon + 1:], depth)


def weigh_part(part, kind):
    """Gives the gaps of a part of a tuple, a record or cases their costs."""
    signs = {"tuple": (), "record": ("=", ":"), "cases": ("↦",)}[kind]
    weigh_sides(part, signs, 2)


def weigh_sides(nodes, signs, left):
    """Gives the gaps on both sides of the first of some signs their costs."""
    at = next((at for at, it in enumerate(nodes) if it.text in signs and it.inner is None), None)
    if at is None:
        return weigh(nodes, 0)
    weigh_application(nodes[:at], at, left)
    if nodes[at + 1:]:
        allow(nodes[at + 1], INSIDE if nodes[at].text == ":" else 0)
    weigh(nodes[at + 1:], 0)


def weigh_function(nodes, depth):
    """Gives the gaps of a function's body their costs."""
    end = next((at for at, it in enumerate(nodes) if it.inner is None and it.text.endswith(".")),
               len(nodes) - 1)
    if nodes[end + 1:]:
        allow(nodes[end + 1], cost_at(depth + 1))
    weigh(nodes[end + 1:], depth + 1)


def weigh_let(nodes, depth):
    """Gives the gaps of `let .. in ..` their costs; what follows `in` is as loose as the whole."""
    level, end = 0, len(nodes)
    for at, node in enumerate(nodes):
        level += {"let": 1, "in": -1}.get(node.text, 0)
        if not level:
            end = at
            break
    signs = [at for at, it in enumerate(nodes[:end]) if it.text in (":", "=")]
    for begin, until in zip(signs, [*signs[1:], end]):
        if nodes[begin].text == "=" and nodes[begin + 1:]:
            allow(nodes[begin + 1], cost_at(depth + 1))
        weigh(nodes[begin + 1:until], depth + 1)
    if nodes[end + 1:]:
        allow(nodes[end + 1], cost_at(depth))
        weigh(nodes[end + 1:], depth)


def weigh_choice(nodes, depth):
    """Gives the gaps of `if .. then .. else ..` their costs."""
    begin = 1
    for at, node in enumerate([*nodes, None]):
        if node is None or node.inner is None and node.text in ("then", "else"):
            if node:
                allow(node, cost_at(depth))
            weigh(nodes[begin:at], depth + 1)
            begin = at + 1


# ---- the lines of least cost

def flat(nodes):
    """The pieces of nodes: words, ends of brackets without parts, and brackets with parts."""
    pieces = []
    for node in nodes:
        pieces.append(node)
        if node.kind in ("plain", "names"):
            pieces += flat(node.inner)
            end = Node(CLOSERS[node.text], False, node.closes)
            pieces.append(end)
    return pieces


@lru_cache(maxsize=WIDTH ** 2)
def text_of(node):
    """A node on one line, without the blank before it."""
    if node.inner is None or node.kind in ("plain", "names"):
        return node.text
    inner = "".join(" " * it.space + text_of(it) for it in flat(node.inner))
    return node.text + inner + " " * node.end_space + CLOSERS[node.text]


@lru_cache(maxsize=WIDTH ** 2)
def is_broken(box):
    """Whether brackets with parts have a break in them as they are written."""
    return box.kind in SEPARATORS and (
        box.closes or any(it.hard or is_broken(it) for it in flat(box.inner)))


def line_cost(text):
    """What a line costs."""
    return LINE + OVER * max(0, len(text) - WIDTH) + NEVER * max(0, len(text) - LONG)


def laid_out(nodes, first, later):
    """The cost and the lines of nodes, with the indentation of the first and of later ones."""
    pieces = flat(nodes)

    @lru_cache(maxsize=None)
    def after(start, indent, lead):
        """The cost and the lines from a piece on, after the text that its line begins with."""
        text, best = " " * indent + lead, (float("inf"), [])
        for at in range(start, len(pieces)):
            piece, starts = pieces[at], not text.strip()
            if not starts and (piece.hard or piece.gap is not None):
                cost, lines = after(at, later, "")
                cost += line_cost(text) + (0 if piece.hard else piece.gap)
                best = min((cost, [text, *lines]), best, key=lambda it: it[0])
                if piece.hard and piece.kind != "tuple":
                    return best
            text += " " * (1 + piece.is_comment) if piece.space and not starts else ""
            if piece.kind in SEPARATORS and piece.inner and not (
                    starts and at and piece.kind == "tuple"):
                best = min(best, opened(at, indent, text), key=lambda it: it[0])
            if is_broken(piece) or piece.hard and not starts or best[1] and len(text) > 2 * LONG:
                return best
            text += text_of(piece)
        return min((line_cost(text), [text]), best, key=lambda it: it[0])

    def opened(at, indent, text):
        """The cost and the lines from brackets on whose parts get lines of their own."""
        box = pieces[at]
        cost, lines = inside(box, indent + 2)
        rest = after(at + 1, indent, CLOSERS[box.text])
        whole = text + box.text
        cost += 0 if is_broken(box) else box.opening
        return line_cost(whole) + cost + rest[0], [whole, *lines, *rest[1]]

    for at in reversed(range(1, len(pieces))):
        if pieces[at].hard or pieces[at].gap is not None:
            after(at, later, "")
    return after(0, first, "")


@lru_cache(maxsize=WIDTH ** 2)
def inside(box, indent):
    """The cost and the lines of the parts of brackets."""
    total, found = 0, []
    for part in parts_of(box):
        comments = list(takewhile(lambda it: it.is_comment, part))
        for comment in comments:
            if comment.hard:
                found.append(" " * indent + comment.text)
            else:
                found[-1] += "  " + comment.text
        if part[len(comments):]:
            lead = [Node("|", True, False)] if box.kind == "cases" else []
            end = [Node(SEPARATORS[box.kind], False, False)] if box.kind != "cases" else []
            cost, lines = laid_out(lead + part[len(comments):] + end, indent, indent + 4)
            total += cost
            found += lines
    return total, found


# ---- items and comments

def indent_of(line):
    """How many blanks a line begins with."""
    return len(line) - len(line.lstrip(" "))


def is_import(line):
    """Whether a line is an import or names a module."""
    return line.startswith(STARTS)


def is_code(line):
    """Whether a line is neither empty nor a comment nor an import."""
    return bool(line.strip()) and not line.lstrip().startswith("--") and not is_import(line)


def end_of(lines, start):
    """Where the item ends that begins at a line: before a block, or a line that is no deeper."""
    level, end, least = 0, start, indent_of(lines[start])
    for at in range(start, len(lines)):
        if at > start and not level and lines[at].strip() and indent_of(lines[at]) <= least:
            break
        words = [text for text, _, _ in tokens_of([lines[at]]) if not text.startswith("--")]
        level += sum((it in CLOSERS) - (it in CLOSERS.values()) for it in words)
        if words:
            end = at + 1
            if words[-1] in ("where", "mutual") and not level:
                break
    return end


def is_header(nodes):
    """Whether an item begins a type or a module."""
    return any(it.text in HEADERS for it in nodes[:2])


def weigh_item(nodes):
    """Gives the gaps of an item their costs, and a break to a body that begins with `let`."""
    if is_header(nodes):
        weigh_sides(nodes, (":",), 0)
    else:
        weigh_sides(nodes, (":", "="), 2)
    at = next((at for at, it in enumerate(nodes) if it.text == "="), len(nodes)) + 1
    if at < len(nodes) and nodes[at].text == "let":
        nodes[at].hard = True


def item_broken(lines):
    """The lines of an item, broken."""
    nodes, indent = tree_of(tokens_of(lines)), indent_of(lines[0])
    weigh_item(nodes)
    made = laid_out(nodes, indent, indent + 4)[1]
    if nodes[-1].text == "where" and len(made) > 1 and not is_header(nodes):
        nodes[-1].hard = True
        made = [*laid_out(nodes, indent, indent + 4)[1][:-1], " " * (indent + 2) + "where"]
    if meaning(made) != meaning(lines):
        raise ValueError(f"the tokens would change of: {lines[0][:WIDTH]}")
    return made


def meaning(lines):
    """The tokens of lines, without separators that only a layout over several lines has."""
    tokens = [text for text, _, _ in tokens_of(lines)] + [""]
    code = [it for it in tokens if not it.startswith("--")]
    around = zip(["", *code], code, code[1:])
    kept = [it for before, it, then in around
            if (it, then) not in ((",", ")"), (";", "}")) and (before, it) != ("[", "|")]
    return kept, [it for it in tokens if it.startswith("--")]


def comment_broken(line):
    """The lines of a line: several if it is a long comment."""
    if not line.lstrip().startswith("-- ") or len(line) <= WIDTH:
        return [line]
    lead = " " * indent_of(line) + "-- "
    return textwrap.wrap(line.strip().removeprefix("--").strip(), WIDTH, initial_indent=lead,
                         subsequent_indent=lead, break_long_words=False, break_on_hyphens=False)


def move_block(lines, start, end, last):
    """Indents the block of an item as its last line wants it, which may be a `where` alone."""
    if last.strip() != "where" or end == len(lines):
        return
    base, now = indent_of(lines[start]), indent_of(lines[end])
    for at in range(end, len(lines)):
        if lines[at].strip():
            if indent_of(lines[at]) <= base:
                break
            lines[at] = " " * (base + 4) + lines[at][now:]


def broken(text):
    """The text of an antt file with its long lines broken."""
    lines = [it for line in text.splitlines() for it in comment_broken(line)]
    made, at = [], 0
    while at < len(lines):
        end = end_of(lines, at) if is_code(lines[at]) else at + 1
        if is_code(lines[at]) and any(len(it) > LONG for it in lines[at:end]):
            made += item_broken(lines[at:end])
            move_block(lines, at, end, made[-1])
        else:
            made += lines[at:end]
        at = end
    return "".join(it + "\n" for it in made)
