"""Reads definitions in antt: files as items, right sides as terms, signatures as what they take.

A term is a tuple: ("name", x), ("app", head, arguments), ("op", sign, left, right),
("lambda", patterns, body), ("tuple", terms) or ("record", fields).
"""
import re
from pathlib import Path

TOKEN = re.compile(r'"[^"]*"|\w[\w\'-]*(?:\.\w+)*|\+\+|\[\]|\S')
# how tightly the signs between terms bind, and whether to the left
SIGNS = {"◃": (80, True), "means": (75, True), "then": (70, False), "▹": (70, False),
         "gives": (60, True), "makes": (60, True), "with_check": (60, True), "or": (50, False),
         "++": (46, False), "∷": (45, False), "×": (30, False), "≡": (20, False),
         "→": (10, False)}
OPENS, CLOSES, ENDS = "({", ")}", ")},;:=."


def tokens(text):
    """The tokens of a text without comments."""
    lines = [re.sub(r"(^|\s)--( .*)?$", "", line) for line in text.splitlines()]
    return TOKEN.findall("\n".join(lines))


def items(text):
    """The items of a file: each line at the left, also of a block, with those that continue it."""
    lines = [line for line in text.splitlines() if line.strip() and not line.startswith("--")]
    found, mutual = [], False
    for line in lines:
        begins = re.match(r"(abbrev )?mutual$|module _ .* where$", line)
        mutual = bool(begins) or (mutual and line[0].isspace())
        if begins:
            continue
        line = line[2:] if mutual else line
        if line[:1].isspace() and found:
            found[-1] += "\n" + line
        else:
            found.append(line)
    return found


def source(path):
    """The text of a file, after those of the files by tools from which it passes names on."""
    text = path.read_text()
    passed = re.findall(r"^pub use Rattle\.([\w.]+Nodes)\.\{", text, re.M)
    files = [Path("crates", *module.split(".")).with_suffix(".antt")
             for module in dict.fromkeys(passed)]
    return "".join([*map(source, files), text])


def constructors(path, name):
    """The names that a `data` declares, in order."""
    block = re.search(rf"^pub data {name} : .*\n((?: .*\n)+)", path.read_text(), re.M)[1]
    lines = [line for line in block.splitlines() if not line.lstrip().startswith("--")]
    return [name for line in lines for name in line.split(" : ")[0].split()]


def last(name):
    """A name without the module or the type before it; what projects stays."""
    parts = name.split(".")
    return name if parts[-1].isdigit() else parts[-1]


class Terms:
    """Reads terms from tokens."""

    def __init__(self, given):
        self.left = list(given)

    def next(self):
        """Takes the next token."""
        return self.left.pop(0)

    def sees(self, *some):
        """Whether the next token is one of some."""
        return bool(self.left) and self.left[0] in some

    def term(self, least=0):
        """A term whose signs bind at least so tightly."""
        term = self.applied()
        while self.left and self.left[0] in SIGNS and SIGNS[self.left[0]][0] >= least:
            sign = self.next()
            binds, leftwards = SIGNS[sign]
            term = ("op", sign, term, self.term(binds + 1 if leftwards else binds))
        return term

    def applied(self):
        """A part with its arguments."""
        head, arguments = self.part(), []
        while self.left and self.left[0] not in SIGNS and not self.sees(*ENDS):
            arguments.append(self.part())
        return ("app", head, tuple(arguments)) if arguments else head

    def part(self):
        """A name, a λ, a record, or terms in parentheses."""
        token = self.next()
        if token == "{":
            return ("name", "{" + " ".join(self.skipped("}")) + "}")
        if token == "λ":
            patterns = []
            while not self.sees("."):
                patterns.append(self.part())
            self.next()
            return ("lambda", tuple(patterns), self.term())
        if token == "record":
            return self.record()
        if token != "(":
            return ("name", token)
        terms = [self.term()]
        while self.sees(","):
            self.next()
            terms.append(self.term())
        self.skipped(")")
        return terms[0] if len(terms) == 1 else ("tuple", tuple(terms))

    def skipped(self, end):
        """What is passed over up to a closing bracket, which is taken too."""
        passed, depth = [], 0
        while depth or not self.sees(end):
            depth += (self.left[0] in OPENS) - (self.left[0] in CLOSES)
            passed.append(self.next())
        self.next()
        return passed

    def record(self):
        """The fields of a record."""
        self.next()
        fields = []
        while not self.sees("}"):
            name = self.next()
            self.next()
            fields.append((name, self.term()))
            if self.sees(";"):
                self.next()
        self.next()
        return ("record", tuple(fields))


def term(text):
    """The term that a text, or a list of tokens, is."""
    return Terms(tokens(text) if isinstance(text, str) else text).term()


def split(given, sign):
    """Tokens as the parts between the signs that are in no bracket."""
    parts, depth = [[]], 0
    for token in given:
        depth += (token in OPENS) - (token in CLOSES)
        if token == sign and depth == 0:
            parts.append([])
        else:
            parts[-1].append(token)
    return parts


def end_of(given):
    """The place where the bracket closes that tokens begin with."""
    depth = 0
    for place, token in enumerate(given):
        depth += (token in OPENS) - (token in CLOSES)
        if depth == 0:
            return place
    return None


def groups(given):
    """The binders of a part of a signature, with brackets, names and types; none of a type."""
    found, rest = [], list(given)
    while rest and rest[0] in OPENS:
        end = end_of(rest)
        inside = split(rest[1:end], ":")
        if len(inside) != 2 or not all(re.fullmatch(r"\w+", name) for name in inside[0]):
            return []
        found.append((rest[0], inside[0], inside[1]))
        rest = rest[end + 1:]
    return [] if rest else found


def signature(text):
    """What a signature takes, as binders and premises in order, and what it gives, as tokens."""
    *taken, given = split(tokens(text), "→")
    steps = []
    for part in taken:
        binders = groups(part)
        steps += [("binder", *binder) for binder in binders] or [("premise", part)]
    return steps, given


class Module:
    """A file of definitions, maybe with what it passes on: its name, where its names come from, and
    its clauses."""

    def __init__(self, path, whole=False):
        self.name = "Rattle." + ".".join(path.with_suffix("").parts[1:])
        self.uses, self.aliases, self.clauses, self.signatures = {}, {}, {}, []
        for item in items(source(path) if whole else path.read_text()):
            self.read(item)

    def read(self, item):
        """Reads an item: an import, a signature or a clause."""
        if item.startswith("use "):
            words = item.split()
            module = words[1].partition(".{")[0]
            if "as" in words:
                self.aliases[words[3]] = module
            for entry in re.split(r"[,\s]+", item.partition(".{")[2].rstrip("} ")):
                self.uses.setdefault(last(entry), []).append((module, entry))
            return
        head = re.match(r"((?:abbrev |unfoldable )?(?:pub )?)([\w-]+) :\s", item)
        if head:
            self.signatures.append((head[2], "pub" in head[1], item[head.end():]))
        elif re.match(r"[\w-]+[^:{]* =\s", item):
            left, right = item.split("=", 1)
            name, *patterns = tokens(left)
            parts = Terms(patterns)
            patterns = []
            while parts.left:
                patterns.append(parts.part())
            self.clauses.setdefault(name, []).append((patterns, tokens(right)))

    def home(self, name):
        """The module that a name comes from, and its name there."""
        first, _, rest = name.partition(".")
        if first in self.aliases:
            return self.aliases[first], rest
        found = [use for use in self.uses.get(last(name), []) if not use[1].startswith("Symbol.")]
        if not found and rest:
            found = [(use[0], name) for use in self.uses.get(first, [])]
        return found[0] if found else (self.name, name)


# ---- terms


def same(left, right):
    """Whether two terms are the same, ignoring the modules of names."""
    if isinstance(left, tuple) and isinstance(right, tuple):
        if left[:1] == right[:1] == ("name",):
            return last(left[1]) == last(right[1])
        return len(left) == len(right) and all(same(a, b) for a, b in zip(left, right))
    return left == right


def applied(head, arguments):
    """A term at arguments, if there are some."""
    return ("app", head, tuple(arguments)) if arguments else head


def match(pattern, term, variables, found):
    """Whether a term has the form of a pattern; adds what its variables are."""
    if pattern[0] == "name":
        if pattern[1] in variables:
            return same(found.setdefault(pattern[1], term), term)
        return term[0] == "name" and same(pattern, term)
    if pattern[0] == "app" and pattern[1][1] in variables and all(
            part[0] == "name" and part[1] not in variables for part in pattern[2]):
        return match_function(pattern, term, found)
    if pattern[0] != term[0]:
        return False
    if pattern[0] == "lambda":
        return len(pattern[1]) == len(term[1]) and match(
            pattern[2], renamed(term[2], term[1], pattern[1]), variables, found)
    if pattern[0] == "app":
        pattern, term = (pattern[1], *pattern[2]), (term[1], *term[2])
    elif pattern[0] != "op" or pattern[1] != term[1]:
        return same(pattern, term)
    else:
        pattern, term = pattern[2:], term[2:]
    return len(pattern) == len(term) and all(
        match(p, t, variables, found) for p, t in zip(pattern, term))


def match_function(pattern, term, found):
    """The same for a variable at names: the function that makes the term of the names."""
    names = pattern[2]
    if term[0] == "app" and same(term[2][-len(names):], names):
        function = applied(term[1], term[2][:-len(names)])
    else:
        plain = tuple(("name", name.partition(".")[0]) for _, name in names)
        function = ("lambda", plain, renamed(term, names, plain))
    return same(found.setdefault(pattern[1][1], function), function)


def substituted(term, found):
    """A term with what is found in the places of names."""
    if isinstance(term, tuple):
        if term[:1] == ("name",):
            return found.get(term[1], term)
        made = tuple(substituted(part, found) for part in term)
        if made[:1] == ("app",) and made[1][0] == "app":
            return ("app", made[1][1], made[1][2] + made[2])
        return made
    return term


def renamed(term, names, others):
    """A term with other names for some, also where something is projected from them."""
    if isinstance(term, tuple):
        if term[:1] == ("name",):
            for old, new in zip(names, others):
                if term[1] == old[1] or term[1].startswith(old[1] + "."):
                    return ("name", new[1] + term[1][len(old[1]):])
            return term
        return tuple(renamed(part, names, others) for part in term)
    return term


def names_in(term):
    """The names in a term."""
    if isinstance(term, tuple):
        return {term[1]} if term[:1] == ("name",) else {n for part in term for n in names_in(part)}
    return set()


def size(term, variables):
    """How many names and signs a pattern gives."""
    if isinstance(term, tuple):
        if term[:1] == ("name",):
            return int(term[1] not in variables)
        return (term[:1] == ("op",)) + sum(size(part, variables) for part in term)
    return 0


def shortened(term):
    """A function without the arguments that it only passes on."""
    if term[0] == "lambda" and term[2][0] == "app":
        names, (_, head, arguments) = term[1], term[2]
        rest = arguments[:-len(names)]
        if arguments[-len(names):] == names and not names_in(rest) & names_in(names):
            return applied(head, rest)
    return term


def factors(term):
    """The factors of a product."""
    return [term[2], *factors(term[3])] if term[:2] == ("op", "×") else [term]


# ---- texts


def bound(names, text):
    """A λ over names."""
    return f"λ {' '.join(names)}. {text}" if names else text


def import_of(module, names):
    """The line that imports names of a module, if there are some."""
    return [f"use {module}.{{{', '.join(names)}}}"] if names else []


def enclosed(text):
    """A text in parentheses, where it has parts."""
    return f"({text})" if " " in text and text[0] not in "([{" else text
