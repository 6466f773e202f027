"""The wrong bodies of the must-fail edits: what each changes, and in which function.

A wrong body is the pairs of lines `old:` and `new:` of an edit up to the next line that begins with
`#` and says what is wrong in the next one. The function is the one that its lines are in; where
they are in none, as those of a table are, a line `# fn: PATH` names it. A line `# goal: NAME` may
name the goal that fails, by which several bodies of a function are told apart, and a line
`# each run` marks a body that each run tries. A body may also be written into a copy of its
function that comes after it, so that several bodies of one function can be checked at once.
"""
import difflib
import re
from dataclasses import dataclass, field, replace
from typing import NamedTuple

# the head of a function, and of what holds functions, as `rt fmt` formats them
FUNCTION = re.compile(r'((?:    )?)(?:pub(?:\([^)]*\))? )?(?:const |unsafe |extern "C" )*fn (\w+)')
OWNER = re.compile(r"impl\b|(?:pub(?:\([^)]*\))? )?trait (\w+)")
# a function that is proved together with others, or that others link by its name
BOUND = re.compile(r"#\[(?:cycle|unsafe)\b")
# what the prover leaves out of a type where it names an impl by it
LEFT_OUT = re.compile(r"'\w+|\b(?:[A-Z]|mut|dyn)\b|\w+::|\W")


class Unread(Exception):
    """Why a wrong body can't be applied, or its function not be told."""


class Hunk(NamedTuple):
    """Lines of a file, from the first to before the last, and those that replace them."""

    file: str
    first: int
    last: int
    lines: tuple


@dataclass
class Body:
    """A wrong body: its edit and its number there, what is wrong, and its lines."""

    edit: str
    number: int
    wrong: str = ""
    lines: list = field(default_factory=list)
    # what it changes, and the functions that it is in, by their paths in the crate
    hunks: list = field(default_factory=list)
    functions: list = field(default_factory=list)
    # the function of which it changes a copy, if it does
    copied: str = ""
    # the goal that has to fail, if it is named
    goal: str = ""
    # whether each run tries it
    is_marked: bool = False

    @property
    def name(self):
        return f"{self.edit}.{self.number}"


def split(edit, text):
    """The wrong bodies of an edit, each with the `file:` line that is in force before it."""
    found, file = [Body(edit, 1)], []
    for line in text.splitlines():
        body = found[-1]
        if line.startswith("# fn: "):
            body.functions.append(line.removeprefix("# fn: ").strip())
        elif line.startswith("# goal: "):
            body.goal = line.removeprefix("# goal: ").strip()
        elif line == "# each run":
            body.is_marked = True
        elif not line.startswith("#"):
            body.lines.append(line)
            file = [line] if line.startswith("file:") else file
        elif any(it.startswith("new:") for it in body.lines):
            found.append(Body(edit, body.number + 1, line[1:].strip(), list(file)))
        else:
            body.wrong = f"{body.wrong} {line[1:].strip()}".strip()
    return found


def bodies_of(folder):
    """The wrong bodies of the crate in a folder."""
    paths = sorted((folder / "must-fail").glob("*.edit"))
    return [body for path in paths for body in split(path.stem, path.read_text())]


def changed_texts(body, folder):
    """The texts of the files that a body changes, by their paths in the crate."""
    texts, path, old = {}, None, None
    for line in body.lines:
        word, _, rest = line.partition(":")
        rest = rest.removeprefix(" ")
        if word == "file":
            path = rest.strip()
        elif word == "old":
            old = rest
        elif word == "new":
            if not path or not old:
                raise Unread("a 'new:' line has no 'file:' or no 'old:' line before it")
            texts[path] = texts.get(path) or (folder / path).read_text()
            if (count := texts[path].count(old)) != 1:
                raise Unread(f"an 'old:' text is in {path} {count} times, and not once")
            texts[path], old = texts[path].replace(old, rest), None
    return texts


def hunks_of(body, folder):
    """What a body changes, as lines."""
    found = []
    for path, text in changed_texts(body, folder).items():
        old, new = (folder / path).read_text().split("\n"), text.split("\n")
        matcher = difflib.SequenceMatcher(None, old, new, autojunk=False)
        for word, first, last, start, end in matcher.get_opcodes():
            if word != "equal":
                found.append(Hunk(path, first, last, tuple(new[start:end])))
    if not found:
        raise Unread("it changes nothing")
    return found


def after_function(lines, first, indent):
    """The line after the function that begins at a line with these blanks before it."""
    for at in range(first, len(lines)):
        if lines[at].startswith((indent + "}", indent + "{}")) or lines[first].endswith("{}"):
            return at + 1
        # one without a body
        if lines[at].endswith(";") and all(not it.endswith("{") for it in lines[first:at]):
            return at + 1
    return len(lines)


def owner_of(lines, first):
    """What holds the function at a line, in the words that the prover names it by: a trait, or the
    type of an impl, which may be any, and its trait."""
    at = next(at for at in range(first, -1, -1) if OWNER.match(lines[at]))
    if trait := OWNER.match(lines[at])[1]:
        return trait.lower()
    opens = next(it for it in range(at, first) if lines[it].endswith("{"))
    head = " ".join(lines[at : opens + 1]).removeprefix("impl").replace("->", "").rstrip(" {")
    head = after_brackets(head.partition(" where ")[0]).strip()
    trait, _, of = head.rpartition(" for ")
    return ((LEFT_OUT.sub("", of) or "any") + LEFT_OUT.sub("", trait)).lower()


def after_brackets(text):
    """What stands after the brackets `<` and `>` that a text begins with."""
    depth = 0
    for at, character in enumerate(text):
        depth += (character == "<") - (character == ">")
        if not depth:
            return text[at + 1 :] if at else text
    return ""


def module_of(path):
    """The module that a file of src/ is, as the names that lead to it."""
    parts = path.removeprefix("src/").removesuffix(".rt").split("/")
    return [it for it in parts if it not in ("lib", "main", "mod")]


def free_functions(folder):
    """The functions of a crate that are in no impl, by their paths."""
    found = set()
    for file in sorted((folder / "src").rglob("*.rt")):
        heads = filter(None, map(FUNCTION.match, file.read_text().split("\n")))
        module = module_of(str(file.relative_to(folder)))
        found |= {"::".join([*module, head[2]]) for head in heads if not head[1]}
    return found


def functions_of(path, text, names):
    """The functions of a file, each with its lines, from the first to before the last, and those of
    the crate's names that may be its own."""
    module = module_of(path)
    lines, found = text.split("\n"), []
    for first, line in enumerate(lines):
        if not (head := FUNCTION.match(line)):
            continue
        owner = owner_of(lines, first) if head[1] else ""
        fits = [it for it in names if is_named(it.split("::"), owner, head[2])]
        here = [it for it in fits if it.split("::")[: len(module)] == module]
        found.append((first, after_function(lines, first, head[1]), here or fits))
    return found


def is_named(path, owner, name):
    """Whether the prover's path may be that of a function of this name, with this owner if it has
    one."""
    if not owner or len(path) < 2:
        return path[-1] == name and not owner
    return path[-1] == name and re.sub(r"tuple\d", "", path[-2].lower()) == owner


def place(body, folder, names):
    """Finds the lines that a body changes and, where it names none, the functions that they are
    in."""
    body.hunks = hunks_of(body, folder)
    if body.functions:
        return
    for path in {hunk.file for hunk in body.hunks}:
        own = [hunk for hunk in body.hunks if hunk.file == path]
        for first, last, fits in functions_of(path, (folder / path).read_text(), names):
            if any(first < max(it.last, it.first + 1) and it.first < last for it in own):
                if len(fits) != 1:
                    told = f"fits {len(fits)} functions: " + " ".join(fits)
                    raise Unread(f"{path}:{first + 1} {told}; name the one in a line `# fn: PATH`")
                body.functions += fits
    if not body.functions:
        raise Unread("it changes no function: name the one in a line `# fn: PATH`")


def in_copy(body, folder, names):
    """The body in a copy of its function after it. None where it changes more than one function, or
    one of a trait or of its impl, of a cycle of calls, or that is exported."""
    path = body.hunks[0].file
    lines = (folder / path).read_text().split("\n")
    for first, last, fits in functions_of(path, "\n".join(lines), names):
        is_within = all(path == it.file and first <= it.first and it.last < last for it in body.hunks)
        if is_within and fits == body.functions and is_free(lines, first):
            copy = lines[first:last]
            for hunk in sorted(body.hunks, reverse=True):
                copy[hunk.first - first : hunk.last - first] = hunk.lines
            name = f"{FUNCTION.match(lines[first])[2]}_{body.edit}_{body.number}".lower()
            copy[0] = FUNCTION.sub(lambda it: it[0][: -len(it[2])] + name, copy[0], count=1)
            to = "::".join([*fits[0].split("::")[:-1], name])
            hunk = Hunk(path, last, last, ("", *copy))
            return replace(body, hunks=[hunk], functions=[to], copied=fits[0])
    return None


def is_free(lines, first):
    """Whether a copy may be made of the function at a line, under another name."""
    above = first
    while lines[above - 1].strip().startswith(("#[", "///")):
        above -= 1
    if any(BOUND.search(it) for it in lines[above:first]):
        return False
    if not lines[first].startswith(" "):
        return True
    at = next(at for at in range(first, -1, -1) if OWNER.match(lines[at]))
    opens = next(it for it in range(at, first) if lines[it].endswith("{"))
    head = " ".join(lines[at : opens + 1])
    return head.startswith("impl") and " for " not in head


def copied_proofs(body, folder, crate):
    """The files of the proof of a body's copy, by their paths in the crate."""
    if not body.copied:
        return {}
    at, to = (it.replace("::", "/") for it in (body.copied, body.functions[0]))
    old, new = (f"Rattle.{crate}.proofs.{it.replace('/', '.')}." for it in (at, to))
    files = sorted((folder / "proofs" / at).glob("*.antt"))
    return {f"proofs/{to}/{it.name}": it.read_text().replace(old, new) for it in files}


def joined(bodies, folder):
    """The texts of the files with these bodies, and at which lines of them each stands."""
    texts, places = {}, []
    for path in sorted({hunk.file for body in bodies for hunk in body.hunks}):
        lines, shift = (folder / path).read_text().split("\n"), 0
        hunks = [(hunk, body) for body in bodies for hunk in body.hunks if hunk.file == path]
        for hunk, body in sorted(hunks, key=lambda it: it[0].first):
            first = hunk.first + shift
            lines[first : hunk.last + shift] = hunk.lines
            places.append((path, first, first + len(hunk.lines), body))
            shift += len(hunk.lines) - (hunk.last - hunk.first)
        texts[path] = "\n".join(lines)
    return texts, places


def apart(bodies):
    """As many of some bodies as are in functions and lines of their own, or fail at goals of their
    own, and the rest."""
    taken, left, goals, lines = [], [], {}, set()
    for body in bodies:
        own = {(hunk.file, at) for hunk in body.hunks for at in range(hunk.first, hunk.last + 1)}
        others = {goal for path in body.functions for goal in goals.get(path, ())}
        if others & {"", body.goal} or others and not body.goal or lines & own:
            left.append(body)
        else:
            taken.append(body)
            for path in body.functions:
                goals.setdefault(path, set()).add(body.goal)
            lines |= own
    return taken, left
