"""Shows that the prover refuses each wrong body of the must-fail edits on its own.

All wrong bodies of a crate are put into one copy of it, which is checked once, and the prover's
line for each function is read: the function of a wrong body has to fail by itself, and not because
it calls one that fails. All other functions, which `rt ci` proves, are taken by their contracts
(see stubs.py). A second body of a function is put into a copy of that function beside it, with its
proof. Bodies for which there can be no copy, or that it does not show to be refused, are tried in
further checks over what the first one proved, in their functions themselves, and of these alone.
A body that is refused only since a proof names what the body takes away is told from the others: a
change of a value that keeps the names says more of the contract.
"""
import json
import os
import re
import shutil
import subprocess
from enum import Enum

import crates
from stubs import Stub, put_proofs, stubs_of
from wrong_bodies import (
    Unread, apart, bodies_of, copied_proofs, free_functions, in_copy, joined, place,
)

CRATES = crates.TOP / "crates"

# what the prover says of a function, and of a goal in a file of its proof
LINE = re.compile(r"^fn \w+::(\S+): (.*)$", re.MULTILINE)
GOALS = re.compile(r"`search` did not prove ((?:`[^`]*`(?:, | and )?)+)")
ERROR = re.compile(
    r"^(?:\./)?proofs/(\S+)/\w+\.antt:\d+:\d+: error: (?:`([^`]*)`: )?(.*)", re.MULTILINE
)
# how a line begins of a function that is proved; the holes are those of functions without a proof
IS_PROVED = ("no holes", "depends on a hole in ")
# an error that only says that a proof names what the body took away
NAMED = re.compile(r"has no field|is not in scope|has no `|was not admitted")
# where the front end or the prover can't read a text
UNREADABLE = re.compile(r"^(?:\./)?((?:src|specs)/\S+):(\d+):\d+: error", re.MULTILINE)


class Verdict(Enum):
    REFUSED = "refused"
    PROVED = "still proved"
    UNTOLD = "not told apart"
    NAMED = "refused, but only since its proof names what it takes away"
    UNREAD = "not applied, not compiled, or in no function that is known"


# what shows that the function of a wrong body fails by itself
IS_REFUSED = (Verdict.REFUSED, Verdict.NAMED)


def goals_of(words):
    """The goals that a function's line says are not proved."""
    return [goal for named in GOALS.findall(words) for goal in re.findall(r"`([^`]*)`", named)]


def is_goal_of(goal, path):
    """Whether a goal of a cycle of functions is one of the function at this path."""
    parts = path.split("::")
    return any(f"-{'::'.join(parts[at:])}-" in f"-{goal}" for at in range(len(parts)))


def verdict_of(path, said, goal=""):
    """What a check says of the function at a path, or of one of its goals: a verdict if it tells
    one, and its reason."""
    lines = dict(LINE.findall(said))
    words = lines.get(path, "")
    if words.startswith(IS_PROVED):
        return Verdict.PROVED, ""
    in_cycle = "of this cycle of calls" in words or "/+" in words
    own = [it for it in goals_of(words) if not in_cycle or is_goal_of(it, path)]
    if own and goal in ("", *own):
        return Verdict.REFUSED, goal or own[0]
    told = []
    for folder, name, why in ERROR.findall(said):
        if folder == path.replace("::", "/") or "+" in folder and is_goal_of(name or "", path):
            told += [(name, why)] if goal in ("", name) else []
    real = [it for it in told if not NAMED.search(it[1])]
    if real:
        return Verdict.REFUSED, real[0][0] or real[0][1][:60]
    return (Verdict.NAMED, told[0][1][:100]) if told else (None, words[:200])


def verdict_of_body(body, said):
    """What a check says of a wrong body: it is refused where one of its functions is."""
    found = [verdict_of(path, said, body.goal) for path in body.functions]
    for verdict in (Verdict.REFUSED, None, Verdict.NAMED, Verdict.PROVED):
        for it in found:
            if it[0] is verdict:
                return it
    return None, ""


class Killed(Exception):
    """Which check was killed twice."""


class Tried:
    """The wrong bodies of a crate, as they are tried over the libraries in a folder of crates."""

    def __init__(self, crate, lines, libraries):
        self.crate, self.lines, self.libraries = crate, lines, libraries
        self.folder = CRATES / crate
        self.bodies, self.verdicts = bodies_of(self.folder), {}
        # how many were tried, and the seconds that each check took
        self.count, self.seconds = 0, []
        self.calls, self.reaches = calls_of(crate, lines, libraries), {}
        self.names, self.has_stubs = set(self.calls), True
        self.stubs = stubs_of(self.folder, self.names)
        for body in self.bodies:
            try:
                place(body, self.folder, self.names)
            except Unread as why:
                self.verdicts[body.name] = Verdict.UNREAD, str(why)

    def left(self):
        return [body for body in self.bodies if body.name not in self.verdicts]

    def told(self, *verdicts):
        """The bodies that did not come to one of these verdicts, each with what it came to."""
        found = [(body, self.verdicts[body.name]) for body in self.bodies]
        return [it for it in found if it[1][0] not in verdicts]

    def run(self, room):
        """Tries what is left until each body has a verdict; those that are not refused beside stubs
        are tried once more without these."""
        self.count = len(self.left())
        self.try_left(room)
        if wrong := [body for body, _ in self.told(*IS_REFUSED) if body.hunks and self.has_stubs]:
            self.has_stubs = False
            for body in wrong:
                del self.verdicts[body.name]
            self.try_left(room)

    def try_left(self, room):
        """Tries what is left, all at once, and then in functions themselves what that leaves."""
        self.try_copies(room)
        while left := self.left():
            taken, _ = apart(left)
            self.settle(taken, room)

    def try_copies(self, room):
        """Tries all bodies at once that can be, those whose function has another body in copies of
        it. Unless a text can't be read, notes what is told of those that are in place, and which of
        the others are refused."""
        in_place, more = apart(self.left())
        copies = [in_copy(body, self.folder, self.names) for body in more]
        bodies = [*in_place, *filter(None, copies)]
        said, places = self.check(bodies, room)
        if unreadable(said, places):
            return
        for body in bodies:
            verdict, why = verdict_of_body(body, said)
            if verdict is Verdict.REFUSED or verdict and not body.copied:
                self.verdicts[body.name] = verdict, why

    def reached(self, name):
        """The functions of the crate that one calls, and those that these call."""
        if name not in self.reaches:
            found, left = set(), [name]
            while left:
                new = self.calls.get(left.pop(), set()) - found
                found |= new
                left += new
            self.reaches[name] = found
        return self.reaches[name]

    def settle(self, bodies, room):
        """Tries some bodies at once; where that tells nothing of any, in halves, and then alone."""
        said, places = self.check(bodies, room)
        before = len(self.verdicts)
        for body in unreadable(said, places) if len(bodies) > 1 else []:
            self.settle([body], room)
        if not LINE.search(said):
            if len(bodies) == 1:
                self.verdicts[bodies[0].name] = Verdict.UNREAD, first_error(said)
        else:
            for body in bodies:
                verdict, why = verdict_of_body(body, said)
                if verdict:
                    self.verdicts.setdefault(body.name, (verdict, why))
        if len(self.verdicts) > before:
            return
        if len(bodies) == 1:
            self.verdicts[bodies[0].name] = Verdict.UNTOLD, verdict_of_body(bodies[0], said)[1]
            return
        middle = len(bodies) // 2
        self.settle(bodies[:middle], room)
        self.settle(bodies[middle:], room)

    def check(self, bodies, room):
        """What the prover says of the functions of some bodies, in a copy of the crate with these,
        and where each is there."""
        wrong = self.with_cycles({path for body in bodies for path in body.functions})
        # the prover refuses an attribute that names a cycle which a stub is not in
        stubs = [it for it in self.stubs_beside(wrong) if not it.cycle and self.has_stubs]
        texts, places = joined([*bodies, *stubs], self.folder)
        at = room / "crate"
        shutil.rmtree(at, ignore_errors=True)
        for part in crates.READ:
            if (self.folder / part).is_dir():
                shutil.copytree(self.folder / part, at / part)
        put_proofs(stubs, self.crate, at / "proofs")
        for body in bodies:
            texts |= copied_proofs(body, self.folder, self.crate)
        for path, text in texts.items():
            (at / path).parent.mkdir(parents=True, exist_ok=True)
            (at / path).write_text(text)
        words = [crates.kit() / "bin/rattle", "check"]
        words += crates.words(self.crate, self.lines, self.libraries)
        words += ["--jobs", "1", "--allow-holes", "--incremental", room / "kept"]
        for path in sorted({path for body in bodies for path in body.functions}):
            words += ["--only", path]
        said = self.said([str(it) for it in words], at, room / "said.txt")
        is_unread = not LINE.search(said) or any(
            isinstance(body, Stub) for body in unreadable(said, places)
        )
        if stubs and is_unread:
            self.has_stubs = False
            return self.check(bodies, room)
        return said, places

    def with_cycles(self, functions):
        """Some functions, and those in a cycle of calls with one of them."""
        calls = {it for path in functions for it in self.reached(path) if path in self.reached(it)}
        named = {it.cycle for it in self.stubs if it.cycle and it.functions[0] in functions}
        return {*functions, *calls, *(it.functions[0] for it in self.stubs if it.cycle in named)}

    def stubs_beside(self, functions):
        """Stubs of all functions but some."""
        return [it for it in self.stubs if it.functions[0] not in functions]

    def said(self, words, at, file):
        """What the prover writes in a folder, by way of a file; counts the seconds that it takes.
        Where it is killed, which it is where memory is short, it is run once more."""
        for _ in range(2):
            with open(file, "w") as said:
                how = {"stdin": subprocess.DEVNULL, "stdout": said, "stderr": subprocess.STDOUT}
                ran = subprocess.Popen(words, cwd=at, **how)
                _, status, used = os.wait4(ran.pid, 0)
                ran.returncode = os.waitstatus_to_exitcode(status)
            self.seconds.append(used.ru_utime + used.ru_stime)
            if ran.returncode >= 0:
                return file.read_text(errors="replace")
        raise Killed(f"a check of {self.crate} was killed twice, most likely for memory")


def unreadable(said, places):
    """The bodies at whose lines a check finds a text that can't be read."""
    errors = [(path, int(line) - 1) for path, line in UNREADABLE.findall(said)]
    found = [
        body for path, first, last, body in places
        if any(path == file and first <= line < last for file, line in errors)
    ]
    return list({body.name: body for body in found}.values())


def first_error(said):
    lines = [line for line in said.splitlines() if "error" in line] or said.splitlines() or [""]
    return lines[0][:200]


def calls_of(crate, lines, libraries):
    """The functions of a crate by their paths in it, each with those that it names, as the library
    that `rt ci` built has them. Of a static library, which is not built there, the functions in no
    impl, which name none."""
    if crates.is_static(crate, lines):
        return {name: set() for name in free_functions(CRATES / crate)}
    file = crates.rlib(crate, libraries) / "toolchain" / "mir.json"
    found = {name.partition("::")[2]: code for name, code in json.loads(file.read_text())}
    named = re.compile(rf'"{crate}::([^"]+)"')
    return {name: found.keys() & {*named.findall(json.dumps(code))} for name, code in found.items()}
