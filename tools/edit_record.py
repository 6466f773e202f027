"""The record of the wrong bodies that the prover refused, and what a run tries beside it.

A line of crates/NAME/must-fail/record.md has the name of a wrong body, a checksum of everything
that a check of this body alone reads, and the goal that failed, or the commit at which a run of all
refused it. A body is on record where its crate has a line with its checksum. Neither the bodies of
other functions are in it, nor their proofs, nor comments in the code.
"""
import hashlib
import json
import re
import tempfile
from collections import Counter
from datetime import date
from enum import Enum
from functools import cache
from pathlib import Path

import crates
import edit_checks
import stubs
import wrong_bodies
from edit_checks import CRATES, IS_REFUSED, Tried, Verdict

RECORD = "must-fail/record.md"
# the checksums of those that runs in this copy of the repository tried
TRIED = crates.TOP / "build" / "tried.json"
HEAD = """Wrong bodies that the prover refused, each with a checksum of what its check reads and the
goal that failed, or the commit at which all were tried. `tools/edits --record` writes this file.

"""
# the proof of a function or of a cycle, by the place of its file; a lemma has a capital letter
PROOF = re.compile(r"proofs/((?:.*/)?[a-z+][^/]*)/(?:Answers|Invariants|Proof)\.antt")


class Which(Enum):
    """Which wrong bodies are tried: those that aren't on record, and more."""

    NEW = "none"
    MARKED = "those that are marked by a line `# each run`"
    ALL = "all"


def record_of(folder):
    """The lines of a crate's record: a name, a checksum, and a goal or a commit each."""
    file = folder / RECORD
    lines = file.read_text().splitlines() if file.is_file() else []
    return [line.split(maxsplit=2) for line in lines if line.startswith("    ")]


def write_record(folder, lines):
    told = "".join(f"    {name} {checksum} {goal}\n" for name, checksum, goal in lines)
    (folder / RECORD).write_text(HEAD + told)


@cache
def sum_of_interface(library):
    """A checksum of what a check of a crate above reads of a library."""
    paths = {it: str(it.relative_to(library)) for it in (library / "lang").rglob("*")
             if it.is_file()}
    read = [it for it in paths if it.name != "made.json" and not PROOF.search(paths[it])]
    return crates.sum_of([], read, library)


def read_by_all(crate, lines, libraries):
    """What a check of any wrong body of a crate reads outside of it, and what reads its outcome."""
    words = "\n".join(map(str, crates.words(crate, lines, libraries)))
    words = words.replace(str(libraries), "crates").replace(str(crates.kit()), "kit")
    judges = [Path(it.__file__).read_text() for it in (edit_checks, stubs, wrong_bodies)]
    below = crates.with_those_below(crates.named_by(crate, lines)[0], lines)
    found = [sum_of_interface(crates.rlib(it, libraries)) for it in below]
    return [crates.logic(), words, *judges, *found]


def texts_of(folder):
    """The texts of the files of a crate that the prover reads, by their paths in it."""
    files = [it for part in crates.READ for it in (folder / part).rglob("*") if it.is_file()]
    return {str(it.relative_to(folder)): it.read_text() for it in files}


def without_comments(text):
    return [line for line in text.split("\n") if not line.lstrip().startswith("//")]


def folders_of(functions, known):
    """The folders of the proofs of some functions, and the names of those of the cycles that the
    stubs of a crate tell of them."""
    places = [name.replace("::", "/").rpartition("/") for name in functions]
    alone = {f"{above}{slash}{sign}{name}" for above, slash, name in places for sign in ("", "+")}
    return alone, {f"+{it.cycle}" for it in known if it.functions[0] in functions}


def is_proof_in(path, folders):
    """Whether a file is of the proof of a function or a cycle that has one of these folders."""
    proof, (alone, cycles) = PROOF.fullmatch(path), folders
    return bool(proof) and (proof[1] in alone or proof[1].rpartition("/")[2] in cycles)


def sum_of_body(body, it, texts, common):
    """A checksum of what a check of one wrong body reads: its crate with stubs of all functions but
    its own and those in a cycle with it, without the proofs of the others."""
    near = it.with_cycles(set(body.functions))
    own, others = folders_of(near, it.stubs), folders_of(it.names - near, it.stubs)
    changed, _ = wrong_bodies.joined([body, *it.stubs_beside(near)], it.folder)
    read = {}
    for path, text in {**texts, **changed}.items():
        if is_proof_in(path, own) or not is_proof_in(path, others):
            read[path] = without_comments(text) if path.endswith(".rt") else text
    told = json.dumps([common, sorted(body.functions), body.goal, sorted(read.items())])
    return hashlib.sha256(told.encode()).hexdigest()[:16]


def sums_of(it):
    """The checksum of each wrong body of a crate that is read, by its name."""
    common, texts = read_by_all(it.crate, it.lines, it.libraries), texts_of(it.folder)
    return {body.name: sum_of_body(body, it, texts, common) for body in it.left()}


def drawn(names, day):
    """Two crates, in turn by the date."""
    first = 2 * day.toordinal() % len(names)
    return (sorted(names) * 2)[first : first + 2]


def refused_here():
    """The checksums of the bodies that runs in this copy of the repository tried, and refused."""
    return set(json.loads(TRIED.read_text())) if TRIED.is_file() else set()


def note_refused(found):
    """Notes which bodies of some crates were tried now, and refused."""
    TRIED.parent.mkdir(exist_ok=True)
    TRIED.write_text(json.dumps(sorted(refused_here().union(*(it.refused for it in found)))))


def tried(crate, lines, libraries, which, is_recorded=False, here=frozenset()):
    """Tries the wrong bodies of a crate that aren't on record, and more, but those whose checksum
    was refused here; prints what became of them, and writes the record of those refused if it is
    to."""
    it = Tried(crate, lines, libraries)
    sums, known = sums_of(it), {checksum: goal for _, checksum, goal in record_of(it.folder)}
    for body in it.left():
        checksum = sums[body.name]
        is_asked = which is Which.ALL or body.is_marked and which is Which.MARKED
        if checksum in here or checksum in known and not is_asked:
            it.verdicts[body.name] = Verdict.REFUSED, known.get(checksum, "an earlier run")
    left = [body.name for body in it.left()]
    if it.left():
        with tempfile.TemporaryDirectory(prefix="edits-") as room:
            (Path(room) / "kept").mkdir()
            it.run(Path(room))
    took = " and ".join(f"{seconds:.0f}" for seconds in it.seconds) or "no"
    told = [f"{crate}: {counted(it)}; {it.count} tried in {took} s"]
    new = [name for name, checksum in sums.items() if checksum not in known]
    if new and not is_recorded:
        told.append(f"{crate}: `tools/edits --record {crate}` would record {' '.join(new)}")
    for body, (verdict, why) in it.told(Verdict.REFUSED):
        told.append(f"{crate}/{body.name}: {verdict.value}: {body.wrong} [{why}]")
    print("\n".join(told), flush=True)
    it.refused = {sums[name] for name in left if it.verdicts[name][0] in IS_REFUSED}
    if is_recorded:
        found = [(body.name, *it.verdicts[body.name]) for body in it.bodies]
        refused = [(name, sums[name], why) for name, verdict, why in found if verdict in IS_REFUSED]
        write_record(it.folder, refused)
    return it


def counted(it):
    """How many wrong bodies of a crate came to what."""
    counts = Counter(verdict for verdict, _ in it.verdicts.values())
    told = ", ".join(f"{count} {verdict.value}" for verdict, count in counts.items())
    return f"{len(it.bodies)} wrong bodies, {told}"


def size_of(crate):
    """How many bytes there are to check in a crate."""
    found = [it for part in ("src", "proofs") for it in (CRATES / crate / part).rglob("*")]
    return sum(it.stat().st_size for it in found if it.is_file())


def with_bodies(lines):
    """The crates that have wrong bodies, those with the most to check first."""
    found = [crate for crate in lines if any((CRATES / crate / "must-fail").glob("*.edit"))]
    return sorted(found, key=size_of, reverse=True)


def summed(found):
    """Prints how many wrong bodies of these crates are refused, and returns whether all are."""
    bodies, count = sum(len(it.bodies) for it in found), sum(it.count for it in found)
    wrong = sum(len(it.told(*IS_REFUSED)) for it in found)
    print(f"{bodies - wrong} of {bodies} wrong bodies are refused, each by itself: {count} were"
          " tried, the others are on record")
    return not wrong
