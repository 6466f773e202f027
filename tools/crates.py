"""The crates of the repository, and a check of one of them over the libraries that `rt ci` left."""
import hashlib
import json
import re
import shutil
import subprocess
from functools import cache
from pathlib import Path

TOP = Path(__file__).resolve().parent.parent

# the sums of the crates that tools/prove_all proved last
PROVED = TOP / "build" / "proved.json"
# the parts of a crate that the prover reads, and those that neither its proof nor its program does
READ = ("src", "specs", "proofs")
LEFT_OUT = ("out", "must-fail")


def listed():
    """The lines of crates.txt, each by the name of its crate."""
    lines = [line.partition("#")[0].strip() for line in (TOP / "crates.txt").open()]
    return {re.match(r"\w+", line)[0]: line for line in lines if line}


def named_by(crate, lines):
    """What a crate's line names: libraries of the repository, and of the kit."""
    names = lines[crate].partition(":")[2].split()
    return [it for it in names if it in lines], [it for it in names if it not in lines]


def with_those_below(names, lines):
    """Some crates and each crate of the repository that they depend on."""
    found, left = set(), list(names)
    while left:
        crate = left.pop()
        if crate in lines and crate not in found:
            found.add(crate)
            left += lines[crate].partition(":")[2].split()
    return sorted(found)


def files_of(crate):
    """The files that a crate is proved and built from."""
    parts = [it for it in (TOP / "crates" / crate).iterdir() if it.name not in LEFT_OUT]
    inside = [it for part in parts for it in ([part] if part.is_file() else part.rglob("*"))]
    return [it for it in inside if it.is_file()]


def logic():
    """The sum of the kit's logic: a kit that has the same one proves the same."""
    return version().split()[-1]


@cache
def version():
    """The line that identifies the kit and its logic."""
    return subprocess.run(["rt", "version"], capture_output=True, text=True, check=True).stdout


def sum_of(words, files, folder=TOP):
    """Some words and some files of a folder, as one sum."""
    found = hashlib.sha256("".join(words).encode())
    for file in sorted(set(files)):
        text = hashlib.sha256(file.read_bytes()).hexdigest()
        found.update(f"{file.relative_to(folder)} {text}\n".encode())
    return found.hexdigest()


def states(names, lines):
    """The sum of the kit, the files and the line of each of some crates."""
    return {crate: sum_of([version(), lines[crate]], files_of(crate)) for crate in names}


def is_made(crate, lines):
    """Whether tools/prove_all left something of a crate. Of a static library it leaves nothing."""
    return is_static(crate, lines) or made_of(crate).exists()


def are_proved(names, lines):
    """Whether tools/prove_all proved some crates, which are all those that they depend on, as they
    are, and what it left of these is there."""
    if not PROVED.exists() or not all(is_made(it, lines) for it in names):
        return False
    return states(names, lines).items() <= json.loads(PROVED.read_text()).items()


def copy_crate(crate, to):
    """Copies the files that a crate is proved and built from to a new folder."""
    to.mkdir(parents=True)
    for part in (TOP / "crates" / crate).iterdir():
        if part.name not in LEFT_OUT:
            copied = shutil.copytree if part.is_dir() else shutil.copy
            copied(part, to / part.name)


def copy(crates, lines, to):
    """Copies these crates to a new folder, which `rt ci` takes for the top of a repository."""
    (to / ".git").mkdir(parents=True)
    (to / "crates.txt").write_text("".join(f"{lines[crate]}\n" for crate in crates))
    shutil.copy(TOP / "HANDLES", to)
    for crate in crates:
        copy_crate(crate, to / "crates" / crate)


@cache
def kit():
    """The folder of the kit."""
    told = subprocess.run(["rt", "doc"], capture_output=True, text=True, check=True).stdout
    return Path(told.strip()).parent


def is_static(crate, lines):
    """Whether a crate is a static library."""
    return "staticlib" in lines[crate].partition(":")[0].split()


def cases_of(crate):
    """The folder of the files on which a program that is a test is run."""
    return TOP / "crates" / crate / "cases"


def has_only_tests(crate):
    """Whether a crate holds nothing but tests, or is one."""
    if cases_of(crate).is_dir():
        return True
    root = TOP / "crates" / crate / "src/lib.rt"
    lines = root.read_text().split("\n") if root.is_file() else []
    modules = [at for at, line in enumerate(lines) if line.startswith(("mod ", "pub mod "))]
    return bool(modules) and all(lines[at - 1] == "#[cfg(test)]" for at in modules)


def rlib(crate, folder):
    """The library that `rt ci` left of a crate in a folder of crates."""
    return folder / crate / "out" / "rlib" / f"{crate}.rlib"


def made_of(crate):
    """What tools/prove_all left of a crate: its library, or the program that it is."""
    folder = TOP / "crates"
    is_program = (folder / crate / "src/main.rt").is_file()
    return folder / crate / "out" / crate if is_program else rlib(crate, folder)


def words(crate, lines, folder, checked=None):
    """What the prover is told of a crate, whose libraries are in a folder of crates; where it
    checked the crate before, also where it left that."""
    own, of_kit = named_by(crate, lines)
    is_program = (folder / crate / "src/main.rt").is_file()
    found = ["--crate-name", crate, f"src/{'main' if is_program else 'lib'}.rt"]
    if is_static(crate, lines):
        found += ["--crate-type", "staticlib"]
    found += ["--links", f"{crate}="]
    for name in ["std", *of_kit]:
        found += ["--extern", f"{name}={kit()}/rlibs/{name}.rlib"]
    for name in own:
        found += ["--extern", f"{name}={rlib(name, folder)}"]
    for name in with_those_below(own, lines):
        found += ["-L", f"dependency={rlib(name, folder).parent}"]
    found += ["-L", f"dependency={kit()}/rlibs"]
    found += ["--crate-checked", checked] if checked else ["--logic-built", f"{kit()}/logic_built"]
    return [*found, "--antt-project", f"{kit()}/rattle/logic/antt-project.json"]
