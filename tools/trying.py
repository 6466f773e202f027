"""What the tests of built programs share: arguments, runs, tests over files, shorter texts."""
import argparse
import os
import resource
import shutil
import subprocess
import tempfile
import unittest
from pathlib import Path
from typing import NamedTuple

TOP = Path(__file__).resolve().parent.parent


class Ran(NamedTuple):
    """How a run ended, with the number of a signal as a negative one and None if it did not, and
    what it wrote."""

    status: int
    output: bytes
    errors: bytes


def run(program, *words, source=b"", seconds=120, limits=(), **how):
    """Runs a program on an input, with these limits of resources."""
    def limit():
        for kind, most in limits:
            resource.setrlimit(kind, (most, most))

    try:
        done = subprocess.run([program, *words], input=source, capture_output=True,
                              timeout=seconds, preexec_fn=limit if limits else None, **how)
    except subprocess.TimeoutExpired:
        return Ran(None, b"", f"no end after {seconds} seconds".encode())
    return Ran(done.returncode, done.stdout, done.stderr)


def asked(doc, programs, **options):
    """The arguments of a tool: where programs are, which are in build/ if that is left out, and
    options, each with its value if it is left out; False is that of one without a value."""
    parser = argparse.ArgumentParser(description=doc.splitlines()[0])
    for option, name in programs.items():
        parser.add_argument(f"--{option}", type=Path, default=TOP / "build" / name,
                            help=f"build/{name} if left out")
    for option, value in options.items():
        if value is False:
            parser.add_argument(f"--{option}", action="store_true")
        else:
            parser.add_argument(f"--{option}", type=type(value), default=value,
                                help=f"{value!r} if left out")
    found = parser.parse_args()
    for option in programs:
        program = getattr(found, option)
        if not os.access(program, os.X_OK):
            parser.error(f"{program} is not a program")
        setattr(found, option, program.resolve())
    return found


def shorter(text, fails, most):
    """What is left of a text where pieces are taken out as long as it fails, after so many tries at
    most."""
    size, tries = len(text) // 2, 0
    while size:
        at = 0
        while at < len(text) and tries < most:
            less, tries = text[:at] + text[at + size:], tries + 1
            if fails(less):
                text = less
            else:
                at += size
        size //= 2
    return text


class Files(unittest.TestCase):
    """Tests of a program, each with a folder of its own."""

    # the program, at a place from which each user can run it
    program = None

    def setUp(self):
        self.folder = Path(tempfile.mkdtemp(prefix="wgsl-files-"))
        self.folder.chmod(0o755)
        self.addCleanup(self.remove)

    def remove(self):
        for path in [self.folder, *self.folder.rglob("*")]:
            if path.is_dir() and not path.is_symlink():
                path.chmod(0o755)
        shutil.rmtree(self.folder)

    def run_here(self, *arguments, **options):
        return run(self.program, *arguments, **{"cwd": self.folder, **options})

    def put(self, name, text):
        """A file of this name; one that is bytes is not UTF-8."""
        path = os.path.join(os.fsencode(self.folder), os.fsencode(name))
        os.makedirs(os.path.dirname(path), exist_ok=True)
        with open(path, "wb") as file:
            file.write(text)
        return Path(os.fsdecode(path))

    def texts(self):
        """The text of each file, by its path."""
        files = (path for path in self.folder.rglob("*") if path.is_file())
        return {str(path.relative_to(self.folder)): path.read_bytes() for path in files}


def run_tests(tool, doc, tests, name):
    """Runs the tests of a program, and returns the status of the tool."""
    found = asked(doc, {"program": name}, only="")
    with tempfile.TemporaryDirectory(prefix="wgsl-program-") as place:
        os.chmod(place, 0o755)
        tests.program = shutil.copy(found.program, place)
        names = [it for it in dir(tests) if it.startswith("test_") and found.only in it]
        result = unittest.TextTestRunner(verbosity=0).run(unittest.TestSuite(map(tests, names)))
    for test, reason in result.skipped:
        print(f"{tool}: {test.id().split('.')[-1]} is skipped: {reason}")
    failures = len(result.failures) + len(result.errors)
    print(f"{tool}: {result.testsRun} tests, {failures} of them fail.")
    return 0 if result.wasSuccessful() else 1
