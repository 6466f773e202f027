"""Rows of programs: what a program is given, and what it ends with and writes.

The rows of a program are in tests/programs, whose README.md has their form. Besides, each shader of
SHADERS has to become the file of its name in another folder.
"""
import re
import subprocess
import tempfile
from pathlib import Path

import crates
from row_files import Field, Row, rows_of

ROWS = crates.TOP / "tests" / "programs"
EXAMPLES = crates.TOP / "examples"
# by program, where shaders are in examples/, and where what they become
SHADERS = {
    "wgslfmt": [(".", "printed"), ("printed", "printed")],
    "wgsltidy": [("commented", "tidied"), ("tidied", "tidied")],
}
# what `rt try` says of a case, and of all
CASE = re.compile(r"^case=(\S+) run=ended status=(\d+) .*?(?:output=(\w+) )?proved=no$", re.M)


def programs():
    """The crates that have rows."""
    return sorted(it.stem for it in ROWS.glob("*.txt"))


def rows_of_program(program):
    """The rows of a program, and one for each of its shaders."""
    rows = rows_of(ROWS / f"{program}.txt")
    for folder, made in SHADERS.get(program, []):
        for shader in sorted((EXAMPLES / folder).glob("*.wgsl")):
            fields = [Field(program, shader.read_bytes()), Field("status", b"0")]
            fields.append(Field("output", (EXAMPLES / made / shader.name).read_bytes()))
            rows.append(Row(shader, 1, f"{folder}/{shader.name} becomes that of {made}", fields))
    return rows


def files_of(rows):
    """The files that rows of a program may name, by their paths."""
    fields = [it for row in rows for it in row.wanted if it.words.startswith("file ")]
    return {it.words.removeprefix("file "): it.value for it in fields}


def arguments_of(row):
    """The arguments of a row, which in rows of texts are as many as the row's first line says."""
    named = [it.value.decode() for it in row.wanted if it.words == "argument"]
    return named or ["x"] * int(row.argument or 0)


def put_files(rows, folder):
    """Puts the files that rows of a program may name into a folder."""
    for path, text in files_of(rows).items():
        file = folder / path
        file.parent.mkdir(parents=True, exist_ok=True)
        file.write_bytes(text)


def report(row, wrong):
    """The lines that say which row does not hold, and what was got."""
    return [f"{row.file.name}:{row.line}: {row.shows}", *wrong] if wrong else []


def report_of_built(row, program, files):
    """The lines that say what is wrong with how a built program ends beside some files, and with
    what it writes."""
    with tempfile.TemporaryDirectory(prefix="row-") as folder:
        put_files(files, Path(folder))
        ran = subprocess.run([program, *arguments_of(row)], input=row.text, capture_output=True,
                             cwd=folder)
    got = {"status": b"%d" % ran.returncode, "output": ran.stdout, "errors": ran.stderr}
    wrong = [f"  got {it} {got[it]!r}" for it in got if got[it] != (row.wants(it) or b"")]
    return report(row, wrong)


class Cases:
    """The rows of a program as cases of `rt try` in a folder. It tells what a case wrote on its
    standard error only where nothing is said of its output."""

    def __init__(self, program, room):
        self.rows, self.room, self.words = rows_of_program(program), room / "cases", []
        self.room.mkdir()
        for at, row in enumerate(self.rows):
            self.put(self.room / self.name(at), row)
        put_files(self.rows, room / "files")
        for path in files_of(self.rows):
            self.words += ["--data", f"{path}={room / 'files' / path}"]
        self.words += ["--cases", str(self.room)]

    def name(self, at):
        """The name of the case of a row, in the order of the rows."""
        return f"{at:04}"

    def put(self, case, row):
        case.write_bytes(row.text)
        if arguments := arguments_of(row):
            case.with_suffix(".args").write_text("".join(f"{it}\n" for it in arguments))
        if row.wants("errors") is None:
            case.with_suffix(".stdout").write_bytes(row.wants("output") or b"")

    def report(self, output, errors):
        """The lines that say which rows do not hold, by what `rt try` wrote."""
        found, told, end = {}, {}, 0
        for case in CASE.finditer(errors):
            found[case[1]], told[case[1]] = case, errors[end : case.start()].lstrip("\n")
            end = case.end()
        parts = re.split(r"^== (\d{4})\n", output, flags=re.MULTILINE)
        written, lines = dict(zip(parts[1::2], parts[2::2])), []
        for at, row in enumerate(self.rows):
            name = self.name(at)
            wrong = self.wrong(row, found.get(name), written.get(name, ""), told.get(name, ""))
            lines += report(row, wrong)
        return lines

    def wrong(self, row, case, output, errors):
        """What is wrong with how a case ended, and with what it wrote."""
        if not case:
            return ["  it did not end"]
        lines, wanted = [], row.wants("errors")
        if case[2].encode() != row.wants("status"):
            lines.append(f"  it ended with status {case[2]}")
        if wanted is None:
            return lines + ["  it wrote another output:", errors] * (case[3] != "expected")
        if output.rstrip("\n").encode() != (row.wants("output") or b"").rstrip(b"\n"):
            lines.append(f"  got output {output!r}")
        if errors.encode() != wanted:
            lines.append(f"  got errors {errors!r}")
        return lines
