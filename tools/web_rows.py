"""The rows of tests/rows and of tests/programs as JSON, which the tests of the package read."""
import json

import crates
import program_rows
from row_files import rows_of

# whose rows the commands have to hold, by the command
COMMANDS = {"tidy": "wgsltidy", "min": "wgslmin"}


def shown(value):
    """Bytes as JSON has them: a text, or for what is not UTF-8 nothing."""
    try:
        return value.decode()
    except UnicodeDecodeError:
        return None


def rows_as_json(rows):
    """Rows with their texts, those alone that strings can hold."""
    held = [{"shows": f"{row.file.name}, line {row.line}: {row.shows}", "word": row.word,
             "text": shown(row.text),
             "wanted": [[it.words, shown(it.value)] for it in row.wanted]} for row in rows]
    return [row for row in held if None not in [row["text"], *(it[1] for it in row["wanted"])]]


def write_rows(folder):
    """Writes the rows of texts and of programs into a folder."""
    files = sorted((crates.TOP / "tests" / "rows").glob("*.txt"))
    rows = rows_as_json(row for file in files for row in rows_of(file))
    (folder / "rows.json").write_text(json.dumps(rows))
    programs = {command: rows_as_json(program_rows.rows_of_program(program))
                for command, program in COMMANDS.items()}
    (folder / "programs.json").write_text(json.dumps(programs))
