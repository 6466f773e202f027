"""Parts of the files of definitions that follow from crates/wgsl_model/nodes."""
import re
import textwrap

import antt
from filling import fill
from node_table import snake


def spaced(name):
    """A name in words."""
    words = {"ty": "type", "ident": "name", "builtin": "built-in", "arg": "argument",
             "args": "arguments"}
    return " ".join(words.get(word, word) for word in snake(name).split("_"))


def spoken(held):
    """A type of the table in words: one by its article, or a list."""
    words = spaced(held.rstrip("*"))
    return f"{words}s" if held.endswith("*") else f"{'an' if words[0] in 'aeio' else 'a'} {words}"


def comment(text):
    """The lines of a comment."""
    return textwrap.wrap(text, 100, initial_indent="-- ", subsequent_indent="-- ",
                         break_long_words=False, break_on_hyphens=False)


def names_only(doc, name, values):
    """A type of values that hold nothing."""
    values = textwrap.wrap(f"{' '.join(values)} : {name}", 100, initial_indent="  ",
                           subsequent_indent="      ", break_on_hyphens=False)
    return [*comment(doc), f"pub data {name} : Type 0 where", *values, ""]


def texts(doc, name, type_, words):
    """What gives the texts of values."""
    return [f"-- {doc}", f"abbrev pub {name} : {type_} → List ℕ",
            *(f'{name} {value} = codes "{word}"' for value, word in words), ""]


def public_names(text):
    """What a file defines, its types with their constructors."""
    for item in antt.items(text):
        head = re.match(r"(?:abbrev )?pub (data )?(?:record )?(\S+)", item)
        if not head:
            continue
        yield head[2]
        for line in re.split(r"\n {2,4}(?! )", item)[1:] if head[1] else []:
            yield from (f"{head[2]}.{name}" for name in line.split(" : ")[0].split())


def pass_on(path, file, names):
    """Writes the lines by which a file passes on names of another one."""
    lines = "".join(f"  {name},\n" for name in names)
    fill(path, f"\npub use Rattle.wgsl_model.specs.{file}.{{\n", lines, "}\n")
