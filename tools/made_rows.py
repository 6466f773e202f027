"""Files of rows with made texts, of which nothing is wanted but what holds of every text: some of
tools/texts.py, and nests and chains of tools/nest_texts.py. Text N of a seed is always the same."""
import nest_texts
import texts

SEED = 1
# the characters that rows have as they are
PLAIN = {chr(it) for it in range(32, 127)} - {'"', "\\"}
# how many texts of a seed are made, and how many bytes one has at most
COUNT = 250
LONGEST = 1_000
# how many openings nests and chains have, and deep ones, which nest at most so many levels deep
DEPTH = 10
DEEP = 190
DEEPEST = 200


def quoted(source):
    """A text as rows have it."""
    return "".join(chr(it) if chr(it) in PLAIN else f"\\x{it:02x}" for it in source)


def row_of(shows, word, text, is_required):
    """A row with a text, which has to be a module if that is required."""
    wanted = "accepted\n" if is_required else ""
    return f'# {shows}\n{word} "{quoted(text)}"\n{wanted}'


def rows_by_chance():
    """A row for each text of the seed that is not long."""
    for number in range(COUNT):
        text = texts.text_of(SEED, number)
        if len(text.source) <= LONGEST:
            shows = f"Text {number} of seed {SEED}, of the {text.kind}."
            yield row_of(shows, "made", text.source, text.kept is not None)


def rows_of_nests():
    """Rows for each kind of nests and chains."""
    for kind in nest_texts.kinds():
        name = quoted(kind.name.encode())
        for variant in kind.variants:
            text = nest_texts.text_of_kind(kind, variant, DEPTH)
            shows = f"{DEPTH} openings, {variant}, {name}."
            yield row_of(shows, "made", text.source, text.is_module)
            if text.is_module and kind.levels:
                yield f'# {shows}\nnesting "{quoted(text.source)}"\ndepth {text.nesting}\n'
        deep = nest_texts.text_of_kind(kind, "whole", DEEP)
        if "whole" in kind.variants and deep.nesting <= DEEPEST:
            shows = f"{DEEP} openings, {name}."
            yield row_of(shows, f"parse_within {deep.nesting + 1}", deep.source, True)
            yield row_of(shows, f"tidy_within {deep.nesting}", deep.source, True)


def write_rows(folder):
    """Writes the files into a folder."""
    for name, rows in (("made_texts", rows_by_chance()), ("made_nests", rows_of_nests())):
        (folder / f"{name}.txt").write_text("\n".join(rows))
