"""Writes parts of files whose other parts are not written by a tool."""


def fill(path, begin, text, end):
    """Writes a text into a file, between two of its lines."""
    old = path.read_text()
    at = old.index(begin) + len(begin)
    path.write_text(old[:at] + text + old[old.index(end, at):])
