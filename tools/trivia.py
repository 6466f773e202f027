"""Blank space and comments of WGSL."""

# what ends a line comment, and the marks that are blank space besides what has the property
# White_Space
BREAKS = "\n\v\f\r\x85\u2028\u2029"
MARKS = "\u200e\u200f"


def comment_end(text, at):
    """Where the comment ends that begins at a place."""
    if text[at + 1] == "/":
        while at < len(text) and text[at] not in BREAKS:
            at += 1
        return at
    depth = 0
    while at < len(text):
        if text.startswith("/*", at):
            depth += 1
            at += 2
        elif text.startswith("*/", at):
            depth -= 1
            at += 2
            if depth == 0:
                return at
        else:
            at += 1
    return at


def is_white(c):
    """Whether a character is white space; the empty text is not."""
    return c.isspace() and c not in "\x1c\x1d\x1e\x1f"


def is_blank(c):
    return is_white(c) or c in MARKS
