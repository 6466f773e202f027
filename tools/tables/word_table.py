"""Writes the table of keywords and reserved words of the scanner, with their number, and the two
tables of bytes that lead from a word to the only place in it where the word can be.

The prover checks that each word is at its place. The places are searched for, not written.
"""
from collections import defaultdict
from pathlib import Path

import inputs
from filling import fill
from token_table import Table

READS = (inputs.TOKENS,)
WRITES = ("crates/wgsl_lex_scanner/src/word_table.rt",)

WRITTEN = Path("crates/wgsl_lex_scanner/src/word_table.rt")

# what is written begins after the first of these lines, and ends before the second
BEGIN = "/// How many keywords and reserved words there are.\n"
END = "/// How far the sum is moved."

GROUPS = 64
SUMS = 256


def group_of(word):
    return (word[0] + 2 * len(word)) % GROUPS


def sum_of(word):
    return len(word) + 2 * word[len(word) // 2] + 8 * word[-1]


def moves_and_sums(words):
    """How far the sums of each group are moved so that no two words have the same, and those sums.
    The groups with the most words are moved first."""
    groups = defaultdict(list)
    for word in words:
        groups[group_of(word)].append(word)
    moves, sums = [0] * GROUPS, {}
    for group, members in sorted(groups.items(), key=lambda it: (-len(it[1]), it[0])):
        for move in range(256):
            moved = {(move + sum_of(it)) % SUMS: it for it in members}
            if len(moved) == len(members) and not moved.keys() & sums.keys():
                break
        else:
            raise SystemExit("no move keeps the words apart: sum other characters")
        moves[group] = move
        sums |= moved
    return moves, sums


def array(numbers):
    return ", ".join(map(str, numbers))


def written(entries):
    """The three tables."""
    words = [word.encode() for word in entries]
    moves, sums = moves_and_sums(words)
    places = [words.index(sums[it]) if it in sums else 0 for it in range(SUMS)]
    lines = "".join(f'    ("{word}", {meaning}),\n' for word, meaning in entries.items())
    return f"""\
const WORD_COUNT: usize = {len(entries)};

/// The keywords and the reserved words, in the order of their letters.
static WORDS: [(&str, Meaning); {len(entries)}] = [
{lines}];

// By the length and the first character of a word: how far the sum of its length and its other
// characters is moved. This table and the next are written by tools/tables/word_table.py.
static MOVES: [u8; {GROUPS}] = [{array(moves)}];

// For each sum, where the only word that has it is among the words; 0 where none has it.
static PLACES: [u8; {SUMS}] = [{array(places)}];

"""


def main():
    table = Table()
    entries = {it.text: f"Meaning::Keyword(TokenKind::{it.name})" for it in table.keywords}
    entries |= dict.fromkeys(table.reserved, "Meaning::Reserved")
    entries = dict(sorted(entries.items()))
    fill(WRITTEN, BEGIN, written(entries), END)
