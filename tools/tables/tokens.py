"""Writes what follows from the tokens alone: their classes and the lists of these, their kinds in
the library, in the Rust crate and in include/wgsl.h, and the reserved words.
"""
import textwrap
from itertools import groupby
from pathlib import Path

import inputs
from filling import fill
from node_table import snake
from token_table import TABLE, Table

READS = (inputs.TOKENS,)
WRITES = ("crates/wgsl_model/specs/Tokens/ClassTable.antt",
          "crates/wgsl_model/specs/Tokens/Words/ReservedTable.antt",
          "crates/wgsl_lex_token/*/*able.*", "bindings/rust/src/kind.rs", "include/wgsl.h",
          "bindings/web/kinds.*")

MODEL = Path("crates/wgsl_model/specs/Tokens")
CRATE = Path("crates/wgsl_lex_token")
RUST_KINDS = Path("bindings/rust/src/kind.rs")
HEADER = Path("include/wgsl.h")
SCRIPT_KINDS = Path("bindings/web/kinds.js")
SCRIPT_TYPES = Path("bindings/web/kinds.d.ts")
WRITTEN = f"Written by tools/tables/tokens.py from {TABLE}"

# by the type of what a token holds: that with nothing in it, and how the definitions have it
EMPTY = {"String": "String::new(alloc)", "i64": "0", "i32": "0", "u32": "0"}
PAYLOADS = {"String": "name (string_bytes held)", "i64": "number held", "i32": "number held",
            "u32": "number (pos held)"}

# the kind for C and Rust that no token has: its name, and what it is
OPEN_COMMENT = ("OpenComment", "a block comment that is not closed")


def defined(doc, name, kind, items):
    """A definition of a list, some items a line."""
    items = " ".join([f"{item} ∷".replace(" ", "\0") for item in items] + ["[]"])
    lines = textwrap.fill(items, 100, initial_indent="    ", subsequent_indent="    ",
                          break_long_words=False, break_on_hyphens=False)
    return f"-- {doc}\nabbrev pub {name} : {kind}\n{name} =\n" + lines.replace("\0", " ") + "\n"


def entries(doc, name, tokens):
    """A list of texts with their classes."""
    items = [f'(codes "{token.text}", {token.name})' for token in tokens]
    return defined(doc, name, "List (List ℕ × ℕ)", items)


def class_table(table):
    """The classes and their lists."""
    first, last = table.keywords[0], table.keywords[-1]
    classes = [f"-- {token.doc}\nabbrev pub {token.name} : ℕ\n{token.name} = {number}\n"
               for number, token in enumerate(table.tokens)]
    return "\n".join([
        f"-- {WRITTEN}: the classes of tokens, and their texts.\n"
        "-- A class is a number; symbols come first, then keywords, then other tokens "
        '(WGSL, "Tokens").\n'
        "use Rattle.std.specs.Prelude.{ℕ, Bool, ◌&&◌, nat_le, nat_lt, List, [], ◌∷◌, codes}\n",
        *classes,
        f"-- a keyword: the classes from that of `{first.text}` to that of `{last.text}`\n"
        "abbrev pub is_keyword : ℕ → Bool\n"
        f"is_keyword class = nat_le {first.name} class && nat_lt class {table.others[0].name}\n",
        entries("the symbols with their classes", "symbols", table.symbols),
        entries("the keywords with their classes", "keywords", table.keywords),
        entries("how messages name the tokens that have no spelling of their own", "special_texts",
                [token for token in table.others if token.text]),
        defined("the classes of the keywords", "keyword_classes", "List ℕ",
                [token.name for token in table.keywords]),
    ])


def reserved_table(table):
    """The reserved words."""
    words = [f'codes "{word}"' for word in table.reserved]
    return (f"-- {WRITTEN}: the reserved words.\n"
            "use Rattle.std.specs.Prelude.{ℕ, List, [], ◌∷◌, codes}\n\n"
            + defined("the words that no name may be; the list is the library's own, close to the "
                      "draft's", "reserved_words", "List (List ℕ)", words))


def token_view(table):
    """Tokens by their kinds and what they hold, for the definitions."""
    def pattern(token):
        return f"(token.{token.name} held)" if token.held else f"token.{token.name}"

    held = [token for token in table.tokens if token.held]
    declared = "use Rattle.wgsl_lex_token.specs.declared"
    return "\n".join([
        f"-- {WRITTEN}: which token it is, and what it holds.",
        "use Rattle.std.specs.Prelude.{pos, string_bytes}",
        "use Rattle.grammar.specs.Tokens.{Payload, Payload.nothing, Payload.name, Payload.number}",
        f"{declared}.kind_table.TokenKind.{{TokenKind}}",
        f"{declared}.kind_table.TokenKind.TheVariants as kind",
        f"{declared}.token_table.Token.{{Token}}",
        f"{declared}.token_table.Token.TheVariants as token",
        "",
        "-- which token it is",
        "abbrev pub kind_of : Token → TokenKind",
        *(f"kind_of {pattern(token)} = kind.{token.name}" for token in table.tokens),
        "",
        "-- what a token holds: a text by its bytes, or a number",
        "abbrev pub payload_of : Token → Payload",
        *(f"payload_of {pattern(token)} = {PAYLOADS[token.held]}" for token in held),
        "payload_of _ = nothing",
        "",
    ])


def arms(table, arm):
    """The arms of a match over all tokens; those with the same right side that follow one another
    are one."""
    sides = [arm(token) for token in table.tokens]
    for right, group in groupby(sides, key=lambda side: side[1]):
        yield f"            {' | '.join(left for left, _ in group)} => {right},\n"


KIND_TABLE = """\
//! {written}: the kinds of tokens, and their texts.

ghost use Rattle.std.specs.Prelude.{{◌≡◌}};
ghost use Rattle.wgsl_lex_token.specs.Groups.{{word_of_class}};
ghost use Rattle.wgsl_lex_token.specs.View.{{class_of_kind}};

/// The kinds of tokens: each is a [`crate::token::Token`] without what it holds.
#[derive(Clone, Copy, Debug, PartialEq, Eq)]
pub enum TokenKind {{
{variants}}}

impl TokenKind {{
    /// The kinds of words: the keywords, identifiers and reserved words.
    pub const WORDS: &'static [TokenKind] = &[
{words}    ];

    /// Returns the text of a token of this kind that holds nothing, and the empty text for others.
    pub fn text(self) -> &'static str
        ensures {{ result.now ≡ word_of_class (class_of_kind self) }}
    {{
        match self {{
{texts}        }}
    }}
}}
"""


def kind_table(table):
    """The kinds of tokens of the library."""
    return KIND_TABLE.format(
        written=WRITTEN,
        variants="".join(f"    {name},\n" for name in table.classes),
        words="".join(f"        TokenKind::{token.name},\n" for token in table.words),
        texts="".join(arms(table, lambda it: (f"TokenKind::{it.name}", f'"{it.text}"'))),
    )


TOKEN_TABLE = """\
//! {written}: the tokens, and their kinds.

ghost use Rattle.std.specs.Prelude.{{◌≡◌}};
ghost use Rattle.wgsl_lex_token.specs.View.{{class_of_kind, kind_view, view_of_class}};

use crate::kind::TokenKind;
use std::alloc::Global;

/// A token, with its name or number where it has one; a float by its spelling without suffix.
#[derive(Debug, PartialEq, Drop)]
pub enum Token {{
{variants}}}

impl Token {{
    /// Returns the token of a kind, with an empty text or the number 0 where it holds one.
    pub fn from_kind(alloc: Global, kind: TokenKind) -> Token
        ensures {{ kind_view result ≡ view_of_class (class_of_kind kind) }}
    {{
        match kind {{
{from_kind}        }}
    }}

    /// Returns the kind of the token.
    pub fn kind(&self) -> TokenKind
        ensures {{ class_of_kind result ≡ (kind_view self.now).class }}
    {{
        match self {{
{kind}        }}
    }}
}}
"""


def token_table(table):
    """The tokens of the library."""
    def with_held(token, held):
        return f"Token::{token.name}({held})" if token.held else f"Token::{token.name}"

    return TOKEN_TABLE.format(
        written=WRITTEN,
        variants="".join(f"    {with_held(it, it.held)[7:]},\n" for it in table.tokens),
        from_kind="".join(arms(table, lambda it: (
            f"TokenKind::{it.name}", with_held(it, EMPTY.get(it.held))))),
        kind="".join(arms(table, lambda it: (with_held(it, "_"), f"TokenKind::{it.name}"))),
    )


def listed(items, indent):
    """Items in lines of less than 100 columns."""
    lines = textwrap.fill(" ".join(it.replace(" ", "\0") for it in items), 100 - indent)
    return textwrap.indent(lines, " " * indent).replace("\0", " ")


def write_bindings(table):
    """The kinds of tokens and comments of the Rust crate, with the texts of symbols and keywords,
    of the header, there with their names, and of the package for JavaScript."""
    named = [*((token.name, token.doc) for token in table.tokens), OPEN_COMMENT]
    texts = {token.name: f' = "{token.text}"' for token in [*table.symbols, *table.keywords]}
    kinds = [f"    /// {doc[0].upper()}{doc[1:]}.\n    {name}{texts.get(name, '')},"
             for name, doc in named]
    numbers = [f"    WGSL_{snake(name).upper()} = {number}"
               for number, (name, _) in enumerate(named)]
    fill(RUST_KINDS, "\nkinds! {\n", "\n".join([f"    // {WRITTEN}.", *kinds]), "\n}\n")
    fill(HEADER, "\nenum wgsl_token_kind {\n", ",\n".join(numbers), "\n};\n")
    names = listed([f'"{name}",' for name, _ in named], 8).removesuffix(",")
    fill(HEADER, "\n    static const char *const names[] = {\n", names, "\n    };\n")
    names = listed([f"'{name}'," for name, _ in named], 2)
    fill(SCRIPT_KINDS, "\nexport const KINDS = [\n", f"  // {WRITTEN}.\n{names}", "\n];\n")
    union = listed([f"| '{name}'" for name, _ in named], 2)
    fill(SCRIPT_TYPES, "\nexport type TokenKind =\n", f"  // {WRITTEN}.\n{union}", ";\n")


def main():
    table = Table()
    written = {
        MODEL / "ClassTable.antt": class_table(table),
        MODEL / "Words/ReservedTable.antt": reserved_table(table),
        CRATE / "specs/TokenTable.antt": token_view(table),
        CRATE / "src/kind_table.rt": kind_table(table),
        CRATE / "src/token_table.rt": token_table(table),
    }
    for path, text in written.items():
        path.parent.mkdir(exist_ok=True)
        path.write_text(text)
    write_bindings(table)
