//! The kinds of tokens.

/// The kinds, in the order of their numbers.
macro_rules! kinds {
    ($($(#[$note:meta])* $kind:ident $(= $text:literal)?,)*) => {
        /// The kind of a token or a comment, without what it holds. The kinds are in the order of
        /// their numbers in `wgsl.h`. [`tokens`](crate::tokens) returns no comments.
        #[derive(Clone, Copy, Debug, PartialEq, Eq, PartialOrd, Ord, Hash)]
        pub enum TokenKind {
            $($(#[$note])* $kind,)*
        }

        impl TokenKind {
            /// The kinds by their numbers.
            pub(crate) const ALL: &'static [TokenKind] = &[$(TokenKind::$kind),*];

            /// Returns the text of each symbol or keyword of this kind, and `None` for other kinds.
            ///
            /// ```
            /// use centrelilac::TokenKind;
            ///
            /// assert_eq!(TokenKind::SymArrow.text(), Some("->"));
            /// assert_eq!(TokenKind::KwFn.text(), Some("fn"));
            /// assert_eq!(TokenKind::Ident.text(), None);
            /// ```
            #[must_use]
            pub fn text(self) -> Option<&'static str> {
                match self {
                    $($(TokenKind::$kind => Some($text),)?)*
                    _ => None,
                }
            }
        }
    };
}

impl TokenKind {
    /// Returns whether it is a comment.
    ///
    /// ```
    /// use centrelilac::TokenKind;
    ///
    /// assert!(TokenKind::LineComment.is_comment());
    /// assert!(!TokenKind::SymForwardSlash.is_comment());
    /// ```
    #[must_use]
    pub fn is_comment(self) -> bool {
        self >= TokenKind::LineComment
    }

    /// Returns whether it is a symbol. The `<` and `>` of a template list are none.
    ///
    /// ```
    /// use centrelilac::TokenKind;
    ///
    /// assert!(TokenKind::SymLessThan.is_symbol());
    /// assert!(!TokenKind::TemplateArgsStart.is_symbol());
    /// ```
    #[must_use]
    pub fn is_symbol(self) -> bool {
        self < TokenKind::KwAlias
    }

    /// Returns whether it is a keyword. Neither a reserved word nor a word that is a keyword only in
    /// places, as `compute`, is one.
    ///
    /// ```
    /// use centrelilac::TokenKind;
    ///
    /// assert!(TokenKind::KwTrue.is_keyword());
    /// assert!(!TokenKind::ReservedWord.is_keyword());
    /// ```
    #[must_use]
    pub fn is_keyword(self) -> bool {
        (TokenKind::KwAlias..TokenKind::Ident).contains(&self)
    }

    /// Returns whether it is a number, with a suffix or without.
    ///
    /// ```
    /// use centrelilac::TokenKind;
    ///
    /// assert!(TokenKind::F32.is_numeric_literal());
    /// assert!(!TokenKind::KwTrue.is_numeric_literal());
    /// ```
    #[must_use]
    pub fn is_numeric_literal(self) -> bool {
        (TokenKind::AbstractInt..=TokenKind::F16).contains(&self)
    }
}

kinds! {
    // Written by tools/tables/tokens.py from crates/wgsl_model/tokens.
    /// The symbol `&`.
    SymAnd = "&",
    /// The symbol `&&`.
    SymAndAnd = "&&",
    /// The symbol `->`.
    SymArrow = "->",
    /// The symbol `@`.
    SymAttr = "@",
    /// The symbol `/`.
    SymForwardSlash = "/",
    /// The symbol `!`.
    SymBang = "!",
    /// The symbol `[`.
    SymBracketLeft = "[",
    /// The symbol `]`.
    SymBracketRight = "]",
    /// The symbol `{`.
    SymBraceLeft = "{",
    /// The symbol `}`.
    SymBraceRight = "}",
    /// The symbol `:`.
    SymColon = ":",
    /// The symbol `,`.
    SymComma = ",",
    /// The symbol `=`.
    SymEqual = "=",
    /// The symbol `==`.
    SymEqualEqual = "==",
    /// The symbol `!=`.
    SymNotEqual = "!=",
    /// The symbol `>`.
    SymGreaterThan = ">",
    /// The symbol `>=`.
    SymGreaterThanEqual = ">=",
    /// The symbol `>>`.
    SymShiftRight = ">>",
    /// The symbol `<`.
    SymLessThan = "<",
    /// The symbol `<=`.
    SymLessThanEqual = "<=",
    /// The symbol `<<`.
    SymShiftLeft = "<<",
    /// The symbol `%`.
    SymModulo = "%",
    /// The symbol `-`.
    SymMinus = "-",
    /// The symbol `--`.
    SymMinusMinus = "--",
    /// The symbol `.`.
    SymPeriod = ".",
    /// The symbol `+`.
    SymPlus = "+",
    /// The symbol `++`.
    SymPlusPlus = "++",
    /// The symbol `|`.
    SymOr = "|",
    /// The symbol `||`.
    SymOrOr = "||",
    /// The symbol `(`.
    SymParenLeft = "(",
    /// The symbol `)`.
    SymParenRight = ")",
    /// The symbol `;`.
    SymSemicolon = ";",
    /// The symbol `*`.
    SymStar = "*",
    /// The symbol `~`.
    SymTilde = "~",
    /// The symbol `_`.
    SymUnderscore = "_",
    /// The symbol `^`.
    SymXor = "^",
    /// The symbol `+=`.
    SymPlusEqual = "+=",
    /// The symbol `-=`.
    SymMinusEqual = "-=",
    /// The symbol `*=`.
    SymTimesEqual = "*=",
    /// The symbol `/=`.
    SymDivisionEqual = "/=",
    /// The symbol `%=`.
    SymModuloEqual = "%=",
    /// The symbol `&=`.
    SymAndEqual = "&=",
    /// The symbol `|=`.
    SymOrEqual = "|=",
    /// The symbol `^=`.
    SymXorEqual = "^=",
    /// The symbol `>>=`.
    SymShiftRightAssign = ">>=",
    /// The symbol `<<=`.
    SymShiftLeftAssign = "<<=",
    /// The keyword `alias`.
    KwAlias = "alias",
    /// The keyword `break`.
    KwBreak = "break",
    /// The keyword `case`.
    KwCase = "case",
    /// The keyword `const`.
    KwConst = "const",
    /// The keyword `const_assert`.
    KwConstAssert = "const_assert",
    /// The keyword `continue`.
    KwContinue = "continue",
    /// The keyword `continuing`.
    KwContinuing = "continuing",
    /// The keyword `default`.
    KwDefault = "default",
    /// The keyword `diagnostic`.
    KwDiagnostic = "diagnostic",
    /// The keyword `discard`.
    KwDiscard = "discard",
    /// The keyword `else`.
    KwElse = "else",
    /// The keyword `enable`.
    KwEnable = "enable",
    /// The keyword `false`.
    KwFalse = "false",
    /// The keyword `fn`.
    KwFn = "fn",
    /// The keyword `for`.
    KwFor = "for",
    /// The keyword `if`.
    KwIf = "if",
    /// The keyword `let`.
    KwLet = "let",
    /// The keyword `loop`.
    KwLoop = "loop",
    /// The keyword `override`.
    KwOverride = "override",
    /// The keyword `requires`.
    KwRequires = "requires",
    /// The keyword `return`.
    KwReturn = "return",
    /// The keyword `struct`.
    KwStruct = "struct",
    /// The keyword `switch`.
    KwSwitch = "switch",
    /// The keyword `true`.
    KwTrue = "true",
    /// The keyword `var`.
    KwVar = "var",
    /// The keyword `while`.
    KwWhile = "while",
    /// An identifier.
    Ident,
    /// A reserved word.
    ReservedWord,
    /// A whole number without suffix.
    AbstractInt,
    /// A whole number with the suffix `i`.
    I32,
    /// A whole number with the suffix `u`.
    U32,
    /// A float without suffix.
    AbstractFloat,
    /// A float with the suffix `f`.
    F32,
    /// A float with the suffix `h`.
    F16,
    /// The `<` that begins a template list.
    TemplateArgsStart,
    /// The `>` that ends a template list.
    TemplateArgsEnd,
    /// A line comment.
    LineComment,
    /// A block comment.
    BlockComment,
    /// A block comment that is not closed.
    OpenComment,
}

#[cfg(test)]
mod tests {
    use super::TokenKind;

    /// The kinds that a method is true of.
    fn count(is: impl Fn(TokenKind) -> bool) -> usize {
        TokenKind::ALL.iter().filter(|kind| is(**kind)).count()
    }

    #[test]
    fn kinds_are_told_apart() {
        assert_eq!(count(TokenKind::is_symbol), 46);
        assert_eq!(count(TokenKind::is_keyword), 26);
        assert_eq!(count(TokenKind::is_numeric_literal), 6);
        assert_eq!(count(TokenKind::is_comment), 3);
        for kind in TokenKind::ALL {
            let has_text = kind.is_symbol() || kind.is_keyword();
            assert_eq!(kind.text().is_some(), has_text, "{kind:?}");
        }
    }

    #[test]
    fn texts_are_tokens_of_their_kinds() {
        for kind in TokenKind::ALL {
            if let Some(text) = kind.text() {
                let tokens = crate::tokens(text).expect(text);
                let found: Vec<_> = tokens.iter().map(|token| token.kind).collect();
                assert_eq!(found, [*kind], "{text}");
            }
        }
    }
}
