//! Kinds of declarations as words.

use super::*;

/// Its words are `Copy` too.
impl Copy for DeclarationKind {}

impl DeclarationKind {
    /// The word that it begins with.
    pub(crate) fn word(&self) -> &'static str {
        match self {
            DeclarationKind::Const => "const",
            DeclarationKind::Override => "override",
            DeclarationKind::Let => "let",
            DeclarationKind::Var(_) => "var",
        }
    }
}

impl FromStr for DeclarationKind {
    type Err = UnknownWord;

    /// The kind of a word; a `var` has no template.
    fn from_str(word: &str) -> Result<Self, UnknownWord> {
        use DeclarationKind::{Const, Let, Override, Var};
        let mut kinds = [Const, Override, Let, Var(None)].into_iter();
        kinds.find(|kind| kind.word() == word).ok_or(UnknownWord)
    }
}
