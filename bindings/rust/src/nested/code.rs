//! Comparing and hashing trees, by what they consist of.

use super::{Copies, Inner, Nested};
use crate::span::{Span, Spanned};
use crate::syntax::Ident;
use std::hash::{Hash, Hasher};

/// A part of a tree.
#[derive(Clone, Copy, Debug)]
enum Piece<'t> {
    /// A number, the length of a list, or whether there is a value.
    Number(i64),
    /// A text, or the name of a variant.
    Text(&'t str),
    /// Where a node is.
    Span(Span),
    /// What nests.
    Inner(Inner<'t>),
}

/// The parts of a tree that are not read yet, the next of them last. In their order, in which a
/// variant and the length of a list are before what they hold, they determine the tree.
#[derive(Debug, Default)]
pub struct Code<'t>(Vec<Piece<'t>>);

impl<'t> Code<'t> {
    /// Returns the parts of a tree.
    pub fn new<T: Coded>(tree: &'t T) -> Self {
        let mut code = Code::default();
        tree.code(&mut code);
        code.0.reverse();
        code
    }

    /// Puts a number at the end.
    pub fn number(&mut self, number: i64) {
        self.0.push(Piece::Number(number));
    }

    /// Puts a text at the end.
    pub fn text(&mut self, text: &'t str) {
        self.0.push(Piece::Text(text));
    }

    /// Takes the next part.
    fn next(&mut self) -> Option<Piece<'t>> {
        self.0.pop()
    }

    /// Puts the parts of what nests before the others.
    fn open(&mut self, inner: Inner<'t>) {
        let rest = self.0.len();
        match inner {
            Inner::Expression(expression) => expression.code(self),
            Inner::Statement(statement) => statement.code(self),
        }
        self.0[rest..].reverse();
    }
}

/// A type that consists of parts: nodes, and what their fields hold.
pub trait Coded: Sized {
    /// Puts its parts in order, without those of what nests in it.
    fn code<'t>(&'t self, code: &mut Code<'t>);

    /// Returns a copy, with holes for what nests very deep in it.
    fn copied<'t>(&'t self, copies: &mut Copies<'t>) -> Self;
}

/// Returns whether two trees consist of the same parts, with or without their spans.
pub fn same<T: Coded>(first: &T, second: &T, spans: bool) -> bool {
    let (mut left, mut right) = (Code::new(first), Code::new(second));
    loop {
        let is_same = match (left.next(), right.next()) {
            (None, None) => return true,
            (Some(Piece::Number(a)), Some(Piece::Number(b))) => a == b,
            (Some(Piece::Text(a)), Some(Piece::Text(b))) => a == b,
            (Some(Piece::Span(a)), Some(Piece::Span(b))) => !spans || a == b,
            (Some(Piece::Inner(a)), Some(Piece::Inner(b))) => {
                left.open(a);
                right.open(b);
                true
            }
            _ => false,
        };
        if !is_same {
            return false;
        }
    }
}

/// Hashes what a tree consists of, without its spans.
pub fn feed<T: Coded, H: Hasher>(tree: &T, state: &mut H) {
    let mut code = Code::new(tree);
    while let Some(piece) = code.next() {
        match piece {
            Piece::Number(number) => number.hash(state),
            Piece::Text(text) => text.hash(state),
            Piece::Span(_) => {}
            Piece::Inner(inner) => code.open(inner),
        }
    }
}

impl<T: Nested> Coded for Spanned<T> {
    fn code<'t>(&'t self, code: &mut Code<'t>) {
        code.0.push(Piece::Span(self.span));
        match self.node().inner() {
            Some(inner) => code.0.push(Piece::Inner(inner)),
            None => self.node().code(code),
        }
    }

    fn copied<'t>(&'t self, copies: &mut Copies<'t>) -> Self {
        copies.node(self)
    }
}

impl Coded for Ident {
    fn code<'t>(&'t self, code: &mut Code<'t>) {
        code.text(self.name());
    }

    fn copied<'t>(&'t self, _: &mut Copies<'t>) -> Self {
        self.clone()
    }
}

impl Coded for String {
    fn code<'t>(&'t self, code: &mut Code<'t>) {
        code.text(self);
    }

    fn copied<'t>(&'t self, _: &mut Copies<'t>) -> Self {
        self.clone()
    }
}

/// Numbers.
macro_rules! numbers {
    ($($number:ty)*) => {$(
        impl Coded for $number {
            fn code<'t>(&'t self, code: &mut Code<'t>) {
                code.number(i64::from(*self));
            }

            fn copied<'t>(&'t self, _: &mut Copies<'t>) -> Self {
                *self
            }
        }
    )*};
}

numbers! { bool i32 u32 i64 }

impl<T: Coded> Coded for Option<T> {
    fn code<'t>(&'t self, code: &mut Code<'t>) {
        code.number(self.is_some().into());
        if let Some(value) = self {
            value.code(code);
        }
    }

    fn copied<'t>(&'t self, copies: &mut Copies<'t>) -> Self {
        self.as_ref().map(|value| value.copied(copies))
    }
}

impl<T: Coded> Coded for Vec<T> {
    fn code<'t>(&'t self, code: &mut Code<'t>) {
        code.number(self.len() as i64);
        for item in self {
            item.code(code);
        }
    }

    fn copied<'t>(&'t self, copies: &mut Copies<'t>) -> Self {
        self.iter().map(|item| item.copied(copies)).collect()
    }
}

impl<A: Coded, B: Coded> Coded for (A, B) {
    fn code<'t>(&'t self, code: &mut Code<'t>) {
        self.0.code(code);
        self.1.code(code);
    }

    fn copied<'t>(&'t self, copies: &mut Copies<'t>) -> Self {
        (self.0.copied(copies), self.1.copied(copies))
    }
}
