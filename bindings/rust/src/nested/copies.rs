//! Copying trees, with what is very deep by itself.

use super::{Coded, Inner, Nested, Parts};
use crate::span::{Span, Spanned};

/// How many nodes with a span are copied inside one another.
const DEEPEST: usize = 64;

/// A list of what is left out of copies.
#[derive(Default)]
pub struct Copies<'t> {
    /// How many nodes with a span are being copied, each inside the one before.
    depth: usize,
    later: Vec<(Span, Inner<'t>)>,
}

impl<'t> Copies<'t> {
    /// Copies a node that has a span, or returns a hole if it is very deep inside others.
    pub fn node<T: Nested>(&mut self, spanned: &'t Spanned<T>) -> Spanned<T> {
        let (span, node) = (spanned.span, spanned.node());
        match node.inner() {
            Some(inner) if self.depth >= DEEPEST => {
                self.later.push((span, inner));
                Spanned::hole(self.later.len() - 1)
            }
            _ => {
                self.depth += 1;
                let copied = Spanned::new(node.copied(self), span);
                self.depth -= 1;
                copied
            }
        }
    }
}

/// Copies a node.
pub fn copy<T: Nested>(node: &T) -> T {
    let mut copies = Copies::default();
    let mut copied = node.copied(&mut copies);
    let mut parts = Parts::default();
    while let Some((span, inner)) = copies.later.get(parts.count()).copied() {
        match inner {
            Inner::Expression(node) => parts.push_expression(span, node.copied(&mut copies)),
            Inner::Statement(node) => parts.push_statement(span, node.copied(&mut copies)),
        }
    }
    parts.fill(&mut copied);
    copied
}
