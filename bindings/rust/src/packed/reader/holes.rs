//! Nodes that are left out of a tree where they are very deep inside others, and read afterwards.

use super::super::rules::PLACES;
use super::{Reader, DEEPEST};
use crate::span::{Span, Spanned};

/// The kind of a node that is left out.
#[derive(Clone, Copy, Debug)]
pub enum Kind {
    /// An expression.
    Expression,
    /// A statement.
    Statement,
}

/// A node that is left out of a tree. A `Spanned` without a node has its place.
#[derive(Clone, Copy, Debug)]
pub struct Hole {
    /// Which kind of node it is.
    pub kind: Kind,
    /// Its span.
    pub span: Span,
    /// Where its form is.
    pub form: Span,
}

impl<'t> Reader<'t> {
    /// Returns what is left out, by its number.
    pub fn hole(&self, number: usize) -> Option<Hole> {
        self.holes.get(number).copied()
    }

    /// Returns whether what nests is left out here.
    #[inline]
    pub(super) fn is_deep(&self) -> bool {
        self.depth >= DEEPEST
    }

    /// Leaves out the node that is next, whose span is read.
    #[cold]
    pub(super) fn leave_out<T>(&mut self, kind: Kind, span: Span) -> Option<Spanned<T>> {
        let at = self.place();
        let found = match self.nodes.binary_search_by_key(&at, |form| form.start) {
            Ok(found) => found,
            Err(_) => {
                let first = self.nodes.len();
                self.pass_over()?;
                first
            }
        };
        let form = *self.nodes.get(found)?;
        self.left = self.form.get(form.end..self.end)?;
        self.holes.push(Hole { kind, span, form });
        Some(Spanned::hole(self.holes.len() - 1))
    }

    /// Passes over a node by the places of the rules alone, and notes where it is and where those
    /// are that have a span inside it, in the order of their starts.
    fn pass_over(&mut self) -> Option<()> {
        // the places that are left of each rule that is open, and the number of the node if it is
        // one: what is after a span
        let mut open: Vec<(&[u8], Option<usize>)> = vec![(b"$", None)];
        let mut is_node = true;
        while let Some((places, node)) = open.pop() {
            let Some((place, places)) = places.split_first() else {
                if let Some(number) = node {
                    self.nodes[number].end = self.place();
                }
                continue;
            };
            open.push((places, node));
            match place {
                b'%' => {
                    self.span()?;
                }
                b'#' => {
                    self.bytes()?;
                }
                _ => {
                    let start = self.place();
                    let places = *PLACES.get(usize::from(self.rule()?))?;
                    open.push((places, is_node.then_some(self.nodes.len())));
                    self.nodes.extend(is_node.then(|| Span::new(start..start)));
                }
            }
            is_node = *place == b'%';
        }
        Some(())
    }
}
