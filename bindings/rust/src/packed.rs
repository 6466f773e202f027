//! The packed form of trees, which docs/TREE.md of the repository describes: bytes by which trees
//! come from the library, and go to it to be printed.

#[macro_use]
mod node_attributes;

#[cfg(test)]
mod machine;
#[cfg(test)]
mod made;
mod reader;
mod rules;
#[cfg(test)]
mod tests;
mod writer;

use crate::nested::Parts;
use crate::span::Span;
use crate::visit::Accept;
#[cfg(test)]
pub use made::{Made, Random};
use reader::{Kind, Reader};
pub use writer::{Packed, Writer};

/// How many expressions and statements are read or written inside one another, so that neither
/// takes more than a megabyte of stack, half of what a thread that std starts has by default: a
/// level takes up to 10,000 bytes without optimization. What nests deeper is left out, and read or
/// written afterwards.
const DEEPEST: usize = 100;

/// A tree that is read from its packed form.
pub trait Unpacked: Accept + Sized {
    /// Reads it from the front of a form, without what nests very deep in it; returns nothing if it
    /// is not there.
    fn unpack(from: &mut Reader<'_>) -> Option<Self>;
}

/// Reads the tree that a whole packed form is of, if it is one.
pub fn from_packed<T: Unpacked>(form: &[u8]) -> Option<T> {
    let mut reader = Reader::new(form);
    let mut tree = reader.whole(Span::new(0..form.len()))?;
    let mut parts = Parts::default();
    while let Some(hole) = reader.hole(parts.count()) {
        match hole.kind {
            Kind::Expression => parts.push_expression(hole.span, reader.whole(hole.form)?),
            Kind::Statement => parts.push_statement(hole.span, reader.whole(hole.form)?),
        }
    }
    parts.fill(&mut tree);
    Some(tree)
}

/// Returns the packed form of a tree, in which each span is 0 to 0, since no print depends on it.
pub fn to_packed<T: Packed>(tree: &T) -> Vec<u8> {
    let mut form = Writer::new(false);
    tree.pack_ended(&mut form);
    form.finish()
}
