//! Dropping, copying, comparing and hashing a tree with the same stack however deep it is.
//!
//! Trees nest only through expressions and statements that have a span. So each of these reads a
//! node up to those, or up to those that are very deep inside others, puts them on a list, and goes
//! on with the list.

mod code;
mod copies;
mod drops;
mod forms;
mod parts;

use crate::syntax::{Attribute, Expression, GlobalDeclaration, Statement, StructMember};
use crate::visit::Accept;

pub use code::{feed, same, Code, Coded};
pub use copies::{copy, Copies};
pub use drops::drop_node;
pub use forms::{joined, Partial};
pub use parts::Parts;

/// An expression or a statement, which may nest.
#[derive(Clone, Copy, Debug)]
pub enum Inner<'t> {
    /// An expression.
    Expression(&'t Expression),
    /// A statement.
    Statement(&'t Statement),
}

/// A node that has a span.
pub trait Nested: Coded + Accept + 'static {
    /// Returns this, if it is an expression or a statement.
    fn inner(&self) -> Option<Inner<'_>>;
}

/// The nodes that do not nest in one another.
macro_rules! outer {
    ($($name:ident)*) => {$(
        impl Nested for $name {
            fn inner(&self) -> Option<Inner<'_>> {
                None
            }
        }
    )*};
}

outer! { Attribute GlobalDeclaration StructMember }

/// The nodes that do.
macro_rules! inner {
    ($($name:ident)*) => {$(
        impl Nested for $name {
            fn inner(&self) -> Option<Inner<'_>> {
                Some(Inner::$name(self))
            }
        }
    )*};
}

inner! { Expression Statement }
