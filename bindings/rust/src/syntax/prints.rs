//! The printed texts of nodes.

use super::*;
use crate::calls::print_of;
use crate::packed::{to_packed, Packed};
use std::fmt;

/// Prints a node.
fn print<T: Packed>(node: &T, f: &mut fmt::Formatter<'_>) -> fmt::Result {
    let text = print_of(&to_packed(node));
    f.write_str(&text.ok_or(fmt::Error)?)
}

/// The nodes that the library prints.
macro_rules! prints {
    ($($name:ident)*) => {$(
        impl fmt::Display for $name {
            /// Prints the node: see [Printing](crate::syntax#printing).
            fn fmt(&self, f: &mut fmt::Formatter<'_>) -> fmt::Result {
                print(self, f)
            }
        }
    )*};
}

impl fmt::Display for TemplateArg {
    /// Prints the node: see [Printing](crate::syntax#printing).
    fn fmt(&self, f: &mut fmt::Formatter<'_>) -> fmt::Result {
        self.expression.fmt(f)
    }
}

// after the macros that it uses
mod node_prints;
