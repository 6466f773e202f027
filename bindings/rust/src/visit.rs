//! Walks over trees: [`Visit`] reads nodes, [`VisitMut`] changes them.
//!
//! A visitor has a method for each kind of node, `visit_` and its name. Unless you write it, it
//! goes on with the parts of the node, in the order of the text. Yours goes on where it calls
//! [`walk`](Walk::walk).
//!
//! ```
//! use centrelilac::syntax::{FunctionCall, Ident};
//! use centrelilac::visit::{Visit, VisitMut, Walk};
//!
//! /// The names that are called.
//! #[derive(Default)]
//! struct Calls<'t>(Vec<&'t str>);
//!
//! impl<'t> Visit<'t> for Calls<'t> {
//!     fn visit_function_call(&mut self, call: &'t FunctionCall) {
//!         self.0.push(call.ty.ident.name());
//!         call.walk(self);
//!     }
//! }
//!
//! let mut unit = centrelilac::parse("fn f() { g(h(1)); }")?;
//! let mut calls = Calls::default();
//! calls.visit_translation_unit(&unit);
//! assert_eq!(calls.0, ["g", "h"]);
//!
//! /// Puts a `_` at the end of every name.
//! struct Rename;
//!
//! impl VisitMut for Rename {
//!     fn visit_ident_mut(&mut self, ident: &mut Ident) {
//!         ident.rename(format!("{ident}_"));
//!     }
//! }
//!
//! Rename.visit_translation_unit_mut(&mut unit);
//! assert_eq!(unit, centrelilac::parse("fn f_() { g_(h_(1)); }")?);
//! # Ok::<(), centrelilac::Fault>(())
//! ```
//!
//! A node with a span is visited twice, first with it: `visit_expression_node` and then
//! `visit_expression`. What is no node is not visited: operators, words, numbers and the names of
//! attributes, rules and extensions.
//!
//! A walk takes stack for each level, unlike dropping, copying and comparing: at most 100 bytes, or
//! 800 without optimization.

use crate::span::Spanned;
use crate::syntax::*;

pub use self::node_visits::{Visit, VisitMut};

/// A tree or a part of one that has parts, which are visited.
pub trait Walk {
    /// Visits the parts of a node, in the order of the text.
    ///
    /// ```
    /// use centrelilac::syntax::{Expression, ExpressionNode};
    /// use centrelilac::visit::{Visit, Walk};
    ///
    /// /// The starts of expressions.
    /// struct Starts(Vec<usize>);
    ///
    /// impl<'t> Visit<'t> for Starts {
    ///     fn visit_expression_node(&mut self, node: &'t ExpressionNode) {
    ///         self.0.push(node.span().start);
    ///         node.walk(self);
    ///     }
    /// }
    ///
    /// let mut starts = Starts(Vec::new());
    /// "a * b + c".parse::<Expression>()?.walk(&mut starts);
    /// assert_eq!(starts.0, [0, 0, 4, 8]);
    /// # Ok::<(), centrelilac::Fault>(())
    /// ```
    fn walk<'t, V: Visit<'t> + ?Sized>(&'t self, visitor: &mut V);

    /// Visits the parts of a node, which may be changed, in the order of the text.
    ///
    /// ```
    /// use centrelilac::syntax::{Expression, ParenthesizedExpression};
    /// use centrelilac::visit::{VisitMut, Walk};
    ///
    /// /// Removes parentheses.
    /// struct Bare;
    ///
    /// impl VisitMut for Bare {
    ///     fn visit_expression_mut(&mut self, node: &mut Expression) {
    ///         while let Expression::Parenthesized(inside) = node {
    ///             *node = std::mem::replace(&mut *inside.expression, true.into());
    ///         }
    ///         node.walk_mut(self);
    ///     }
    /// }
    ///
    /// let mut sum: Expression = "(a) + ((b))".parse()?;
    /// sum.walk_mut(&mut Bare);
    /// assert_eq!("a + b".parse(), Ok(sum));
    /// # Ok::<(), centrelilac::Fault>(())
    /// ```
    fn walk_mut<V: VisitMut + ?Sized>(&mut self, visitor: &mut V);
}

impl<T: Accept + 'static> Walk for Spanned<T> {
    fn walk<'t, V: Visit<'t> + ?Sized>(&'t self, visitor: &mut V) {
        self.node().accept(visitor);
    }

    fn walk_mut<V: VisitMut + ?Sized>(&mut self, visitor: &mut V) {
        self.node_mut().accept_mut(visitor);
    }
}

/// A type that a visitor can be sent to: a node, a list of nodes, or a node that may be left out.
pub trait Accept {
    /// Calls the method of a visitor for this node.
    ///
    /// ```
    /// use centrelilac::syntax::Ident;
    /// use centrelilac::visit::{Accept, Visit};
    ///
    /// /// Counts names.
    /// struct Count(usize);
    ///
    /// impl<'t> Visit<'t> for Count {
    ///     fn visit_ident(&mut self, _: &'t Ident) {
    ///         self.0 += 1;
    ///     }
    /// }
    ///
    /// let mut count = Count(0);
    /// centrelilac::parse("const a = b + c;")?.global_declarations.accept(&mut count);
    /// assert_eq!(count.0, 3);
    /// # Ok::<(), centrelilac::Fault>(())
    /// ```
    fn accept<'t, V: Visit<'t> + ?Sized>(&'t self, visitor: &mut V);

    /// Calls the method of a visitor that may change this node.
    ///
    /// ```
    /// use centrelilac::syntax::{Expression, LiteralExpression};
    /// use centrelilac::visit::{Accept, VisitMut};
    ///
    /// /// Writes every whole number as one of type `u32`.
    /// struct Unsigned;
    ///
    /// impl VisitMut for Unsigned {
    ///     fn visit_literal_expression_mut(&mut self, literal: &mut LiteralExpression) {
    ///         if let LiteralExpression::AbstractInt(number) = *literal {
    ///             *literal = LiteralExpression::U32(number as u32);
    ///         }
    ///     }
    /// }
    ///
    /// let mut call: Expression = "f(1, 2)".parse()?;
    /// call.accept_mut(&mut Unsigned);
    /// assert_eq!("f(1u, 2u)".parse(), Ok(call));
    /// # Ok::<(), centrelilac::Fault>(())
    /// ```
    fn accept_mut<V: VisitMut + ?Sized>(&mut self, visitor: &mut V);
}

impl<T: Accept> Accept for Vec<T> {
    fn accept<'t, V: Visit<'t> + ?Sized>(&'t self, visitor: &mut V) {
        for item in self {
            item.accept(visitor);
        }
    }

    fn accept_mut<V: VisitMut + ?Sized>(&mut self, visitor: &mut V) {
        for item in self {
            item.accept_mut(visitor);
        }
    }
}

impl<T: Accept> Accept for Option<T> {
    fn accept<'t, V: Visit<'t> + ?Sized>(&'t self, visitor: &mut V) {
        if let Some(node) = self {
            node.accept(visitor);
        }
    }

    fn accept_mut<V: VisitMut + ?Sized>(&mut self, visitor: &mut V) {
        if let Some(node) = self {
            node.accept_mut(visitor);
        }
    }
}

/// What is no node.
macro_rules! unvisited {
    ($($name:ty,)*) => {$(
        impl Accept for $name {
            fn accept<'t, V: Visit<'t> + ?Sized>(&'t self, _: &mut V) {}

            fn accept_mut<V: VisitMut + ?Sized>(&mut self, _: &mut V) {}
        }
    )*};
}

impl Walk for Ident {
    fn walk<'t, V: Visit<'t> + ?Sized>(&'t self, _: &mut V) {}

    fn walk_mut<V: VisitMut + ?Sized>(&mut self, _: &mut V) {}
}

/// The visitors, with their methods for each kind of node.
macro_rules! visitors {
    ($($name:ident $visit:ident $visit_mut:ident,)*) => {
        /// A visitor that reads the nodes of a tree: see the [module](super).
        ///
        /// The lifetime is that of the tree, so a visitor can keep what it is given.
        pub trait Visit<'t> {
            $(
                #[doc = concat!("Reads a [`", stringify!($name), "`]: see the [example](super).")]
                fn $visit(&mut self, node: &'t $name) {
                    node.walk(self);
                }
            )*
        }

        /// A visitor that changes the nodes of a tree: see the [module](super).
        pub trait VisitMut {
            $(
                #[doc = concat!("Changes a [`", stringify!($name), "`]: see the [example](super).")]
                fn $visit_mut(&mut self, node: &mut $name) {
                    node.walk_mut(self);
                }
            )*
        }

        $(
            impl Accept for $name {
                fn accept<'t, V: Visit<'t> + ?Sized>(&'t self, visitor: &mut V) {
                    visitor.$visit(self);
                }

                fn accept_mut<V: VisitMut + ?Sized>(&mut self, visitor: &mut V) {
                    visitor.$visit_mut(self);
                }
            }
        )*
    };
}

// after the macros that it uses
mod node_visits;
