//! The trees, as plain data. Each has the fields of the library's, under the same names.
//!
//! A tree is owned, has no reference to the text that it was read from, and is `Send` and `Sync`.
//! `==` and the hash ignore spans.
//!
//! ```
//! use centrelilac::syntax::*;
//!
//! let mut function = Function::new(Ident::from("f"));
//! function.return_type = Some(TypeExpression::new(Ident::from("i32")));
//! let one = Statement::from(ReturnStatement::from(Expression::from(1i64)));
//! function.body.statements.push(one.into());
//!
//! let read: GlobalDeclaration = "fn f() -> i32 { return 1; }".parse()?;
//! assert_eq!(read, function.into());
//! # Ok::<(), centrelilac::Fault>(())
//! ```
//!
//! # Printing
//!
//! `{}` and `to_string` print a node as the library does in a module, also by itself. They do not
//! depend on spans.
//!
//! ```
//! use centrelilac::syntax::*;
//!
//! let mut unit = centrelilac::parse("const a=0x1f;fn f(){}")?;
//! assert_eq!(unit.global_declarations[0].to_string(), "const a = 31;");
//!
//! unit.global_declarations[1] = GlobalDeclaration::from(Function::new(Ident::from("g"))).into();
//! assert_eq!(unit.to_string(), centrelilac::format("const a = 31; fn g() {}")?);
//! # Ok::<(), centrelilac::Fault>(())
//! ```
//!
//! Long lines are not broken, and an empty block has an empty line. [`tidy`](crate::tidy) lays such a
//! text out as a formatter does:
//!
//! ```
//! let unit = centrelilac::parse("fn f() { loop {} }")?;
//! let text = centrelilac::tidy(&unit.to_string())?;
//! assert_eq!(text, "fn f() {\n    loop {}\n}\n");
//! # Ok::<(), centrelilac::Fault>(())
//! ```
//!
//! A tree that was parsed prints to a text that parses to an equal tree without its empty items. In
//! a tree made by hand, each name is printed as it is spelled, and parentheses are printed only for
//! a [`ParenthesizedExpression`]:
//!
//! ```
//! use centrelilac::syntax::*;
//!
//! let sum: Expression = "a + b".parse()?;
//! let product = BinaryExpression {
//!     operator: BinaryOperator::Multiplication,
//!     right: Expression::from(2i64).into(),
//!     left: sum.into(),
//! };
//! assert_eq!(product.to_string(), "a + b * 2");
//! # Ok::<(), centrelilac::Fault>(())
//! ```
//!
//! A tree of any depth can be printed; it takes at most a megabyte of stack. Printing returns
//! [`std::fmt::Error`] if allocation fails in the library; `to_string` panics then.
//!
//! [`DiagnosticAttribute`], [`InterpolateAttribute`], [`WorkgroupSizeAttribute`] and
//! [`CustomAttribute`] are printed as an [`Attribute`] only.

use crate::calls::{parse_within, DEPTH};
use crate::fault::Fault;
use crate::form::sealed::Numbered;
use crate::form::Source;
use crate::nested::{Code, Coded, Copies};
use crate::visit::{Accept, Visit, VisitMut, Walk};
use std::str::FromStr;

#[macro_use]
mod macros;
#[macro_use]
mod syntax_node;
#[macro_use]
mod variants;

mod constructors;
mod declaration_kind;
mod ident;
#[cfg(test)]
mod kinds;
mod module_path;
mod node_attributes;
mod node_enums;
mod node_structs;
mod node_variants;
mod prints;
mod voids;

pub use self::ident::Ident;
pub use self::module_path::{ModulePath, ModulePathParseError, PathOrigin};
pub use self::node_enums::*;
pub use self::node_structs::*;
pub use self::syntax_node::SyntaxNode;
pub use crate::span::{Span, Spanned};
pub use crate::words::{
    AccessMode, AddressSpace, AssignmentOperator, BinaryOperator, BuiltinValue, DiagnosticSeverity,
    InterpolationSampling, InterpolationType, UnaryOperator, UnknownWord,
};

/// A declaration of a module with its span.
pub type GlobalDeclarationNode = Spanned<GlobalDeclaration>;

/// A member of a structure with its span.
pub type StructMemberNode = Spanned<StructMember>;

/// An attribute with its span.
pub type AttributeNode = Spanned<Attribute>;

/// The attributes of a node.
pub type Attributes = Vec<AttributeNode>;

/// An expression with its span.
pub type ExpressionNode = Spanned<Expression>;

/// A call as an expression.
pub type FunctionCallExpression = FunctionCall;

/// The arguments of a template, if it is there.
pub type TemplateArgs = Option<Vec<TemplateArg>>;

/// A statement with its span.
pub type StatementNode = Spanned<Statement>;

/// A `const_assert` as a statement.
pub type ConstAssertStatement = ConstAssert;

/// A declaration of a value as a statement.
pub type DeclarationStatement = Declaration;

/// What is read from a text, with its number in `wgsl.h`.
macro_rules! sources {
    ($($name:ident = $number:literal,)*) => {$(
        impl Numbered for $name {
            const NUMBER: u32 = $number;
        }

        impl Source for $name {}

        impl FromStr for $name {
            type Err = Fault;

            fn from_str(text: &str) -> Result<Self, Fault> {
                parse_within(text, DEPTH)
            }
        }
    )*};
}

sources! {
    TranslationUnit = 0,
    GlobalDirective = 1,
    GlobalDeclaration = 2,
    Statement = 3,
    Expression = 4,
}

impl FromStr for TypeExpression {
    type Err = Fault;

    /// Reads a type, as `vec3<f32>`.
    ///
    /// # Errors
    ///
    /// The fault of the text, also if it is an expression but no type, or that allocation fails.
    ///
    /// # Examples
    ///
    /// ```
    /// use centrelilac::syntax::TypeExpression;
    ///
    /// let ty: TypeExpression = "vec3<f32>".parse()?;
    /// assert_eq!(ty.ident.name(), "vec3");
    /// assert!("1 + 2".parse::<TypeExpression>().is_err());
    /// # Ok::<(), centrelilac::Fault>(())
    /// ```
    fn from_str(text: &str) -> Result<Self, Fault> {
        match text.parse()? {
            Expression::TypeOrIdentifier(ty) => Ok(ty),
            _ => Err(Fault::no_type(text)),
        }
    }
}
