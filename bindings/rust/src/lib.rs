//! WGSL, the shading language of WebGPU: read, checked and printed by a library of which every
//! function is proved (the static library `libwgsl.a`, made by `make lib` in its repository).
//!
//! ```
//! assert_eq!(centrelilac::format("const N=0x1f;")?, "const N = 31;\n");
//!
//! let fault = centrelilac::format("const = 1;").unwrap_err();
//! assert_eq!((fault.line, fault.column), (1, 7));
//! # Ok::<(), centrelilac::Fault>(())
//! ```
//!
//! Trees are plain Rust data, with the names of the library and of the crate `wgsl-parse`:
//!
//! ```
//! use centrelilac::syntax::{BinaryOperator, Expression};
//!
//! let tree: Expression = "a + b * c".parse()?;
//! let Expression::Binary(sum) = tree else { panic!("no operator") };
//! assert_eq!(sum.operator, BinaryOperator::Addition);
//! assert_eq!(sum.right.span().range(), 4..9);
//! assert_eq!(sum.right.to_string(), "b * c");
//! # Ok::<(), centrelilac::Fault>(())
//! ```
//!
//! [`visit`] walks over them, [`LineIndex`] finds lines and columns, and [`form`] has them
//! as JSON.
//!
//! What nests takes stack when the library reads it, so a text may nest up to [`DEPTH`] levels deep,
//! or as many as a call takes whose name ends with `_within`, and what nests deeper is a fault
//! ([`FaultKind::TooDeep`]); 1 MB of stack is enough. [`nesting`] returns how deep a text nests. A tree of any depth is printed with at most a megabyte of
//! stack, and dropped, copied, compared and hashed with little; walks and `{:?}` take stack for
//! each level. All calls may be made from any thread, at the same time too.
#![deny(unsafe_code, missing_docs)]

mod calls;
pub mod error;
mod fault;
#[allow(unsafe_code)]
mod ffi;
pub mod form;
#[cfg(test)]
mod header;
mod kind;
mod layout;
mod lines;
mod minified;
mod nested;
mod packed;
pub mod parser;
pub mod span;
pub mod syntax;
pub mod visit;
mod words;

pub use calls::{
    begins_with_template_list, check, check_within, format, format_within, nesting, parse,
    parse_within, recognize, recognize_within, template_lists, tokens, tokens_before_fault,
    tokens_with_comments, Token, DEPTH,
};
pub use fault::{Fault, Fault as Error, FaultKind};
pub use kind::TokenKind;
pub use layout::{tidy, tidy_with, tidy_within, Indent, Layout, Newlines};
pub use lines::{LineIndex, Position};
pub use minified::{minify, minify_within, Minified, MinifyOptions, Names};
pub use parser::{parse_str, recognize_str};
pub use syntax::SyntaxNode;

/// Its examples are tested.
#[cfg(doctest)]
#[doc = include_str!("../README.md")]
struct Readme;

/// What calls return may be used by each thread, also by several at once.
const _: () = {
    const fn is_shared<T: Send + Sync>() {}
    is_shared::<Fault>();
    is_shared::<Token>();
    is_shared::<Minified>();
    is_shared::<syntax::TranslationUnit>();
    is_shared::<syntax::GlobalDirective>();
    is_shared::<syntax::GlobalDeclaration>();
    is_shared::<syntax::Statement>();
    is_shared::<syntax::Expression>();
};
