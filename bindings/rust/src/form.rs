//! Trees as JSON, which docs/TREE.md of the repository describes.
//!
//! ```
//! use centrelilac::form::text_form;
//! use centrelilac::syntax::Expression;
//!
//! let json = text_form::<Expression>("-a.b")?;
//! let chain = r#"{"Chain":["a",{"NamedComponent":{"base":[1,2],"component":"b"}}]}"#;
//! let operand = format!(r#"{{"span":[1,4],"node":{chain}}}"#);
//! assert_eq!(json, format!(r#"{{"Unary":{{"operator":"-","operand":{operand}}}}}"#));
//! # Ok::<(), centrelilac::Fault>(())
//! ```

use crate::calls::{form_of, DEPTH};
use crate::fault::Fault;
use crate::nested::Coded;
use crate::packed::Unpacked;
use crate::visit::Accept;
use std::str::FromStr;

/// A node, or what its fields hold: each type of [`crate::syntax`]. No type outside this crate can
/// be one.
pub trait Form: Coded + Accept {}

impl<T: Coded + Accept> Form for T {}

/// A tree that is read from a text by itself: a module, a directive, a declaration, a statement or
/// an expression.
pub trait Source: Form + FromStr<Err = Fault> + sealed::Numbered + Unpacked {}

/// What only this crate gives a type.
pub(crate) mod sealed {
    /// A type that the library reads from a text.
    pub trait Numbered {
        /// Its number in `enum wgsl_tree_kind` of `wgsl.h`.
        const NUMBER: u32;
    }
}

/// Returns the JSON of the tree that a text is.
///
/// # Errors
///
/// The fault of the text, or that allocation fails.
///
/// # Examples
///
/// ```
/// use centrelilac::form::text_form;
/// use centrelilac::syntax::Statement;
///
/// assert_eq!(text_form::<Statement>(";")?, r#"{"Void":{"attributes":[]}}"#);
/// assert!(text_form::<Statement>("const").is_err());
/// # Ok::<(), centrelilac::Fault>(())
/// ```
pub fn text_form<T: Source>(text: &str) -> Result<String, Fault> {
    text_form_within::<T>(text, DEPTH)
}

/// Returns the JSON of the tree that a text is, which may nest a number of levels deep.
///
/// # Errors
///
/// The fault of the text, or that allocation fails.
///
/// # Examples
///
/// ```
/// use centrelilac::form::text_form_within;
/// use centrelilac::syntax::Expression;
///
/// assert!(text_form_within::<Expression>("a[(b)]", 2).is_ok());
/// assert!(text_form_within::<Expression>("a[(b)]", 1).is_err());
/// ```
pub fn text_form_within<T: Source>(text: &str, depth: usize) -> Result<String, Fault> {
    form_of(T::NUMBER, text, depth)
}
