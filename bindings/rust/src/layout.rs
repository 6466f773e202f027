//! Modules formatted with their comments, by a layout that is chosen.

use crate::calls::{text_of, DEPTH};
use crate::fault::Fault;
use crate::ffi::{Call, Choices};

/// The layout of a formatted text: how long a line may be, how far it is indented, and with what it
/// ends.
///
/// # Examples
///
/// ```
/// use centrelilac::{Indent, Layout};
///
/// let layout = Layout { indent: Indent::Tab(8), ..Layout::default() };
/// assert_eq!(layout.width, 100);
/// ```
#[derive(Clone, Copy, Debug, PartialEq, Eq, Hash)]
pub struct Layout {
    /// A line with more columns is broken at its brackets, as far as it has any. If 0, none is.
    pub width: usize,
    /// What one level of indentation is.
    pub indent: Indent,
    /// With what lines end.
    pub newlines: Newlines,
}

/// The blank space of one level of indentation.
#[derive(Clone, Copy, Debug, PartialEq, Eq, Hash)]
pub enum Indent {
    /// A number of spaces. A tab in a comment counts as many columns.
    Spaces(u8),
    /// A tab, which counts as a number of columns.
    Tab(u8),
}

/// The line breaks of a formatted text.
#[derive(Clone, Copy, Debug, PartialEq, Eq, Hash)]
pub enum Newlines {
    /// With CR LF if the first line of the source does, otherwise with LF.
    Auto,
    /// With LF.
    Lf,
    /// With CR LF.
    CrLf,
}

impl Default for Layout {
    /// Returns the standard layout: lines of up to 100 columns, four spaces a level, and the line
    /// breaks of the source.
    fn default() -> Layout {
        Layout {
            width: 100,
            indent: Indent::Spaces(4),
            newlines: Newlines::Auto,
        }
    }
}

impl Layout {
    /// Returns what a call takes of it.
    fn choices(self) -> Choices {
        let (tab, indent) = match self.indent {
            Indent::Spaces(columns) => (0, columns),
            Indent::Tab(columns) => (1, columns),
        };
        let newlines = match self.newlines {
            Newlines::Auto => 0,
            Newlines::Lf => 1,
            Newlines::CrLf => 2,
        };
        Choices {
            width: self.width,
            indent,
            tab,
            newlines,
        }
    }
}

/// Returns the formatted text of a module, with its comments, as the program `wgsltidy` writes it.
/// Names are not checked, so a module with a name that this library does not know is formatted too.
///
/// # Errors
///
/// The fault of the text, or that allocation fails.
///
/// # Examples
///
/// ```
/// let text = centrelilac::tidy("fn f(){x=1;} // f")?;
/// assert_eq!(text, "fn f() {\n    x = 1;\n} // f\n");
/// # Ok::<(), centrelilac::Fault>(())
/// ```
pub fn tidy(text: &str) -> Result<String, Fault> {
    tidy_with(text, Layout::default())
}

/// Returns the formatted text of a module as [`tidy`] does, by another layout.
///
/// # Errors
///
/// The fault of the text, or that allocation fails.
///
/// # Examples
///
/// ```
/// use centrelilac::{Indent, Layout, Newlines};
///
/// let layout = Layout { width: 12, indent: Indent::Spaces(2), newlines: Newlines::Lf };
/// let text = centrelilac::tidy_with("const a=f(1,2);\r\n", layout)?;
/// assert_eq!(text, "const a = f(\n  1,\n  2\n);\n");
/// # Ok::<(), centrelilac::Fault>(())
/// ```
pub fn tidy_with(text: &str, layout: Layout) -> Result<String, Fault> {
    tidy_within(text, layout, DEPTH)
}

/// Returns the formatted text of a module as [`tidy_with`] does, which may nest a number of levels
/// deep.
///
/// # Errors
///
/// The fault of the text, or that allocation fails.
///
/// # Examples
///
/// ```
/// use centrelilac::{tidy_within, FaultKind, Layout};
///
/// let text = format!("const a = {}1{};", "(".repeat(99), ")".repeat(99));
/// assert!(tidy_within(&text, Layout::default(), 99).is_ok());
/// let fault = tidy_within(&text, Layout::default(), 9).unwrap_err();
/// assert_eq!((fault.kind, fault.span.range()), (FaultKind::TooDeep, 19..20));
/// ```
pub fn tidy_within(text: &str, layout: Layout, depth: usize) -> Result<String, Fault> {
    let call = Call::Tidy(depth, layout.choices());
    text_of(call, text, text.len() + text.len() / 2)
}
