//! What is wrong with a text.

use crate::error::{ErrorInFile, ErrorWithSource};
use crate::ffi::Answer;
use crate::lines::LineIndex;
use crate::span::Span;
use std::borrow::Cow;
use std::error::Error;
use std::fmt;

/// How many of the expected tokens a message names, unless one more is all.
const NAMED: usize = 4;

/// The kind of a fault.
#[derive(Clone, Copy, Debug, PartialEq, Eq, Hash)]
#[non_exhaustive]
pub enum FaultKind {
    /// Text that begins no token, or a whole number out of range.
    InvalidToken,
    /// A reserved word where a name is wanted.
    ReservedWord,
    /// A token that cannot be where it is.
    UnexpectedToken,
    /// The text ends too early.
    UnexpectedEof,
    /// A severity that is not one.
    DiagnosticSeverity,
    /// An attribute whose arguments do not fit.
    Attribute,
    /// A `var` template whose arguments do not fit.
    VarTemplate,
    /// The text nests too deep, at the first token with which it does.
    TooDeep,
    /// An allocation failed.
    OutOfMemory,
}

impl FaultKind {
    /// The kinds that a text is refused by, with their numbers in `enum wgsl_fault` of `wgsl.h`.
    pub(crate) const NUMBERED: [(usize, FaultKind); 7] = [
        (1, FaultKind::InvalidToken),
        (2, FaultKind::ReservedWord),
        (3, FaultKind::UnexpectedToken),
        (4, FaultKind::UnexpectedEof),
        (6, FaultKind::DiagnosticSeverity),
        (7, FaultKind::Attribute),
        (8, FaultKind::VarTemplate),
    ];

    /// The kind with a number of `wgsl.h`.
    fn from_number(number: usize) -> FaultKind {
        let found = Self::NUMBERED.into_iter().find(|(it, _)| *it == number);
        found.expect("the library names a kind of its header").1
    }
}

/// A fault of a text, or a failed allocation, with its place.
///
/// ```
/// use centrelilac::{check, Fault, FaultKind};
///
/// let fault: Fault = check("const a = 1;\nconst = 2;").unwrap_err();
/// assert_eq!(fault.kind, FaultKind::UnexpectedToken);
/// assert_eq!((fault.span.start, fault.span.end), (19, 20));
/// assert_eq!((fault.line, fault.column), (2, 7));
/// assert_eq!(fault.expected, ["identifier"]);
/// assert_eq!(
///     fault.to_string(),
///     "line 2, column 7: unexpected token `=`, expected `identifier`"
/// );
/// ```
#[derive(Clone, Debug, PartialEq, Eq, Hash)]
#[non_exhaustive]
pub struct Fault {
    /// What kind of fault it is.
    pub kind: FaultKind,
    /// Where it is, in bytes. If the text ends too early, this is from the end of its last token to
    /// one byte after, which may be past the text.
    pub span: Span,
    /// The line where it starts, from 1. Lines end at a line feed.
    pub line: usize,
    /// The character of the line where it starts, from 1.
    pub column: usize,
    /// What is wrong, in words, with what was expected: of many tokens, the first four.
    pub message: String,
    /// All that was expected there, where a token or the end was unexpected.
    pub expected: Vec<String>,
}

impl Fault {
    /// Returns the fault that an answer reports of a text, by its texts: each ends with a byte 0.
    pub(crate) fn told(text: &str, answer: &Answer, texts: &[u8]) -> Fault {
        Fault::of_kind(FaultKind::from_number(answer.kind), text, answer, texts)
    }

    /// Returns the fault of a text that nests too deep, by the same.
    pub(crate) fn too_deep(text: &str, answer: &Answer, texts: &[u8]) -> Fault {
        Fault::of_kind(FaultKind::TooDeep, text, answer, texts)
    }

    fn of_kind(kind: FaultKind, text: &str, answer: &Answer, texts: &[u8]) -> Fault {
        let mut texts = texts
            .split(|byte| *byte == 0)
            .map(|text| String::from_utf8_lossy(text).into_owned());
        let message = texts.next().unwrap_or_default();
        let expected: Vec<_> = texts.take(answer.expected).collect();
        let place = LineIndex::new(text).position(answer.start);
        Fault {
            kind,
            span: Span::new(answer.start..answer.end),
            line: place.line,
            column: place.column,
            message: shortened(message, &expected),
            expected,
        }
    }

    /// Adds the text that it is about, which is written with the line where it starts.
    ///
    /// ```
    /// let text = "const a = 1;\nconst = 2;";
    /// let fault = centrelilac::parse(text).unwrap_err();
    /// let shown = fault.with_source(text.into()).to_string();
    /// assert!(shown.ends_with("\n --> line 2, column 7\nconst = 2;\n      ^"));
    /// ```
    #[must_use]
    pub fn with_source(self, source: Cow<'_, str>) -> ErrorWithSource<'_> {
        ErrorWithSource::new(self, source)
    }

    /// Adds the name of the file that it is about, and the text of that, with which it is written
    /// as compilers do.
    ///
    /// ```
    /// let text = "const a = 1;\nconst = 2;";
    /// let fault = centrelilac::parse(text).unwrap_err();
    /// let shown = fault.in_file("waves.wgsl", text).to_string();
    /// assert_eq!(shown, "waves.wgsl:2:7: error: unexpected token `=`\nconst = 2;\n      ^");
    /// ```
    #[must_use]
    pub fn in_file<'e>(&'e self, name: &'e str, source: &'e str) -> ErrorInFile<'e> {
        ErrorInFile {
            error: self,
            name,
            source,
        }
    }

    /// Returns its message without what was expected.
    pub(crate) fn message_alone(&self) -> &str {
        match self.message.rsplit_once(", expected `") {
            Some((message, _)) if !self.expected.is_empty() => message,
            _ => &self.message,
        }
    }

    /// Whether it is about a place in the text.
    pub(crate) fn has_place(&self) -> bool {
        self.kind != FaultKind::OutOfMemory
    }

    /// A text is an expression, where a type is wanted.
    pub(crate) fn no_type(text: &str) -> Fault {
        Fault {
            kind: FaultKind::UnexpectedToken,
            span: Span::new(0..text.len()),
            line: 1,
            column: 1,
            message: "unexpected expression, expected `type`".to_owned(),
            expected: vec!["type".to_owned()],
        }
    }

    /// An allocation failed.
    pub(crate) fn out_of_memory() -> Fault {
        Fault {
            kind: FaultKind::OutOfMemory,
            span: Span::default(),
            line: 1,
            column: 1,
            message: "out of memory".to_owned(),
            expected: Vec::new(),
        }
    }
}

/// A message that ends with all expected tokens, with the first of them if they are many.
fn shortened(message: String, expected: &[String]) -> String {
    let all = format!("`{}`", expected.join(", "));
    match message.strip_suffix(&all) {
        Some(front) if expected.len() > NAMED + 1 => {
            let (named, others) = expected.split_at(NAMED);
            format!("{front}`{}` or {} others", named.join(", "), others.len())
        }
        _ => message,
    }
}

impl fmt::Display for Fault {
    fn fmt(&self, f: &mut fmt::Formatter<'_>) -> fmt::Result {
        if self.has_place() {
            write!(f, "line {}, column {}: ", self.line, self.column)?;
        }
        f.write_str(&self.message)
    }
}

impl Error for Fault {}
