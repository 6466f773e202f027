//! What is wrong with a text, by the names of the crate `wgsl-parse`.

pub use crate::fault::{Fault as Error, FaultKind as ErrorKind};

use crate::lines::{LineIndex, Position};
use crate::span::Span;
use std::borrow::Cow;
use std::fmt;

/// An error and the text that it is about. It is written with the line in which the error starts,
/// and marks below it.
///
/// ```
/// use centrelilac::error::ErrorWithSource;
///
/// let text = "const a = 1;\nconst = 2;";
/// let error = centrelilac::parse(text).unwrap_err();
/// let wanted = "\
/// error: unexpected token `=`, expected `identifier`
///  --> line 2, column 7
/// const = 2;
///       ^";
/// assert_eq!(ErrorWithSource::new(error, text.into()).to_string(), wanted);
/// ```
#[derive(Clone, Debug, PartialEq, Eq)]
pub struct ErrorWithSource<'s> {
    /// The error.
    pub error: Error,
    /// The text.
    pub source: Cow<'s, str>,
}

impl<'s> ErrorWithSource<'s> {
    /// Returns an error with the text that it is about.
    ///
    /// ```
    /// use centrelilac::error::ErrorWithSource;
    ///
    /// let error = centrelilac::check("1").unwrap_err();
    /// assert_eq!(ErrorWithSource::new(error, "1".into()).source, "1");
    /// ```
    #[must_use]
    pub fn new(error: Error, source: Cow<'s, str>) -> Self {
        ErrorWithSource { error, source }
    }
}

impl fmt::Display for ErrorWithSource<'_> {
    fn fmt(&self, f: &mut fmt::Formatter<'_>) -> fmt::Result {
        let message = &self.error.message;
        write!(f, "error: {message}")?;
        if !self.error.has_place() {
            return Ok(());
        }
        let lines = MarkedLine::new(&self.source, self.error.span);
        let Position { line, column, .. } = lines.place;
        write!(f, "\n --> line {line}, column {column}\n{lines}")
    }
}

impl std::error::Error for ErrorWithSource<'_> {}

/// An error in a file with a name, and the text of the file. It is written as compilers do:
/// `NAME:LINE:COLUMN: error: MESSAGE`, the line in which the error starts, and marks below it. The
/// message is without what was expected.
///
/// ```
/// let text = "const a = 1;\nconst class = 2;";
/// let error = centrelilac::parse(text).unwrap_err();
/// let wanted = "\
/// waves.wgsl:2:7: error: use of a reserved word `class`
/// const class = 2;
///       ^^^^^";
/// assert_eq!(error.in_file("waves.wgsl", text).to_string(), wanted);
/// ```
#[derive(Clone, Copy, Debug, PartialEq, Eq)]
pub struct ErrorInFile<'e> {
    /// The error.
    pub error: &'e Error,
    /// The name of the file.
    pub name: &'e str,
    /// The text of the file.
    pub source: &'e str,
}

impl fmt::Display for ErrorInFile<'_> {
    fn fmt(&self, f: &mut fmt::Formatter<'_>) -> fmt::Result {
        let (name, message) = (self.name, self.error.message_alone());
        if !self.error.has_place() {
            return write!(f, "{name}: error: {message}");
        }
        let lines = MarkedLine::new(self.source, self.error.span);
        let Position { line, column, .. } = lines.place;
        write!(f, "{name}:{line}:{column}: error: {message}\n{lines}")
    }
}

impl std::error::Error for ErrorInFile<'_> {}

/// The line of a text in which a span starts. It is written with marks below the part of the span
/// that is in this line, at least one.
struct MarkedLine<'s> {
    text: &'s str,
    /// Where the span starts.
    place: Position,
    /// How many characters of the span are in the line.
    marked: usize,
}

impl<'s> MarkedLine<'s> {
    fn new(source: &'s str, span: Span) -> Self {
        let lines = LineIndex::new(source);
        let place = lines.position(span.start);
        let line = lines.line(place.line).unwrap_or_default();
        let text = &source[line.range()];
        let marked = text.char_indices().filter(|(at, c)| {
            let end = line.start + at + c.len_utf8();
            span.start < end && end <= span.end
        });
        MarkedLine {
            text,
            place,
            marked: marked.count(),
        }
    }
}

impl fmt::Display for MarkedLine<'_> {
    fn fmt(&self, f: &mut fmt::Formatter<'_>) -> fmt::Result {
        let spaces = " ".repeat(self.place.column - 1);
        let marks = "^".repeat(self.marked.max(1));
        write!(f, "{}\n{spaces}{marks}", self.text)
    }
}

#[cfg(test)]
#[path = "../tests/text/mod.rs"]
mod text;

#[cfg(test)]
mod tests {
    use super::*;
    use crate::calls::{check, REFUSED};
    use crate::ffi::snippet_call;

    const ROWS: &str = include_str!("../../../crates/wgsl_test_texts/cases/snippets.txt");

    /// The texts of a row, in the lines from one that begins with a word up to another word.
    fn texts(row: &str, word: &str) -> Vec<String> {
        let from_word = row.lines().skip_while(|line| !line.starts_with(word));
        let texts = from_word
            .enumerate()
            .take_while(|(index, line)| *index == 0 || line.starts_with(' '));
        let texts = texts.map(|(_, line)| &line[line.find('"').expect("a text")..]);
        texts
            .map(|line| String::from_utf8(text::texts_of(line)).expect("a text"))
            .collect()
    }

    /// The rows of snippets, in which each message is that of an invalid token.
    #[test]
    fn snippets_are_those_of_the_library() {
        let mut count = 0;
        for row in ROWS
            .split("\n\n")
            .filter(|row| row.contains("\nprinted \""))
        {
            let first = row.lines().find_map(|line| line.strip_prefix("snippet "));
            let (span, _) = first.expect("a row").split_once(' ').expect("a span");
            let (start, end) = span.split_once("..").expect("a span");
            let span = Span::new(start.parse().expect("a number")..end.parse().expect("a number"));
            let source = texts(row, "snippet").join("\n");
            let error = Error {
                span,
                ..check("#").unwrap_err()
            };
            let written = error.with_source(source.into()).to_string();
            assert_eq!(written, texts(row, "printed").join("\n"), "{row}");
            count += 1;
        }
        assert!(count >= 10, "only {count} rows were read");
    }

    /// Returns the lines that the library writes of a text, in a file with a name if that is not
    /// empty.
    fn lines_of(name: &str, text: &str) -> String {
        let mut buffer = vec![0; 1024];
        let said = snippet_call(name, text, &mut buffer);
        assert_eq!(said.status, REFUSED, "{text}");
        buffer.truncate(said.answer.size);
        assert_eq!(buffer.pop(), Some(0), "{text}");
        String::from_utf8(buffer).expect("a text")
    }

    #[test]
    fn errors_are_written_as_by_the_library() {
        for text in [
            "const a = 1;\nconst = 2;\n",
            "alias A",
            "const class = 1;",
            "/* é */ #",
            "fn f() {\n    é é;\n}",
            "@align fn f() {}",
            "var<a> b: i32;",
            "diagnostic(a, b);",
        ] {
            let error = check(text).unwrap_err();
            let in_file = error.in_file("é.wgsl", text).to_string();
            assert_eq!(in_file, lines_of("é.wgsl", text));
            if !error.message.ends_with(" others") {
                let with_source = error.with_source(text.into()).to_string();
                assert_eq!(with_source, lines_of("", text));
            }
        }
    }
}
