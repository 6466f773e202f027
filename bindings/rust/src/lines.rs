//! Lines and columns of places in a text.

use crate::span::Span;
use std::fmt;

/// A place in a text as people count. It is written `LINE:COLUMN`.
#[derive(Clone, Copy, Debug, PartialEq, Eq, PartialOrd, Ord, Hash)]
pub struct Position {
    /// The line, from 1.
    pub line: usize,
    /// The character of the line, from 1.
    pub column: usize,
    /// The byte of the line, from 1: the column where all characters before are ASCII.
    pub byte_column: usize,
}

impl fmt::Display for Position {
    fn fmt(&self, f: &mut fmt::Formatter<'_>) -> fmt::Result {
        write!(f, "{}:{}", self.line, self.column)
    }
}

/// An index of where the lines of a text start, from which the line and the column of any place
/// follow.
///
/// Making it reads the text once; after that a place takes a binary search, however long the text
/// or its lines are. A line ends with a line feed.
///
/// ```
/// use centrelilac::syntax::Span;
/// use centrelilac::LineIndex;
///
/// let text = "const a = 1; /* é */ const b = 2;\nconst c = 3;";
/// let unit = centrelilac::parse(text)?;
/// let lines = LineIndex::new(text);
/// let places = unit.global_declarations.iter().map(|node| lines.position(node.span.start));
/// let places: Vec<_> = places.map(|place| place.to_string()).collect();
/// assert_eq!(places, ["1:1", "1:22", "2:1"]);
/// # Ok::<(), centrelilac::Fault>(())
/// ```
#[derive(Clone, Debug)]
pub struct LineIndex {
    /// Where each line starts, in bytes.
    starts: Vec<usize>,
    /// For each character of several bytes, where it ends, and by how much the bytes up to there
    /// are more than the characters.
    wide: Vec<(usize, usize)>,
    /// Where the text ends.
    end: usize,
}

impl LineIndex {
    /// Finds the lines of a text.
    ///
    /// ```
    /// use centrelilac::LineIndex;
    ///
    /// assert_eq!(LineIndex::new("a\nb").count(), 2);
    /// ```
    #[must_use]
    pub fn new(text: &str) -> Self {
        let ends = text.bytes().enumerate().filter(|(_, byte)| *byte == b'\n');
        let starts = std::iter::once(0).chain(ends.map(|(at, _)| at + 1));
        let mut more = 0;
        let wide = text.char_indices().filter(|(_, c)| !c.is_ascii());
        let wide = wide.map(|(at, c)| {
            more += c.len_utf8() - 1;
            (at + c.len_utf8(), more)
        });
        LineIndex {
            starts: starts.collect(),
            wide: wide.collect(),
            end: text.len(),
        }
    }

    /// Returns how many lines there are, at least one.
    ///
    /// ```
    /// use centrelilac::LineIndex;
    ///
    /// assert_eq!(LineIndex::new("").count(), 1);
    /// assert_eq!(LineIndex::new("a\n").count(), 2);
    /// ```
    #[must_use]
    pub fn count(&self) -> usize {
        self.starts.len()
    }

    /// Returns the line and the columns of a place, which is given in bytes, as spans are. A place
    /// in the middle of a character is that of the character, and one after the text is its end.
    ///
    /// ```
    /// use centrelilac::{LineIndex, Position};
    ///
    /// let lines = LineIndex::new("a\né = b");
    /// let place = lines.position(7);
    /// assert_eq!(place, Position { line: 2, column: 5, byte_column: 6 });
    /// assert_eq!(place.to_string(), "2:5");
    /// assert_eq!(lines.position(100), lines.position(8));
    /// ```
    #[must_use]
    pub fn position(&self, at: usize) -> Position {
        let at = self.character(at.min(self.end));
        let line = self.starts.partition_point(|start| *start <= at);
        let start = self.starts[line - 1];
        Position {
            line,
            column: 1 + (at - self.more(at)) - (start - self.more(start)),
            byte_column: 1 + at - start,
        }
    }

    /// Returns where a line is, without the line feed at its end; there are none before 1 and after
    /// [`count`](Self::count).
    ///
    /// ```
    /// use centrelilac::LineIndex;
    ///
    /// let text = "const a = 1;\nconst b = 2;\n";
    /// let lines = LineIndex::new(text);
    /// assert_eq!(&text[lines.line(2).unwrap().range()], "const b = 2;");
    /// assert_eq!(lines.line(4), None);
    /// ```
    #[must_use]
    pub fn line(&self, line: usize) -> Option<Span> {
        let start = *self.starts.get(line.checked_sub(1)?)?;
        let end = match self.starts.get(line) {
            Some(next) => next - 1,
            None => self.end,
        };
        Some(Span { start, end })
    }

    /// Where the character starts that a place is in.
    fn character(&self, at: usize) -> usize {
        let next = self.wide.partition_point(|(end, _)| *end <= at);
        match self.wide.get(next) {
            Some((end, more)) => at.min(end - 1 - (more - self.more(at))),
            None => at,
        }
    }

    /// By how much the bytes before a place are more than the characters.
    fn more(&self, at: usize) -> usize {
        match self.wide.partition_point(|(end, _)| *end <= at) {
            0 => 0,
            count => self.wide[count - 1].1,
        }
    }
}

#[cfg(test)]
mod tests {
    use super::*;

    /// Places are those of a count from the start.
    #[test]
    fn places_are_counted() {
        let text = "aé\n\n€b\r\nc𝄞d\n";
        let lines = LineIndex::new(text);
        let ends = text.char_indices().map(|(at, _)| at);
        for at in ends.chain([text.len()]) {
            let before = &text[..at];
            let front = before.rsplit('\n').next().unwrap();
            let counted = Position {
                line: 1 + before.matches('\n').count(),
                column: 1 + front.chars().count(),
                byte_column: 1 + front.len(),
            };
            assert_eq!(lines.position(at), counted, "{at}");
        }
        for (at, c) in text.char_indices() {
            for inside in at..at + c.len_utf8() {
                assert_eq!(lines.position(inside), lines.position(at), "{inside}");
            }
        }
    }

    #[test]
    fn lines_are_those_of_split() {
        for text in ["", "a", "\n", "a\nbc\n\nd\r\n"] {
            let lines = LineIndex::new(text);
            let found = (1..=lines.count()).map(|line| &text[lines.line(line).unwrap().range()]);
            assert!(found.eq(text.split('\n')), "{text:?}");
            assert_eq!((lines.line(0), lines.line(lines.count() + 1)), (None, None));
        }
    }
}
