//! Where a node is in its text.

use crate::form::Form;
use crate::nested::{copy, drop_node, feed, same, Nested};
use std::fmt;
use std::hash::{Hash, Hasher};
use std::ops::{Deref, DerefMut, Range};

/// A part of a text in bytes, from the start up to the end. It is written `START..END`.
#[derive(Clone, Copy, Debug, Default, PartialEq, Eq, Hash)]
pub struct Span {
    /// Where it starts.
    pub start: usize,
    /// Where it ends.
    pub end: usize,
}

impl Span {
    /// Returns the span with the start and the end of a range.
    ///
    /// ```
    /// use centrelilac::span::Span;
    ///
    /// assert_eq!(Span::new(2..5).to_string(), "2..5");
    /// assert_eq!(Span::from(2..5), Span { start: 2, end: 5 });
    /// ```
    #[must_use]
    pub fn new(range: Range<usize>) -> Self {
        Span {
            start: range.start,
            end: range.end,
        }
    }

    /// Returns the same as a range, by which a text gives its part.
    ///
    /// ```
    /// let text = "a + b";
    /// let last = centrelilac::tokens(text)?[2].span;
    /// assert_eq!(&text[last.range()], "b");
    /// # Ok::<(), centrelilac::Fault>(())
    /// ```
    #[must_use]
    pub fn range(self) -> Range<usize> {
        self.start..self.end
    }

    /// Returns the span from the start of this one to the end of another.
    ///
    /// ```
    /// use centrelilac::span::Span;
    ///
    /// assert_eq!(Span::new(2..3).extend(Span::new(6..8)), Span::new(2..8));
    /// ```
    #[must_use]
    pub fn extend(&self, other: Span) -> Self {
        Span::new(self.start..other.end)
    }
}

impl From<Range<usize>> for Span {
    fn from(range: Range<usize>) -> Self {
        Span::new(range)
    }
}

impl fmt::Display for Span {
    fn fmt(&self, f: &mut fmt::Formatter<'_>) -> fmt::Result {
        write!(f, "{}..{}", self.start, self.end)
    }
}

/// A node with its span, from its first to its last token. It dereferences to the node.
///
/// `==` and the hash are those of the node: spans do not matter ([`equal_with_spans`] compares
/// them too). Dropping, copying, comparing and hashing take no more stack for a deeper tree.
///
/// ```
/// use centrelilac::syntax::{BinaryExpression, Expression};
///
/// let sum: Expression = "a + b".parse()?;
/// let BinaryExpression { left, .. } = sum.unwrap_binary();
/// assert_eq!(left.span().range(), 0..1);
/// assert_eq!(*left, "a".parse::<Expression>()?);
/// # Ok::<(), centrelilac::Fault>(())
/// ```
pub struct Spanned<T: 'static> {
    /// Where the node is.
    pub span: Span,
    /// The node; there is none only before it is read, and after it is taken out.
    node: Option<Box<T>>,
}

impl<T> Spanned<T> {
    /// Returns a node with a span.
    ///
    /// ```
    /// use centrelilac::span::{Span, Spanned};
    /// use centrelilac::syntax::Statement;
    ///
    /// let node = Spanned::new(Statement::Void, Span::new(3..4));
    /// assert_eq!(node.span(), Span::new(3..4));
    /// ```
    #[must_use]
    pub fn new(node: T, span: Span) -> Self {
        Spanned::new_boxed(Box::new(node), span)
    }

    /// Returns a node in a box with a span.
    ///
    /// ```
    /// use centrelilac::span::{Span, Spanned};
    /// use centrelilac::syntax::Statement;
    ///
    /// let node = Spanned::new_boxed(Box::new(Statement::Void), Span::new(3..4));
    /// assert_eq!(node.node(), &Statement::Void);
    /// ```
    #[must_use]
    pub fn new_boxed(node: Box<T>, span: Span) -> Self {
        Spanned {
            span,
            node: Some(node),
        }
    }

    /// Returns where the node is.
    ///
    /// ```
    /// let unit = centrelilac::parse("alias A = B;")?;
    /// assert_eq!(unit.global_declarations[0].span().range(), 0..12);
    /// # Ok::<(), centrelilac::Fault>(())
    /// ```
    #[must_use]
    pub fn span(&self) -> Span {
        self.span
    }

    /// Returns the node.
    ///
    /// ```
    /// let unit = centrelilac::parse("alias A = B;")?;
    /// assert!(unit.global_declarations[0].node().is_type_alias());
    /// # Ok::<(), centrelilac::Fault>(())
    /// ```
    #[must_use]
    pub fn node(&self) -> &T {
        self.node.as_deref().expect("a node")
    }

    /// Returns the node, which may be changed.
    ///
    /// ```
    /// use centrelilac::syntax::GlobalDeclaration;
    ///
    /// let mut unit = centrelilac::parse("alias A = B;")?;
    /// *unit.global_declarations[0].node_mut() = GlobalDeclaration::Void;
    /// assert!(unit.global_declarations[0].is_void());
    /// # Ok::<(), centrelilac::Fault>(())
    /// ```
    #[must_use]
    pub fn node_mut(&mut self) -> &mut T {
        let node = self.node.as_deref_mut();
        node.expect("a node")
    }

    /// Returns the node without its span.
    ///
    /// ```
    /// use centrelilac::span::Spanned;
    /// use centrelilac::syntax::Statement;
    ///
    /// assert_eq!(Spanned::from(Statement::Void).into_inner(), Statement::Void);
    /// ```
    #[must_use]
    pub fn into_inner(mut self) -> T {
        *self.node.take().expect("a node")
    }
}

impl<T> Spanned<T> {
    /// The place of a node that is read later, by its number.
    pub(crate) fn hole(number: usize) -> Self {
        Spanned {
            span: Span::new(number..number),
            node: None,
        }
    }

    /// The number of the node that is read later, if this is its place.
    pub(crate) fn hole_number(&self) -> Option<usize> {
        self.node.is_none().then_some(self.span.start)
    }
}

impl<T> Drop for Spanned<T> {
    fn drop(&mut self) {
        if let Some(node) = self.node.take() {
            drop_node(node);
        }
    }
}

impl<T> Deref for Spanned<T> {
    type Target = T;

    fn deref(&self) -> &T {
        self.node()
    }
}

impl<T> DerefMut for Spanned<T> {
    fn deref_mut(&mut self) -> &mut T {
        self.node_mut()
    }
}

impl<T> AsRef<T> for Spanned<T> {
    fn as_ref(&self) -> &T {
        self.node()
    }
}

impl<T> AsMut<T> for Spanned<T> {
    fn as_mut(&mut self) -> &mut T {
        self.node_mut()
    }
}

impl<T> From<T> for Spanned<T> {
    fn from(node: T) -> Self {
        Spanned::new(node, Span::default())
    }
}

impl<T: Default> Default for Spanned<T> {
    fn default() -> Self {
        T::default().into()
    }
}

impl<T: fmt::Display> fmt::Display for Spanned<T> {
    /// Prints the node.
    fn fmt(&self, f: &mut fmt::Formatter<'_>) -> fmt::Result {
        self.node().fmt(f)
    }
}

impl<T: fmt::Debug> fmt::Debug for Spanned<T> {
    fn fmt(&self, f: &mut fmt::Formatter<'_>) -> fmt::Result {
        let mut shown = f.debug_struct("Spanned");
        shown.field("span", &self.span).field("node", self.node());
        shown.finish()
    }
}

impl<T: Nested> Clone for Spanned<T> {
    fn clone(&self) -> Self {
        Spanned::new(copy(self.node()), self.span)
    }
}

impl<T: Nested> PartialEq for Spanned<T> {
    fn eq(&self, other: &Self) -> bool {
        same(self, other, false)
    }
}

impl<T: Nested> Eq for Spanned<T> {}

impl<T: Nested> Hash for Spanned<T> {
    fn hash<H: Hasher>(&self, state: &mut H) {
        feed(self, state);
    }
}

/// Returns whether two trees are equal and have equal spans.
///
/// ```
/// use centrelilac::span::equal_with_spans;
/// use centrelilac::syntax::Expression;
///
/// let (near, far) = ("a+b".parse::<Expression>()?, "a + b".parse()?);
/// assert_eq!(near, far);
/// assert!(!equal_with_spans(&near, &far));
/// assert!(equal_with_spans(&near, &near.clone()));
/// # Ok::<(), centrelilac::Fault>(())
/// ```
#[must_use]
pub fn equal_with_spans<T: Form>(first: &T, second: &T) -> bool {
    same(first, second, true)
}
