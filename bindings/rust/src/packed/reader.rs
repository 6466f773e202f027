//! A packed form that is read from its front: numbers, texts, spans and lists.

mod attributes;
mod expressions;
mod holes;
mod statements;
mod units;

use super::rules::*;
use super::{Unpacked, DEEPEST};
use crate::span::Span;
use crate::syntax::Ident;
use holes::Hole;
pub use holes::Kind;

/// A packed form of which a front is read, and what is left out of the tree that is read.
#[derive(Debug)]
pub struct Reader<'t> {
    form: &'t [u8],
    /// What is not read yet.
    left: &'t [u8],
    /// Where that ends in the form.
    end: usize,
    /// How many expressions and statements are open.
    depth: usize,
    /// Where the nodes are that may be left out, as far as that is known.
    nodes: Vec<Span>,
    holes: Vec<Hole>,
}

impl<'t> Reader<'t> {
    /// Returns a reader of a form of which nothing is read yet.
    pub fn new(form: &'t [u8]) -> Self {
        Reader {
            form,
            left: form,
            end: form.len(),
            depth: 0,
            nodes: Vec::new(),
            holes: Vec::new(),
        }
    }

    /// Reads the tree that a whole part of the form is of.
    pub fn whole<T: Unpacked>(&mut self, part: Span) -> Option<T> {
        self.left = self.form.get(part.range())?;
        (self.end, self.depth) = (part.end, 0);
        let tree = T::unpack(self)?;
        self.left.is_empty().then_some(tree)
    }

    /// Returns where in the form the next byte is.
    fn place(&self) -> usize {
        self.end - self.left.len()
    }

    /// Takes the number of a rule.
    #[inline]
    fn rule(&mut self) -> Option<u8> {
        let (rule, left) = self.left.split_first()?;
        self.left = left;
        Some(*rule)
    }

    /// Takes the number of a rule, which has to be next.
    #[inline]
    fn expect(&mut self, rule: u8) -> Option<()> {
        (self.rule()? == rule).then_some(())
    }

    /// Takes a rule, and returns whether something is there: it is not `nothing`, and has to be
    /// another one.
    #[inline]
    fn has(&mut self, rule: u8) -> Option<bool> {
        match self.rule()? {
            NOTHING => Some(false),
            next => (next == rule).then_some(true),
        }
    }

    /// Takes a number.
    #[inline]
    fn number(&mut self) -> Option<usize> {
        let (number, left) = self.left.split_first_chunk()?;
        self.left = left;
        usize::try_from(u64::from_le_bytes(*number)).ok()
    }

    /// Takes a span.
    #[inline]
    fn span(&mut self) -> Option<Span> {
        let (start, end) = (self.number()?, self.number()?);
        Some(Span { start, end })
    }

    /// Takes the bytes of a text.
    #[inline]
    fn bytes(&mut self) -> Option<&'t [u8]> {
        let size = self.number()?;
        let (text, left) = self.left.split_at_checked(size)?;
        self.left = left;
        Some(text)
    }

    /// Takes a text.
    #[inline]
    fn text(&mut self) -> Option<&'t str> {
        std::str::from_utf8(self.bytes()?).ok()
    }

    /// Takes a name.
    #[inline]
    fn ident(&mut self) -> Option<Ident> {
        Ident::from_utf8(self.bytes()?)
    }

    /// Takes a text that is a word of an enum.
    fn word<T: std::str::FromStr>(&mut self) -> Option<T> {
        self.text()?.parse().ok()
    }

    /// Reads items, each after the number of a rule: one for the last, one for those before it,
    /// and one for no items.
    #[inline]
    fn list<T>(
        &mut self,
        (none, before, last): (u8, u8, u8),
        item: impl Fn(&mut Self) -> Option<T>,
    ) -> Option<Vec<T>> {
        let mut rule = self.rule()?;
        if rule == none {
            return Some(Vec::new());
        }
        if rule == last {
            return Some(vec![item(self)?]);
        }
        // most lists that have several items have few
        let mut items = Vec::with_capacity(3);
        while rule == before {
            items.push(item(self)?);
            rule = self.rule()?;
        }
        if rule != last {
            return None;
        }
        items.push(item(self)?);
        Some(items)
    }
}
