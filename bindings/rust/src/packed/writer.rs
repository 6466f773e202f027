//! A packed form that is written from its front: numbers, texts, spans and lists.

mod attributes;
mod expressions;
mod statements;
mod units;

use super::rules::*;
use super::DEEPEST;
use crate::nested::{joined, Partial};
use crate::span::Span;
use crate::syntax::Ident;
use expressions::Link;

/// A node that has a packed form.
pub trait Packed {
    /// Whether a `;` ends its print, of which [`Packed::pack`] writes nothing.
    const IS_ENDED: bool = false;

    /// Writes it at the end of a form.
    fn pack<'t>(&'t self, out: &mut Writer<'t>);

    /// Writes it, with the `;` that ends it if one does.
    fn pack_ended<'t>(&'t self, out: &mut Writer<'t>) {
        if Self::IS_ENDED {
            out.rule(ENDED);
        }
        self.pack(out);
    }
}

/// Writes a part of a form.
type Write<'t> = Box<dyn FnOnce(&mut Writer<'t>) + 't>;

/// A packed form that is being written, with the same stack however deep its tree is.
#[derive(Default)]
pub struct Writer<'t> {
    /// What is written.
    form: Vec<u8>,
    /// Whether each span is written as in the tree, and not as 0 to 0.
    has_spans: bool,
    /// How many expressions and statements are open.
    depth: usize,
    /// What follows what is leftmost in the expressions that are open, the next of it last.
    links: Vec<Link<'t>>,
    /// What is left out, and where.
    later: Vec<(usize, Write<'t>)>,
}

impl<'t> Writer<'t> {
    /// Returns an empty form, with the spans of the tree or with 0 to 0 for each.
    pub fn new(has_spans: bool) -> Self {
        Writer {
            form: Vec::with_capacity(256),
            has_spans,
            ..Writer::default()
        }
    }

    /// Returns the form with all that is left out.
    pub fn finish(self) -> Vec<u8> {
        let has_spans = self.has_spans;
        joined(self.partial(), |write| {
            let mut writer = Writer::new(has_spans);
            write(&mut writer);
            writer.partial()
        })
    }

    /// Returns what is written and what is left out.
    fn partial(self) -> Partial<Write<'t>> {
        Partial {
            form: self.form,
            later: self.later,
        }
    }

    /// Writes the number of a rule.
    #[inline]
    fn rule(&mut self, rule: u8) {
        self.form.push(rule);
    }

    /// Writes a number.
    #[inline]
    fn number(&mut self, number: usize) {
        self.form.extend_from_slice(&(number as u64).to_le_bytes());
    }

    /// Writes a span.
    #[inline]
    fn span(&mut self, span: Span) {
        let mut bytes = [0; 16];
        if self.has_spans {
            bytes[..8].copy_from_slice(&(span.start as u64).to_le_bytes());
            bytes[8..].copy_from_slice(&(span.end as u64).to_le_bytes());
        }
        self.form.extend_from_slice(&bytes);
    }

    /// Writes a text.
    #[inline]
    fn text(&mut self, text: &str) {
        self.bytes(text.as_bytes());
    }

    /// Writes a name.
    #[inline]
    fn ident(&mut self, ident: &Ident) {
        self.bytes(ident.bytes());
    }

    /// Writes the bytes of a text.
    #[inline]
    fn bytes(&mut self, text: &[u8]) {
        self.number(text.len());
        self.form.extend_from_slice(text);
    }

    /// Writes an expression or a statement, or leaves it out if too many are open.
    #[inline]
    fn inside(&mut self, write: impl FnOnce(&mut Self) + 't) {
        if self.depth == DEEPEST {
            self.later.push((self.form.len(), Box::new(write)));
            return;
        }
        self.depth += 1;
        write(self);
        self.depth -= 1;
    }

    /// Writes items, each after the number of a rule: one for the last, one for those before it,
    /// and one for no items.
    #[inline]
    fn list<T>(
        &mut self,
        (none, before, last): (u8, u8, u8),
        items: &'t [T],
        item: impl Fn(&mut Self, &'t T),
    ) {
        let Some((last_item, items)) = items.split_last() else {
            return self.rule(none);
        };
        for it in items {
            self.rule(before);
            item(self, it);
        }
        self.rule(last);
        item(self, last_item);
    }

    /// Writes what may be left out, after the number of a rule.
    #[inline]
    fn optional<T>(&mut self, rule: u8, part: &'t Option<T>, write: impl Fn(&mut Self, &'t T)) {
        match part {
            None => self.rule(NOTHING),
            Some(part) => {
                self.rule(rule);
                write(self, part);
            }
        }
    }
}
