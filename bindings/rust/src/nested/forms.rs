//! Forms that are written in parts, each with little stack.

use std::vec::IntoIter;

/// A form without what is very deep inside it.
pub struct Partial<L> {
    /// What is written.
    pub form: Vec<u8>,
    /// What is left out, in order, each with its place in what is written.
    pub later: Vec<(usize, L)>,
}

/// Returns the form with all that is left out of it, each written by itself.
pub fn joined<L>(partial: Partial<L>, write: impl Fn(L) -> Partial<L>) -> Vec<u8> {
    if partial.later.is_empty() {
        return partial.form;
    }
    let mut form = Vec::new();
    let mut open = vec![Open::from(partial)];
    while let Some(part) = open.last_mut() {
        match part.later.next() {
            Some((at, left_out)) => {
                form.extend_from_slice(&part.form[part.done..at]);
                part.done = at;
                open.push(Open::from(write(left_out)));
            }
            None => {
                form.extend_from_slice(&part.form[part.done..]);
                open.pop();
            }
        }
    }
    form
}

/// A form of which a front is in the whole form.
struct Open<L> {
    form: Vec<u8>,
    done: usize,
    later: IntoIter<(usize, L)>,
}

impl<L> From<Partial<L>> for Open<L> {
    fn from(partial: Partial<L>) -> Self {
        Open {
            form: partial.form,
            done: 0,
            later: partial.later.into_iter(),
        }
    }
}
