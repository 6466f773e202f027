//! That one text has a node of each kind.

use super::node_enums::VARIANTS;
use super::TranslationUnit;
use crate::visit::{Accept, Visit};
use std::cell::RefCell;
use std::collections::BTreeSet;

thread_local! {
    /// The variants that were visited, each after its enum.
    static VISITED: RefCell<BTreeSet<(&'static str, &'static str)>> = RefCell::default();
}

/// Notes that a variant was visited.
pub fn note(kind: &'static str, variant: &'static str) {
    VISITED.with_borrow_mut(|visited| visited.insert((kind, variant)));
}

/// A text with each kind of node.
const EVERY_KIND: &str = include_str!("../../tests/every_kind.wgsl");

/// Visits each node, and does nothing.
struct Nothing;

impl Visit<'_> for Nothing {}

#[test]
fn one_text_has_every_variant() {
    let unit: TranslationUnit = EVERY_KIND.parse().expect("a module");
    unit.accept(&mut Nothing);
    let all = VARIANTS.iter().copied().collect();
    VISITED.with_borrow(|visited| assert_eq!(*visited, all));
}
