//! Dropping nodes.

use std::any::Any;
use std::cell::{Cell, RefCell};
use std::mem::ManuallyDrop;

/// How many nodes may be dropped inside one another.
const DEEPEST: usize = 64;

thread_local! {
    /// How many nodes are being dropped, each inside the one before.
    static OPEN: Cell<usize> = const { Cell::new(0) };

    /// The nodes inside these that are dropped after them. No destructor ends the list before the
    /// thread ends: it has no memory where no node is being dropped.
    static LATER: ManuallyDrop<RefCell<Vec<Box<dyn Any>>>> =
        const { ManuallyDrop::new(RefCell::new(Vec::new())) };
}

/// A node that is being dropped, inside others that are.
struct Opened {
    others: usize,
}

impl Opened {
    fn inside(others: usize) -> Self {
        OPEN.set(others + 1);
        Opened { others }
    }
}

impl Drop for Opened {
    fn drop(&mut self) {
        OPEN.set(self.others);
    }
}

/// Drops a node, or puts it on the list if it is too deep inside nodes that are being dropped. The
/// first of these empties the list.
pub fn drop_node<T: 'static>(node: Box<T>) {
    match OPEN.get() {
        0 => {
            drop_inside(0, node);
            while let Some(node) = next_later() {
                drop_inside(0, node);
            }
            LATER.with(|later| later.take());
        }
        DEEPEST => put_later(node),
        others => drop_inside(others, node),
    }
}

/// Drops a node inside others, while what is inside it counts as deeper.
fn drop_inside<T: ?Sized>(others: usize, node: Box<T>) {
    let _opened = Opened::inside(others);
    drop(node);
}

/// Puts a node on the list.
fn put_later(node: Box<dyn Any>) {
    LATER.with(|later| later.borrow_mut().push(node));
}

/// Takes a node from the list.
fn next_later() -> Option<Box<dyn Any>> {
    LATER.with(|later| later.borrow_mut().pop())
}
