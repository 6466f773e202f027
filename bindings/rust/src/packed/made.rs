//! Trees made at random, with each kind of node and of what its fields hold.

use crate::nested::Nested;
use crate::span::{Span, Spanned};
use crate::syntax::{Expression, Ident, Statement};

/// The numbers by which a tree is made.
pub struct Random {
    state: u64,
    /// How many nodes with a span may still be made inside one another.
    levels: usize,
}

impl Random {
    /// Returns the numbers with a seed, for a tree of so many levels.
    pub fn new(seed: u64, levels: usize) -> Self {
        let state = seed.wrapping_mul(0x9e37_79b9_7f4a_7c15) | 1;
        Random { state, levels }
    }

    /// Returns a number below another.
    pub fn below(&mut self, count: usize) -> usize {
        self.state ^= self.state << 13;
        self.state ^= self.state >> 7;
        self.state ^= self.state << 17;
        (self.state >> 33) as usize % count
    }
}

/// What is made at random.
pub trait Made: Sized {
    /// Makes one.
    fn made(from: &mut Random) -> Self;
}

/// The texts of names and spellings, of which some are in no module.
const TEXTS: [&str; 12] = [
    "a",
    "b",
    "ab",
    "vec3",
    "position_of_light",
    "1.5",
    "0x1p4",
    "é",
    "",
    "a\nb",
    "\"{\\}",
    "$#%^~",
];

impl Made for String {
    fn made(from: &mut Random) -> Self {
        TEXTS[from.below(TEXTS.len())].to_owned()
    }
}

impl Made for Ident {
    fn made(from: &mut Random) -> Self {
        Ident::new(Made::made(from))
    }
}

impl Made for bool {
    fn made(from: &mut Random) -> Self {
        from.below(2) == 0
    }
}

/// Whole numbers of each length.
macro_rules! numbers {
    ($($number:ty)*) => {$(
        impl Made for $number {
            fn made(from: &mut Random) -> Self {
                let bits = (from.below(1 << 31) as u64) << 33 | from.below(1 << 31) as u64;
                let number = (bits as $number) >> from.below(<$number>::BITS as usize);
                [number, 0, 10, <$number>::MIN, <$number>::MAX][from.below(9).saturating_sub(4)]
            }
        }
    )*};
}

numbers!(i32 u32 i64);

impl<T: Made> Made for Option<T> {
    fn made(from: &mut Random) -> Self {
        bool::made(from).then(|| T::made(from))
    }
}

impl<T: Made> Made for Vec<T> {
    fn made(from: &mut Random) -> Self {
        let count = [0, 0, 0, 1, 1, 2, 3][from.below(7)];
        (0..count).map(|_| T::made(from)).collect()
    }
}

impl<A: Made, B: Made> Made for (A, B) {
    fn made(from: &mut Random) -> Self {
        (A::made(from), B::made(from))
    }
}

impl Made for Span {
    fn made(from: &mut Random) -> Self {
        let start = from.below(1 << 31);
        Span::new(start..start + from.below(1 << 31))
    }
}

/// A node that has a short one of its kind, if it nests.
pub trait Short: Sized {
    /// Returns the short one.
    fn short() -> Option<Self> {
        None
    }
}

impl Short for Expression {
    fn short() -> Option<Self> {
        Some(Ident::from("a").into())
    }
}

impl Short for Statement {
    fn short() -> Option<Self> {
        Some(Statement::Void)
    }
}

impl Short for crate::syntax::Attribute {}
impl Short for crate::syntax::GlobalDeclaration {}
impl Short for crate::syntax::StructMember {}

impl<T: Nested + Made + Short> Made for Spanned<T> {
    fn made(from: &mut Random) -> Self {
        let span = Span::made(from);
        if let Some(short) = T::short().filter(|_| from.levels == 0) {
            return Spanned::new(short, span);
        }
        from.levels = from.levels.saturating_sub(1);
        let node = T::made(from);
        from.levels += 1;
        Spanned::new(node, span)
    }
}
