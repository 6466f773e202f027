//! Modules read, by the names of the crate `wgsl-parse`.

pub use crate::calls::{parse as parse_str, recognize as recognize_str};
