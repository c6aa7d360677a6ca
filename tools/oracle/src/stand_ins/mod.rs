//! What the five files use but do not hold.

pub mod left_out;
pub mod used;
