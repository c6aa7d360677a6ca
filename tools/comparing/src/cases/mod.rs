//! The cases, by what they are about.

pub mod gates;
#[cfg(feature = "lists")]
pub mod lists;
pub mod phases;
pub mod previews;
pub mod refusals;
pub mod strings;
pub mod tableaux;
pub mod text;
pub mod validity;
