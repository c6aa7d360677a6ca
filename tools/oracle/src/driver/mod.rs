//! Answers calls, written as lines, by running PECOS's files.

pub mod answer;
pub mod check;
pub mod gates;
pub mod line;
pub mod list;
pub mod records;
pub mod refusals;
pub mod strings;
pub mod tableaux;
pub mod text;

pub use answer::{Answer, answer, answer_line};
pub use line::Call;
