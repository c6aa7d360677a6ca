//! The lines of refusals 14 and 15, whose wording the Rust has.

use super::answer::{Answer, counted};
use super::line::Call;
use crate::PauliWidthError;

/// Outer nothing: no name of this file. Inner nothing: the Rust has no such text.
pub fn answer(call: &Call) -> Option<Option<Answer>> {
    if call.name != "refusal_line" {
        return None;
    }
    let [number, detail, width] = call.n;
    let line = || {
        let error = PauliWidthError {
            qubit: detail as usize,
            num_qubits: width as usize,
        };
        counted(format!("{number}: {error}").into_bytes())
    };
    Some(matches!(number, 14 | 15).then(line))
}
