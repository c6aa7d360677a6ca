//! Sparse and dense text.

use super::answer::{Answer, counted};
use super::line::Call;
use super::records::{QUBITS, read_string};
use super::strings::of_result;
use crate::{ParsePauliStringError, PauliString};

/// Whether every run of digits is a number below 128. In a sparse text that the Rust reads
/// to its end, the runs of digits are the indices.
fn indices_below_limit(text: &str) -> bool {
    let runs = text
        .split(|c: char| !c.is_ascii_digit())
        .filter(|run| !run.is_empty());
    runs.map(|run| run.trim_start_matches('0'))
        .all(|run| run.is_empty() || (run.len() <= 3 && run.parse::<usize>().unwrap() < QUBITS))
}

/// Whether no letter of a dense text can lie at 128 or above. A prefix has at most two bytes,
/// so this is too strict for texts of 129 or 130 bytes; it is asked of refused texts alone.
fn dense_below_limit(text: &str) -> bool {
    text.trim().len() <= QUBITS
}

fn sparse(text: &str) -> Option<Answer> {
    sparse_result(text, PauliString::from_sparse_str(text))
}

fn sparse_result(text: &str, result: Result<PauliString, ParsePauliStringError>) -> Option<Answer> {
    if indices_below_limit(text) {
        of_result(result)
    } else {
        None
    }
}

fn dense_result(text: &str, result: Result<PauliString, ParsePauliStringError>) -> Option<Answer> {
    if result.is_ok() || dense_below_limit(text) {
        of_result(result)
    } else {
        None
    }
}

fn dense(text: &str) -> Option<Answer> {
    dense_result(text, PauliString::from_dense_str(text))
}

/// The Rust picks; a digit tells here only which limit is asked after.
fn either(text: &str) -> Option<Answer> {
    let result = text.parse::<PauliString>();
    if text.bytes().any(|c| c.is_ascii_digit()) {
        sparse_result(text, result)
    } else {
        dense_result(text, result)
    }
}

fn with_text(call: &Call, read: fn(&str) -> Option<Answer>) -> Option<Answer> {
    if !call.b1.is_ascii() {
        return None;
    }
    read(std::str::from_utf8(&call.b1).unwrap())
}

/// Outer nothing: no name of this file. Inner nothing: outside the compared domain.
pub fn answer(call: &Call) -> Option<Option<Answer>> {
    let found = match call.name.as_str() {
        "from_sparse_str" => with_text(call, sparse),
        "from_dense_str" => with_text(call, dense),
        "from_str" => with_text(call, either),
        "to_sparse_str" => {
            read_string(&call.b1).map(|string| counted(string.to_sparse_str().into_bytes()))
        }
        _ => return None,
    };
    Some(found)
}
