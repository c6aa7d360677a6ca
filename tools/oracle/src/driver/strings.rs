//! Phases, letters, string records and entries.

use super::answer::{Answer, written};
use super::line::Call;
use super::records::{
    QUBITS, below, letter_byte, letter_of, phase_byte, phase_of, read_string, write_string,
};
use crate::{ParsePauliStringError, Pauli, PauliOperator, PauliString, Phase, QubitId};

fn flag(yes: bool) -> Answer {
    Answer::Value(u64::from(yes))
}

fn phase_product(call: &Call) -> Option<Answer> {
    let product = phase_of(call.n[0])?.multiply(&phase_of(call.n[1])?);
    Some(Answer::Value(phase_byte(product).into()))
}

fn phase_conjugate(call: &Call) -> Option<Answer> {
    Some(Answer::Value(
        phase_byte(phase_of(call.n[0])?.conjugate()).into(),
    ))
}

/// The Rust's table of letters is private, so two strings of one letter are multiplied.
fn letter_product(call: &Call) -> Option<Answer> {
    let left = PauliString::from_single(0, letter_of(call.n[0])?);
    let right = PauliString::from_single(0, letter_of(call.n[1])?);
    let product = left * right;
    let (phase, letter) = (phase_byte(product.phase()), letter_byte(product.get(0)));
    Some(Answer::Value((4 * phase + letter).into()))
}

fn phase(call: &Call) -> Option<Answer> {
    Some(Answer::Value(
        phase_byte(read_string(&call.b1)?.phase()).into(),
    ))
}

fn get(call: &Call) -> Option<Answer> {
    let letter = read_string(&call.b1)?.get(below(call.n[0], QUBITS)?);
    Some(Answer::Value(letter_byte(letter).into()))
}

/// The Rust says yes or no, so it is asked at each qubit by itself; of the whole strings it has to say yes where the number is even.
fn anticommuting_places(call: &Call) -> Option<Answer> {
    let (left, right) = (read_string(&call.b1)?, read_string(&call.b2)?);
    let anticommute = |qubit: &usize| {
        let alone = |string: &PauliString| PauliString::from_single(*qubit, string.get(*qubit));
        !alone(&left).commutes_with(&alone(&right))
    };
    let places = (0..QUBITS).filter(anticommute).count();
    assert_eq!(left.commutes_with(&right), places % 2 == 0);
    Some(Answer::Value(places as u64))
}

/// The Rust has no count of the places that a product takes, but it says on which qubits a string acts, and whether a string fits
/// within a width: both have to within that number, and not both within a smaller one.
fn places_taken(left: &PauliString, right: &PauliString) -> usize {
    let acted_on = left.qubits().into_iter().chain(right.qubits());
    let places = acted_on.max().map_or(0, |last| last + 1);
    let both_fit =
        |width| left.validate_width(width).is_ok() && right.validate_width(width).is_ok();
    assert!(both_fit(places) && (places == 0 || !both_fit(places - 1)));
    places
}

fn mul(call: &Call) -> Option<Answer> {
    let (left, right) = (read_string(&call.b1)?, read_string(&call.b2)?);
    let places = places_taken(&left, &right);
    Some(Answer::Written(
        places as u64,
        write_string(&(left * right))?,
    ))
}

fn read_entries(bytes: &[u8]) -> Option<Vec<(Pauli, QubitId)>> {
    let (pairs, rest) = bytes.as_chunks::<2>();
    if !rest.is_empty() {
        return None;
    }
    let entry = |pair: &[u8; 2]| {
        let qubit = below(pair[1].into(), QUBITS)?;
        Some((letter_of(pair[0].into())?, QubitId::new(qubit)))
    };
    pairs.iter().map(entry).collect()
}

fn with_phase_and_paulis(call: &Call) -> Option<Answer> {
    let (phase, entries) = (phase_of(call.n[0])?, read_entries(&call.b1)?);
    of_result(PauliString::with_phase_and_paulis(phase, entries))
}

/// A string that the Rust made, or its refusal as far as the Rust names it.
pub fn of_result(result: Result<PauliString, ParsePauliStringError>) -> Option<Answer> {
    match result {
        Ok(string) => Some(written(write_string(&string)?)),
        Err(ParsePauliStringError::DuplicateQubit { qubit }) => {
            Some(Answer::Refused(12, below(qubit as u64, QUBITS)? as u64))
        }
        Err(ParsePauliStringError::InvalidSyntax { .. }) => Some(Answer::Syntax),
    }
}

/// Outer nothing: no name of this file. Inner nothing: outside the compared domain.
pub fn answer(call: &Call) -> Option<Option<Answer>> {
    let found = match call.name.as_str() {
        "phase_product" => phase_product(call),
        "phase_conjugate" => phase_conjugate(call),
        "phase_is_real" => phase_of(call.n[0]).map(|phase| flag(phase.is_real())),
        "letter_product" => letter_product(call),
        "phase" => phase(call),
        "get" => get(call),
        "anticommuting_places" => anticommuting_places(call),
        "mul" => mul(call),
        "with_phase_and_paulis" => with_phase_and_paulis(call),
        _ => return None,
    };
    Some(found)
}
