//! Byte records to PECOS's values and back. Letters and phases go by their names.

use crate::clifford_rep::CliffordRep;
use crate::{Pauli, PauliString, QuarterPhase, QubitId};

pub const QUBITS: usize = 128;
pub const STRING_LENGTH: usize = 1 + QUBITS;

/// A number that fits the machine's own and is below the limit.
pub fn below(number: u64, limit: usize) -> Option<usize> {
    let number = usize::try_from(number).ok()?;
    (number < limit).then_some(number)
}

pub fn phase_of(byte: u64) -> Option<QuarterPhase> {
    match byte {
        0 => Some(QuarterPhase::PlusOne),
        1 => Some(QuarterPhase::MinusOne),
        2 => Some(QuarterPhase::PlusI),
        3 => Some(QuarterPhase::MinusI),
        _ => None,
    }
}

pub fn phase_byte(phase: QuarterPhase) -> u8 {
    match phase {
        QuarterPhase::PlusOne => 0,
        QuarterPhase::MinusOne => 1,
        QuarterPhase::PlusI => 2,
        QuarterPhase::MinusI => 3,
    }
}

pub fn letter_of(byte: u64) -> Option<Pauli> {
    match byte {
        0 => Some(Pauli::I),
        1 => Some(Pauli::X),
        2 => Some(Pauli::Z),
        3 => Some(Pauli::Y),
        _ => None,
    }
}

pub fn letter_byte(letter: Pauli) -> u8 {
    match letter {
        Pauli::I => 0,
        Pauli::X => 1,
        Pauli::Z => 2,
        Pauli::Y => 3,
    }
}

/// A phase and letters of rising qubits: a string record, or a tableau's row without its weight.
pub fn read_row(bytes: &[u8]) -> Option<PauliString> {
    let (phase, letters) = bytes.split_first()?;
    let phase = phase_of(u64::from(*phase))?;
    let letters: Option<Vec<Pauli>> = letters
        .iter()
        .map(|byte| letter_of(u64::from(*byte)))
        .collect();
    Some(PauliString::from_paulis_with_phase(phase, &letters?))
}

/// Nothing where a letter lies outside the row.
pub fn write_row(string: &PauliString, qubits: usize) -> Option<Vec<u8>> {
    let mut bytes = vec![0; 1 + qubits];
    bytes[0] = phase_byte(string.phase());
    for (letter, qubit) in string.iter_pairs() {
        *bytes.get_mut(1 + QubitId::index(&qubit))? = letter_byte(letter);
    }
    Some(bytes)
}

pub fn read_string(bytes: &[u8]) -> Option<PauliString> {
    if bytes.len() == STRING_LENGTH {
        read_row(bytes)
    } else {
        None
    }
}

pub fn write_string(string: &PauliString) -> Option<Vec<u8>> {
    write_row(string, QUBITS)
}

// A tableau's row is its phase, its weight, its letters. No other file knows that.
const WEIGHT: usize = 1;
const BEFORE_LETTERS: usize = 2;

/// Where a row starts; the X rows come before the Z rows.
pub const fn row_offset(width: usize, row: usize) -> usize {
    1 + row * (BEFORE_LETTERS + width)
}

pub const fn tableau_length(width: usize) -> usize {
    row_offset(width, 2 * width)
}

/// The offset of a row's phase (place 0), or of its letter on qubit `place` - 1.
pub fn offset_of(width: usize, row: usize, place: usize) -> usize {
    row_offset(width, row) + place + usize::from(place >= WEIGHT)
}

/// The offset of a row's weight.
pub fn weight_offset(width: usize, row: usize) -> usize {
    row_offset(width, row) + WEIGHT
}

fn weight_of(row: &[u8]) -> u8 {
    let letters = row[BEFORE_LETTERS..].iter();
    letters.filter(|letter| **letter != 0).count() as u8
}

/// Makes every weight of a record true.
pub fn put_weights(record: &mut [u8]) {
    let width = usize::from(record[0]);
    for row in record[1..].chunks_mut(BEFORE_LETTERS + width) {
        row[WEIGHT] = weight_of(row);
    }
}

/// A row as the Rust has it, without its weight; nothing where that is false.
fn read_image(row: &[u8]) -> Option<PauliString> {
    if row[WEIGHT] != weight_of(row) {
        return None;
    }
    read_row(&[&row[..WEIGHT], &row[BEFORE_LETTERS..]].concat())
}

/// An image of the Rust as a row, with the weight put in.
pub fn write_image(image: &PauliString, width: usize) -> Option<Vec<u8>> {
    let mut row = write_row(image, width)?;
    row.insert(WEIGHT, 0);
    row[WEIGHT] = weight_of(&row);
    Some(row)
}

pub fn read_tableau(bytes: &[u8]) -> Option<CliffordRep> {
    let width = usize::from(*bytes.first()?);
    if width > QUBITS || bytes.len() != tableau_length(width) {
        return None;
    }
    let mut tableau = CliffordRep::identity(width);
    for (place, row) in bytes[1..].chunks(BEFORE_LETTERS + width).enumerate() {
        let image = read_image(row)?;
        let set = if place < width {
            tableau.set_x_image(place, image)
        } else {
            tableau.set_z_image(place - width, image)
        };
        set.expect("a row has no letter outside the width");
    }
    Some(tableau)
}

/// Nothing where the width is above 128.
pub fn write_tableau(tableau: &CliffordRep) -> Option<Vec<u8>> {
    let width = tableau.num_qubits();
    if width > QUBITS {
        return None;
    }
    let mut bytes = vec![width as u8];
    for qubit in 0..width {
        bytes.extend(write_image(tableau.x_image(qubit), width)?);
    }
    for qubit in 0..width {
        bytes.extend(write_image(tableau.z_image(qubit), width)?);
    }
    Some(bytes)
}

/// The record of width 1 with these phases and letters, two bits each: the X row's, then the Z row's.
pub fn one_qubit_record(number: u8) -> Vec<u8> {
    let mut record = vec![0; tableau_length(1)];
    record[0] = 1;
    for (turn, bits) in [6, 4, 2, 0].into_iter().enumerate() {
        record[offset_of(1, turn / 2, turn % 2)] = number >> bits & 3;
    }
    put_weights(&mut record);
    record
}

/// The number of a record of width 1, nothing for another width.
pub fn one_qubit_number(record: &[u8]) -> Option<u8> {
    if record.len() != tableau_length(1) {
        return None;
    }
    let byte = |turn: usize| record[offset_of(1, turn / 2, turn % 2)];
    Some((0..4).fold(0, |sum, turn| sum << 2 | byte(turn)))
}

#[cfg(test)]
mod tests {
    use super::*;

    #[test]
    fn a_row_has_its_weight_behind_its_phase() {
        let h = [1, 0, 1, 2, 0, 1, 1];
        assert_eq!(one_qubit_record(0b00_10_00_01), h);
        assert_eq!(one_qubit_number(&h), Some(0b00_10_00_01));
        assert_eq!(write_tableau(&read_tableau(&h).unwrap()).unwrap(), h);
        assert_eq!(weight_offset(1, 1), 5);
        assert_eq!((offset_of(2, 1, 0), offset_of(2, 1, 2)), (5, 8));
        assert_eq!(tableau_length(QUBITS), 33_281);
    }

    #[test]
    fn a_false_weight_is_not_read() {
        let false_ones = [[1, 0, 0, 2, 0, 1, 1], [1, 0, 1, 2, 0, 2, 1]];
        for record in &false_ones {
            assert!(read_tableau(record).is_none());
        }
        // The layout without weights.
        assert!(read_tableau(&[1, 0, 2, 0, 1]).is_none());
    }
}
