//! Random numbers from a fixed seed, and the records made of them.

use crate::clifford::Clifford;
use crate::clifford_rep::CliffordRep;
use crate::driver::records::{
    QUBITS, STRING_LENGTH, offset_of, one_qubit_record, put_weights, tableau_length, write_tableau,
};

/// SplitMix64.
pub struct Random(u64);

impl Random {
    pub fn new(seed: u64) -> Random {
        Random(seed)
    }

    pub fn number(&mut self) -> u64 {
        self.0 = self.0.wrapping_add(0x9e37_79b9_7f4a_7c15);
        let mut z = self.0;
        z = (z ^ (z >> 30)).wrapping_mul(0xbf58_476d_1ce4_e5b9);
        z = (z ^ (z >> 27)).wrapping_mul(0x94d0_49bb_1331_11eb);
        z ^ (z >> 31)
    }

    /// A number from 0 to `limit` - 1.
    pub fn below(&mut self, limit: usize) -> usize {
        (self.number() % limit as u64) as usize
    }

    pub fn pick<T: Copy>(&mut self, from: &[T]) -> T {
        from[self.below(from.len())]
    }

    pub fn shuffle<T>(&mut self, items: &mut [T]) {
        for place in (1..items.len()).rev() {
            items.swap(place, self.below(place + 1));
        }
    }

    /// Letters 0 to 3 on every qubit.
    pub fn full_string(&mut self, phase: u8) -> Vec<u8> {
        let mut record = vec![phase];
        record.extend((0..QUBITS).map(|_| self.below(4) as u8));
        record
    }

    /// Any letters below the width, and one letter on all other qubits: its line is short.
    pub fn string_on(&mut self, phase: u8, width: usize) -> Vec<u8> {
        let mut record = vec![phase];
        record.extend((0..width).map(|_| self.below(4) as u8));
        record.resize(STRING_LENGTH, self.below(4) as u8);
        record
    }

    /// `count` letters other than I, at random qubits (fewer where a qubit comes twice).
    pub fn sparse_string(&mut self, phase: u8, count: usize) -> Vec<u8> {
        let letters: Vec<(usize, u8)> = (0..count)
            .map(|_| (self.below(QUBITS), 1 + self.below(3) as u8))
            .collect();
        string(phase, &letters)
    }

    /// A record of this width with any phases and letters, seldom a valid tableau.
    pub fn any_tableau(&mut self, width: usize) -> Vec<u8> {
        tableau(width, || {
            (0..1 + width).map(|_| self.below(4) as u8).collect()
        })
    }

    /// A record of this width with any phases, and letters in runs: its line is short.
    pub fn drawn_tableau(&mut self, width: usize) -> Vec<u8> {
        tableau(width, || {
            let mut row = vec![self.below(4) as u8];
            let (from, to) = (self.below(width), self.below(width));
            let (outside, inside) = (self.below(4) as u8, self.below(4) as u8);
            row.extend((0..width).map(|qubit| {
                if from <= qubit && qubit <= to {
                    inside
                } else {
                    outside
                }
            }));
            row
        })
    }

    /// A gate of the Rust on random qubits below the width, which is at least 1.
    pub fn gate(&mut self, width: usize) -> (Clifford, usize, usize) {
        let gates = if width == 1 {
            Clifford::all_1q().as_slice()
        } else {
            Clifford::all()
        };
        let (gate, q0) = (self.pick(gates), self.below(width));
        if gate.is_1q() {
            return (gate, q0, 0);
        }
        (gate, q0, (q0 + 1 + self.below(width - 1)) % width)
    }

    /// A valid tableau: `count` random gates of the Rust, composed.
    pub fn valid_tableau(&mut self, width: usize, count: usize) -> Vec<u8> {
        let mut tableau = CliffordRep::identity(width);
        for _ in 0..if width == 0 { 0 } else { count } {
            let (gate, q0, q1) = self.gate(width);
            tableau = gate.on_qubits(q0, q1).compose(&tableau);
        }
        write_tableau(&tableau).unwrap()
    }

    /// The record with one of its phases or letters changed to another, and its weights true.
    pub fn damaged(&mut self, record: &[u8]) -> Vec<u8> {
        let mut record = record.to_vec();
        let place = self.place(&record);
        record[place] = (record[place] + 1 + self.below(3) as u8) % 4;
        put_weights(&mut record);
        record
    }

    /// The offset of a phase or a letter of a record whose width is at least 1.
    pub fn place(&mut self, record: &[u8]) -> usize {
        let width = usize::from(record[0]);
        let place = self.below(2 * width * (1 + width));
        offset_of(width, place / (1 + width), place % (1 + width))
    }
}

/// The record whose rows, one after another, have these phases and letters.
pub fn tableau(width: usize, mut row: impl FnMut() -> Vec<u8>) -> Vec<u8> {
    let mut record = vec![0; tableau_length(width)];
    record[0] = width as u8;
    for number in 0..2 * width {
        for (place, byte) in row().into_iter().enumerate() {
            record[offset_of(width, number, place)] = byte;
        }
    }
    put_weights(&mut record);
    record
}

/// A string record with these letters.
pub fn string(phase: u8, letters: &[(usize, u8)]) -> Vec<u8> {
    let mut record = vec![0; STRING_LENGTH];
    record[0] = phase;
    for (qubit, letter) in letters {
        record[1 + qubit] = *letter;
    }
    record
}

/// A destination with room for `length` bytes, and `more` bytes behind that are all different.
pub fn room(length: usize, more: usize) -> Vec<u8> {
    let mut bytes = vec![0xaa; length];
    bytes.extend((0..more).map(|place| 0xb0 + place as u8));
    bytes
}

/// Every record of width 1.
pub fn one_qubit_tableaux() -> Vec<Vec<u8>> {
    (0..=255).map(one_qubit_record).collect()
}
