//! String records and entries.

use crate::comparison::Comparison;
use crate::inputs::{BAD, EDGES, any_string, bad_string, string};
use crate::model::{QUBITS, STRING};
use oracle::driver::Call;

pub fn all(compare: &mut Comparison) {
    letter_pairs(compare);
    places(compare);
    places_taken(compare);
    bad_places(compare);
    lengths(compare);
    random_pairs(compare);
    readings(compare);
    few_entries(compare);
    random_entries(compare);
}

fn pair(compare: &mut Comparison, left: &[u8], right: &[u8]) {
    compare.case(&Call::new("anticommuting_places").b1(left).b2(right));
    compare.some_room(&Call::new("mul").b1(left).b2(right));
}

/// Every pair of letters at every qubit, under every pair of phases.
fn letter_pairs(compare: &mut Comparison) {
    for number in 0..256 {
        let [p, q, x, y] = [6, 4, 2, 0].map(|bits| (number >> bits & 3) as u8);
        for qubit in 0..QUBITS {
            pair(
                compare,
                &string(p, &[(qubit, x)]),
                &string(q, &[(qubit, y)]),
            );
        }
    }
}

/// Every number of places from 0 to 128, those of each pair of different letters and of any: at the first qubits, at the last, and at
/// qubits by chance. The rest are equal letters, I among them, or I against a letter.
fn places(compare: &mut Comparison) {
    const DIFFERENT: [(u8, u8); 6] = [(1, 2), (2, 1), (1, 3), (3, 1), (2, 3), (3, 2)];
    for count in 0..=QUBITS {
        for turn in 0..4 * (DIFFERENT.len() + 1) {
            let random = &mut compare.random;
            let mut qubits: Vec<usize> = (0..QUBITS).collect();
            match turn % 4 {
                0 => {}
                1 => qubits.reverse(),
                _ => random.shuffle(&mut qubits),
            }
            let (mut left, mut right) = (string(0, &[]), string(0, &[]));
            for (place, qubit) in qubits.into_iter().enumerate() {
                let letter = random.below(4) as u8;
                let (x, y) = if place < count {
                    let own = DIFFERENT.get(turn / 4).copied();
                    own.unwrap_or_else(|| random.pick(&DIFFERENT))
                } else {
                    random.pick(&[(letter, letter), (0, letter), (letter, 0)])
                };
                (left[1 + qubit], right[1 + qubit]) = (x, y);
            }
            pair(compare, &left, &right);
        }
    }
}

/// Every number of places that a product takes, with the last letter in the first string, in the second, and the same in both, whose
/// product has none there; before it any letters, or I alone. In every room.
fn places_taken(compare: &mut Comparison) {
    for count in 0..=QUBITS {
        for turn in 0..32 {
            let random = &mut compare.random;
            let below = if turn % 2 == 0 { count } else { 0 };
            let [mut left, mut right] = [(); 2].map(|()| {
                let letters = (0..below).map(|qubit| (qubit, random.below(4) as u8));
                let letters: Vec<(usize, u8)> = letters.collect();
                string(random.below(4) as u8, &letters)
            });
            if count > 0 {
                let letter = 1 + random.below(3) as u8;
                let last = [(letter, 0), (0, letter), (letter, letter)];
                (left[count], right[count]) = last[turn / 2 % 3];
            }
            compare.case(&Call::new("anticommuting_places").b1(&left).b2(&right));
            compare.each_room(&Call::new("mul").b1(&left).b2(&right));
        }
    }
}

fn one(compare: &mut Comparison, record: &[u8], qubit: u64) {
    compare.case(&Call::new("phase").b1(record));
    compare.case(&Call::new("get").b1(record).n(&[qubit]));
    compare.some_room(&Call::new("to_sparse_str").b1(record));
    compare.some_room(&Call::new("from_pauli_string").b1(record));
}

/// A bad byte at every offset, in the first record, the second, and both.
fn bad_places(compare: &mut Comparison) {
    for place in 0..STRING {
        for byte in BAD {
            let (good, other) = (
                any_string(&mut compare.random, 9),
                any_string(&mut compare.random, 9),
            );
            let (mut first, mut second) = (good.clone(), other.clone());
            first[place] = byte;
            second[place] = byte;
            one(compare, &first, place as u64);
            pair(compare, &first, &other);
            pair(compare, &good, &second);
            pair(compare, &first, &second);
        }
    }
}

/// Lengths at and around that of a string, for the first record, the second, and both.
fn lengths(compare: &mut Comparison) {
    for length in [0, 1, 2, 64, 127, 128, 129, 130, 131, 258, 1000] {
        for byte in [0, 3, 4, 255] {
            let (record, good) = (vec![byte; length], any_string(&mut compare.random, 20));
            for qubit in EDGES {
                one(compare, &record, qubit);
                one(compare, &good, qubit);
            }
            for (left, right) in [(&record, &good), (&good, &record), (&record, &record)] {
                compare.case(&Call::new("anticommuting_places").b1(left).b2(right));
                compare.each_room(&Call::new("mul").b1(left).b2(right));
            }
        }
    }
}

fn random_pairs(compare: &mut Comparison) {
    for turn in 0..60_000 {
        let (left, right) = (
            any_string(&mut compare.random, turn % 129),
            any_string(&mut compare.random, turn % 127),
        );
        pair(compare, &left, &right);
        if turn % 10 == 0 {
            let (bad, worse) = (
                bad_string(&mut compare.random),
                bad_string(&mut compare.random),
            );
            pair(compare, &bad, &right);
            pair(compare, &left, &bad);
            pair(compare, &bad, &worse);
        }
    }
}

fn readings(compare: &mut Comparison) {
    for turn in 0..30_000 {
        let qubit = match turn % 4 {
            0 => compare.random.pick(&EDGES),
            _ => compare.random.below(QUBITS) as u64,
        };
        let record = any_string(&mut compare.random, turn % 129);
        one(compare, &record, qubit);
        if turn % 8 == 0 {
            let bad = bad_string(&mut compare.random);
            one(compare, &bad, qubit);
            compare.each_room(&Call::new("to_sparse_str").b1(&record));
            compare.each_room(&Call::new("from_pauli_string").b1(&record));
        }
    }
}

fn entries(compare: &mut Comparison, phase: u8, entries: &[u8]) {
    compare.some_room(
        &Call::new("with_phase_and_paulis")
            .n(&[phase.into()])
            .b1(entries),
    );
}

/// None, one and two entries at and around the limits, and half an entry more.
fn few_entries(compare: &mut Comparison) {
    let some: Vec<[u8; 2]> = [0, 1, 2, 3, 4, 255]
        .into_iter()
        .flat_map(|letter| [0, 1, 127, 128, 255].map(|qubit| [letter, qubit]))
        .collect();
    for phase in [0, 1, 2, 3, 4, 255] {
        entries(compare, phase, &[]);
        for first in &some {
            entries(compare, phase, first);
            entries(compare, phase, &first[..1]);
            for second in &some {
                entries(compare, phase, &[*first, *second].concat());
                entries(compare, phase, &[&first[..], &second[..1]].concat());
            }
        }
    }
}

/// Up to 130 entries: qubits once each, some of them twice, some too high, bad letters, odd lengths.
fn random_entries(compare: &mut Comparison) {
    for turn in 0..60_000 {
        let random = &mut compare.random;
        let mut qubits: Vec<u8> = (0..QUBITS as u8).collect();
        random.shuffle(&mut qubits);
        let most = if turn % 8 == 0 { QUBITS } else { 12 };
        qubits.truncate(random.below(most + 1));
        if turn % 3 == 0 && !qubits.is_empty() {
            for _ in 0..1 + random.below(3) {
                qubits.push(random.pick(&qubits));
            }
            random.shuffle(&mut qubits);
        }
        let mut bytes: Vec<u8> = qubits
            .iter()
            .flat_map(|qubit| [random.below(4) as u8, *qubit])
            .collect();
        if turn % 5 == 0 && !bytes.is_empty() {
            let place = random.below(bytes.len());
            bytes[place] = random.pick(&[4, 100, 127, 128, 200, 255]);
        }
        if turn % 16 == 0 {
            bytes.push(random.below(6) as u8);
        }
        let phase = if turn % 32 == 0 {
            random.number() as u8
        } else {
            random.below(4) as u8
        };
        entries(compare, phase, &bytes);
    }
}
