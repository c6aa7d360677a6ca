//! Gates by number, and gate lists.

use super::Book;
use super::inputs::{Random, one_qubit_tableaux};
use crate::clifford::Clifford;
use crate::driver::answer::Answer;
use crate::driver::gates::NO_GATE;
use crate::driver::line::Call;

pub fn fill(book: &mut Book) {
    book.comment("Made by `oracle vectors gates`: every answer is the Rust's, but for tableaux of width 1 that are not valid, which have no gate.");
    by_number(book);
    one_qubit(book);
    two_qubits(book);
    naming(book, &mut Random::new(5));
    playing(book, &mut Random::new(6));
}

fn by_number(book: &mut Book) {
    book.comment("All 24 x 24 products and all inverses, by number.");
    for left in 0..24 {
        for right in 0..24 {
            book.add(Call::new("gate_compose").n(&[left, right]));
        }
    }
    for gate in 0..38 {
        book.add(Call::new("gate_inverse").n(&[gate]));
    }
}

fn one_qubit(book: &mut Book) {
    book.comment("One-qubit gates and the 24 products; a second qubit is not looked at.");
    for gate in 0..24 {
        for qubit in [0, 1, 4] {
            book.add_sized(&Call::new("on_qubit").n(&[gate, qubit]), 1);
            book.add_sized(&Call::new("single_qubit_clifford").n(&[gate, qubit]), 0);
        }
        for second in [0, 2, 128, u64::MAX] {
            book.add_sized(&Call::new("on_qubits").n(&[gate, 2, second]), 0);
        }
    }
}

fn two_qubits(book: &mut Book) {
    book.comment("Two-qubit gates in both orders.");
    for gate in 24..38 {
        for (q0, q1) in [(0, 1), (1, 0), (0, 3), (3, 1), (2, 5)] {
            book.add_sized(&Call::new("on_qubits").n(&[gate, q0, q1]), 2);
        }
    }
    book.comment("The last qubit.");
    book.add_sized(&Call::new("on_qubits").n(&[28, 127, 0]), 1);
}

fn naming(book: &mut Book, random: &mut Random) {
    book.comment("The gate of every record of width 1, and of some other widths, which have none.");
    for record in one_qubit_tableaux() {
        book.add_or_due(
            &Call::new("from_clifford_rep").b1(&record),
            &Answer::Value(NO_GATE),
        );
    }
    for width in [0, 2, 3, 7] {
        book.add(Call::new("from_clifford_rep").b1(&random.any_tableau(width)));
        book.add(Call::new("from_clifford_rep").b1(&random.valid_tableau(width, width)));
    }
}

fn playing(book: &mut Book, random: &mut Random) {
    book.comment("Gates played on tableaux, valid and not; a second qubit of a one-qubit gate is not looked at.");
    for gate in 0..38 {
        for width in [2, 3] {
            let record = random.any_tableau(width);
            let q0 = random.below(width);
            let q1 = (q0 + 1 + random.below(width - 1)) % width;
            book.add(
                Call::new("play")
                    .d(&record)
                    .n(&[gate, q0 as u64, q1 as u64]),
            );
        }
    }
    for (gate, second) in [(4, 0), (14, 1), (23, u64::MAX)] {
        book.add(
            Call::new("play")
                .d(&random.valid_tableau(1, 3))
                .n(&[gate, 0, second]),
        );
    }
    book.comment("Wide ones, with few letters.");
    for (gate, width, q0, q1) in [(24, 33, 32, 0), (30, 127, 0, 126), (36, 128, 127, 64)] {
        book.add(
            Call::new("play")
                .d(&random.valid_tableau(width, 6))
                .n(&[gate, q0, q1]),
        );
    }
}

/// A list whose chain holds these gates at these places; other records are left as they are.
fn list(width: u8, gates: &[(Clifford, usize, usize)], places: &[usize], records: &mut [[u8; 6]]) {
    records[0] = [0, width, 0, 0, 0, 0];
    let mut last = 0;
    for ((gate, q0, q1), place) in gates.iter().zip(places) {
        let next = (*place as u16).to_le_bytes();
        records[last][4..].copy_from_slice(&next);
        records[*place] = [*gate as u8, *q0 as u8, *q1 as u8, 0, 0, 0];
        last = *place;
    }
}

/// The run of a list, and what the program writes of it.
fn run(book: &mut Book, list: &[[u8; 6]], more: usize) {
    for name in ["run", "report"] {
        book.add_sized(&Call::new(name).b1(list.as_flattened()), more);
    }
}

pub fn fill_lists(book: &mut Book) {
    let random = &mut Random::new(4);
    book.comment(
        "Made by `oracle vectors lists`: every answer is the Rust's, by the same compositions.",
    );
    book.comment("The program's example, and lists of no gates.");
    run(
        book,
        &[[0, 2, 0, 0, 1, 0], [4, 0, 0, 0, 2, 0], [24, 0, 1, 0, 0, 0]],
        1,
    );
    for width in [0, 1, 2, 7] {
        run(book, &[[0, width, 0, 0, 0, 0]], 1);
        run(book, &[[0, width, 0, 0, 0, 0], [255; 6]], 0);
    }
    book.comment("One gate.");
    for gate in Clifford::all() {
        let (q0, q1) = if gate.is_1q() { (1, 0) } else { (2, 0) };
        let records = &mut [[0; 6], [0; 6]];
        list(3, &[(*gate, q0, q1)], &[1], records);
        run(book, records, 0);
    }
    random_lists(book, random);
    wide_lists(book, random);
    long_lists(book, random);
}

fn random_list(random: &mut Random, width: usize, count: usize, spare: usize) -> Vec<[u8; 6]> {
    let gates: Vec<_> = (0..count).map(|_| random.gate(width)).collect();
    let mut records: Vec<[u8; 6]> = (0..1 + count + spare)
        .map(|_| std::array::from_fn(|_| random.number() as u8))
        .collect();
    let mut places: Vec<usize> = (1..records.len()).collect();
    random.shuffle(&mut places);
    list(width as u8, &gates, &places, &mut records);
    records
}

fn random_lists(book: &mut Book, random: &mut Random) {
    book.comment("Chains in any order, with records off the chain.");
    for turn in 0..60 {
        let (width, count, spare) = (1 + turn % 6, 1 + random.below(30), random.below(5));
        let records = random_list(random, width, count, spare);
        run(book, &records, turn % 3);
    }
}

fn wide_lists(book: &mut Book, random: &mut Random) {
    book.comment("Wide lists: the letters stay few, so that the lines are short.");
    for width in [8, 20, 33, 64, 100, 127, 128] {
        let records = random_list(random, width, 12, 2);
        run(book, &records, 1);
    }
}

fn long_lists(book: &mut Book, random: &mut Random) {
    book.comment("Long lists: indices of two bytes, and the longest.");
    for (width, count, spare) in [(4, 300, 10), (3, 700, 0), (2, 4095, 0), (2, 5, 4090)] {
        let records = random_list(random, width, count, spare);
        run(book, &records, 0);
    }
}
