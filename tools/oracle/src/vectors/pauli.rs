//! Phases, letters, string records and entries.

use super::Book;
use super::inputs::{Random, room, string};
use crate::driver::line::Call;
use crate::driver::records::{QUBITS, STRING_LENGTH};

pub fn fill(book: &mut Book) {
    let random = &mut Random::new(1);
    book.comment("Made by `oracle vectors pauli`: every answer is the Rust's.");
    phases_and_letters(book);
    reading_strings(book, random);
    book.comment("Letter pairs at the first and the last qubit.");
    letter_pairs(book);
    book.comment("Phase pairs.");
    phase_pairs(book, random);
    book.comment("How many places anticommute.");
    anticommuting_places(book);
    book.comment("How many places a product takes.");
    places_taken(book);
    book.comment("Random strings.");
    random_pairs(book, random);
    entries_few(book);
    entries_many(book, random);
    entries_twice(book, random);
}

fn phases_and_letters(book: &mut Book) {
    book.comment(
        "All products of phases and of letters (4 * phase + letter), conjugates, real phases.",
    );
    for name in ["phase_product", "letter_product"] {
        for left in 0..4 {
            for right in 0..4 {
                book.add(Call::new(name).n(&[left, right]));
            }
        }
    }
    for name in ["phase_conjugate", "phase_is_real"] {
        for phase in 0..4 {
            book.add(Call::new(name).n(&[phase]));
        }
    }
}

fn reading_strings(book: &mut Book, random: &mut Random) {
    book.comment("The phase and single letters of a record.");
    let mut records: Vec<Vec<u8>> = (0..4).map(|phase| string(phase, &[])).collect();
    records.extend((0..4).map(|phase| random.full_string(phase)));
    for letter in 0..4 {
        records.push(string(
            0,
            &[(0, letter), (1, 3 - letter), (63, letter), (127, letter)],
        ));
    }
    for record in &records {
        book.add(Call::new("phase").b1(record));
        let some = random.below(QUBITS) as u64;
        for qubit in [0, 1, 63, 127, some] {
            book.add(Call::new("get").b1(record).n(&[qubit]));
        }
    }
    let record = random.full_string(1);
    for _ in 0..24 {
        book.add(
            Call::new("get")
                .b1(&record)
                .n(&[random.below(QUBITS) as u64]),
        );
    }
}

fn both(book: &mut Book, left: &[u8], right: &[u8], more: usize) {
    book.add(Call::new("anticommuting_places").b1(left).b2(right));
    book.add(
        Call::new("mul")
            .b1(left)
            .b2(right)
            .d(&room(STRING_LENGTH, more)),
    );
}

fn letter_pairs(book: &mut Book) {
    for qubit in [0, 127] {
        for left in 0..4 {
            for right in 0..4 {
                let (left, right) = (string(0, &[(qubit, left)]), string(0, &[(qubit, right)]));
                both(book, &left, &right, if qubit == 0 { 0 } else { 3 });
            }
        }
    }
}

fn phase_pairs(book: &mut Book, random: &mut Random) {
    for left in 0..4 {
        for right in 0..4 {
            both(book, &string(left, &[]), &string(right, &[(0, 1)]), 0);
            both(book, &string(left, &[(0, 2)]), &string(right, &[(0, 1)]), 1);
            both(
                book,
                &random.full_string(left),
                &random.full_string(right),
                0,
            );
        }
    }
}

/// X against Z on the first `count` qubits; the rest are equal letters, or I against X, which are not counted.
fn anticommuting_places(book: &mut Book) {
    for count in [0, 1, 2, 3, 4, 5, 63, 64, 126, 127, 128] {
        let left: Vec<(usize, u8)> = (0..QUBITS).map(|qubit| (qubit, 1)).collect();
        for rest in [1, 0] {
            let right: Vec<(usize, u8)> = (0..QUBITS)
                .map(|qubit| (qubit, if qubit < count { 2 } else { rest }))
                .collect();
            both(book, &string(0, &left), &string(0, &right), 0);
            both(book, &string(0, &right), &string(0, &left), 5);
        }
    }
}

/// As far as the last place with a letter: of either string, of both, with a product that has none there, and with none at all.
fn places_taken(book: &mut Book) {
    let x = |qubit: usize| string(0, &[(qubit, 1)]);
    let z = |qubit: usize| string(0, &[(qubit, 2)]);
    both(book, &x(3), &z(9), 0);
    both(book, &z(9), &x(3), 1);
    both(book, &string(2, &[]), &string(2, &[]), 0);
    for last in [0, 1, 19, 30, 31, 32, 33, 63, 64, 95, 96, 126, 127] {
        both(book, &x(last), &x(last), 2);
        both(book, &x(last), &z(0), 0);
        both(book, &z(0), &x(last), 3);
    }
}

fn random_pairs(book: &mut Book, random: &mut Random) {
    for turn in 0..48 {
        let (left, right) = (random.below(4) as u8, random.below(4) as u8);
        let (some, others) = (1 + random.below(8), 1 + random.below(60));
        let left = random.sparse_string(left, some);
        let right = random.sparse_string(right, others);
        both(book, &left, &right, turn % 7);
    }
    for turn in 0..48 {
        let left = random.full_string((turn % 4) as u8);
        let right = random.full_string((turn / 4 % 4) as u8);
        both(book, &left, &right, turn % 5);
    }
    // A string against itself, and against the identity on either side.
    for phase in 0..4 {
        let (record, one) = (random.full_string(phase), string(0, &[]));
        both(book, &record, &record, 0);
        both(book, &record, &one, 2);
        both(book, &one, &record, 2);
    }
}

fn entries(book: &mut Book, phase: u64, entries: &[(u8, u8)], more: usize) {
    let bytes: Vec<u8> = entries
        .iter()
        .flat_map(|(letter, qubit)| [*letter, *qubit])
        .collect();
    let room = room(STRING_LENGTH, more);
    book.add(
        Call::new("with_phase_and_paulis")
            .b1(&bytes)
            .n(&[phase])
            .d(&room),
    );
}

fn entries_few(book: &mut Book) {
    book.comment("Entries: none, one, a few, I among them.");
    for phase in 0..4 {
        entries(book, phase, &[], phase as usize);
        for letter in 0..4 {
            entries(book, phase, &[(letter, 0)], 0);
        }
    }
    for qubit in [1, 63, 64, 126, 127] {
        for letter in 0..4 {
            entries(book, 0, &[(letter, qubit)], 2);
        }
    }
    entries(book, 0, &[(1, 0), (2, 1), (3, 2)], 0);
    entries(book, 1, &[(3, 2), (2, 1), (1, 0)], 0);
    entries(book, 2, &[(2, 1), (3, 2), (1, 0)], 0);
    entries(book, 3, &[(0, 1), (3, 0), (0, 2), (0, 127)], 4);
    entries(book, 0, &[(0, 127), (0, 0)], 0);
    entries(book, 0, &[(1, 127), (2, 0)], 0);
}

fn shuffled(random: &mut Random, count: usize) -> Vec<(u8, u8)> {
    let mut qubits: Vec<u8> = (0..QUBITS as u8).collect();
    random.shuffle(&mut qubits);
    qubits[..count]
        .iter()
        .map(|qubit| (random.below(4) as u8, *qubit))
        .collect()
}

fn entries_many(book: &mut Book, random: &mut Random) {
    book.comment("Entries: many, in any order, up to all 128.");
    for turn in 0..24 {
        let count = 2 + random.below(30);
        let some = shuffled(random, count);
        entries(book, turn % 4, &some, (turn % 3) as usize);
    }
    for phase in 0..4 {
        let mut all = shuffled(random, QUBITS);
        entries(book, phase, &all, 0);
        all.sort_by_key(|(_, qubit)| *qubit);
        entries(book, phase, &all, 1);
        all.reverse();
        entries(book, phase, &all, 2);
    }
}

fn entries_twice(book: &mut Book, random: &mut Random) {
    book.comment("A qubit named twice: 12, the smallest one. I entries count.");
    for letters in [(1, 1), (1, 2), (0, 0), (0, 3), (3, 0)] {
        for qubit in [0, 5, 127] {
            entries(book, 0, &[(letters.0, qubit), (letters.1, qubit)], 1);
        }
    }
    entries(book, 0, &[(1, 5), (1, 5), (1, 3), (1, 3)], 0);
    entries(book, 0, &[(1, 3), (1, 3), (1, 5), (1, 5)], 0);
    entries(book, 0, &[(1, 5), (2, 3), (3, 5), (0, 3)], 0);
    entries(book, 0, &[(0, 9), (1, 8), (1, 7), (0, 9), (2, 1)], 3);
    entries(
        book,
        2,
        &[(1, 127), (1, 0), (1, 126), (1, 127), (2, 126)],
        0,
    );
    entries(book, 1, &[(1, 4), (1, 4), (1, 4)], 0);
    for turn in 0..16 {
        let count = 2 + random.below(40);
        let mut some = shuffled(random, count);
        for _ in 0..1 + random.below(3) {
            let again = random.pick(&some);
            some.push((random.below(4) as u8, again.1));
        }
        random.shuffle(&mut some);
        entries(book, turn % 4, &some, 0);
    }
    let mut all = shuffled(random, QUBITS);
    all.push((0, 77));
    entries(book, 0, &all, 0);
}
