//! Tableau records.

use super::Book;
use super::inputs::{Random, one_qubit_tableaux, room, string, tableau};
use crate::driver::line::Call;
use crate::driver::records::{QUBITS, STRING_LENGTH};

pub fn fill(book: &mut Book) {
    let random = &mut Random::new(3);
    book.comment("Made by `oracle vectors tableaux`: every answer is the Rust's.");
    identities(book);
    images(book, random);
    setting(book, random);
    one_qubit(book);
    of_one(book, random);
    applying(book, random);
    composing(book, random);
    widening(book, random);
    from_strings(book, random);
    middle(book, random);
    wide(book, random);
    widest(book, random);
    previewing(book, &mut Random::new(16));
}

fn identities(book: &mut Book) {
    book.comment("Identities.");
    for width in [0, 1, 2, 3, 4, 8, 17] {
        book.add_sized(&Call::new("identity").n(&[width]), (width % 3) as usize);
    }
}

/// Records whose rows are easy to write: every phase and letter is the same.
fn plain(width: usize, byte: u8) -> Vec<u8> {
    tableau(width, || vec![byte; 1 + width])
}

fn images(book: &mut Book, random: &mut Random) {
    book.comment("Images handed out: the row's offset.");
    for width in [1, 2, 3, 6] {
        let record = random.any_tableau(width);
        for slot in 0..width as u64 {
            for name in ["x_image", "z_image"] {
                book.add(Call::new(name).b1(&record).n(&[slot]));
            }
        }
    }
    for slot in [0, 1, 63, 126, 127] {
        for name in ["x_image", "z_image"] {
            book.add(
                Call::new(name)
                    .b1(&plain(QUBITS, slot as u8 % 4))
                    .n(&[slot]),
            );
        }
    }
}

fn set(book: &mut Book, tableau: &[u8], slot: u64, image: &[u8]) {
    for name in ["set_x_image", "set_z_image"] {
        book.add(Call::new(name).b1(image).n(&[slot]).d(tableau));
    }
}

fn setting(book: &mut Book, random: &mut Random) {
    book.comment("Images set; 14 with the image's lowest qubit outside before 15 with the slot.");
    for width in 1..5 {
        let tableau = random.any_tableau(width);
        for slot in 0..width {
            let letters: Vec<(usize, u8)> = (0..width)
                .map(|qubit| (qubit, random.below(4) as u8))
                .collect();
            set(
                book,
                &tableau,
                slot as u64,
                &string(random.below(4) as u8, &letters),
            );
        }
        set(book, &tableau, 0, &string(2, &[(width, 1)]));
        set(
            book,
            &tableau,
            0,
            &string(0, &[(0, 3), (width + 3, 2), (127, 1)]),
        );
        for slot in [width as u64, 200, u64::MAX] {
            set(book, &tableau, slot, &string(0, &[(0, 1)]));
            set(book, &tableau, slot, &string(0, &[(width, 1)]));
        }
    }
    set(book, &[0], 0, &string(0, &[]));
    set(book, &[0], 0, &string(0, &[(0, 1)]));
    set(book, &plain(QUBITS, 0), 128, &string(3, &[(127, 3)]));
}

fn one_qubit(book: &mut Book) {
    book.comment("Every record of width 1.");
    for record in one_qubit_tableaux() {
        book.add(Call::new("is_valid").b1(&record));
        book.add_sized(&Call::new("inverse").b1(&record), 1);
        book.add_sized(&Call::new("support_qubits").b1(&record), 1);
    }
    book.comment("All pairs of records of width 1 composed: each line has one on the left, and all 256 on the right.");
    for record in one_qubit_tableaux() {
        book.add_sized(&Call::new("compose_each").b1(&record), 0);
    }
    book.comment("Y through every record of width 1.");
    for record in one_qubit_tableaux() {
        let y = string(0, &[(0, 3)]);
        book.add_sized(&Call::new("apply").b1(&record).b2(&y), 0);
    }
}

/// What is asked of one tableau.
fn ask(book: &mut Book, record: &[u8], more: usize) {
    book.add(Call::new("is_valid").b1(record));
    for name in ["inverse", "support_qubits", "display"] {
        book.add_sized(&Call::new(name).b1(record), more);
    }
}

fn of_one(book: &mut Book, random: &mut Random) {
    book.comment(
        "One tableau: width 0, a row that reaches outside the changed ones, the program's example.",
    );
    ask(book, &[0], 0);
    ask(book, &[0], 2);
    ask(
        book,
        &[2, 0, 1, 0, 1, 0, 1, 0, 1, 0, 1, 2, 0, 0, 1, 0, 2],
        1,
    );
    ask(
        book,
        &[2, 0, 1, 2, 0, 0, 1, 0, 1, 0, 2, 1, 1, 0, 2, 2, 2],
        0,
    );
    book.comment("Valid tableaux, copies with one byte changed, and any phases and letters.");
    for turn in 0..36 {
        let width = 1 + turn % 6;
        let valid = random.valid_tableau(width, 4 * width);
        ask(book, &valid, turn % 3);
        ask(book, &random.damaged(&valid), 0);
        ask(book, &random.any_tableau(1 + turn % 4), 0);
    }
}

fn any_or_valid(random: &mut Random, turn: usize, width: usize) -> Vec<u8> {
    if turn.is_multiple_of(2) {
        random.valid_tableau(width, 3 * width)
    } else {
        random.any_tableau(width)
    }
}

fn applying(book: &mut Book, random: &mut Random) {
    book.comment("Strings through valid and other tableaux; letters at the width and above pass.");
    for turn in 0..72 {
        let width = turn / 2 % 7;
        let tableau = any_or_valid(random, turn, width);
        let mut letters: Vec<(usize, u8)> = (0..width + 2)
            .map(|qubit| (qubit, random.below(4) as u8))
            .collect();
        if turn % 9 == 0 {
            letters.push((127, 1 + random.below(3) as u8));
        }
        let image = string(random.below(4) as u8, &letters);
        let room = room(STRING_LENGTH, turn % 4);
        book.add(Call::new("apply").b1(&tableau).b2(&image).d(&room));
    }
    for phase in 0..4 {
        let (tableau, full) = (random.any_tableau(6), random.full_string(phase));
        book.add_sized(&Call::new("apply").b1(&tableau).b2(&full), 0);
        book.add_sized(&Call::new("apply").b1(&[0]).b2(&full), 1);
    }
}

fn composing(book: &mut Book, random: &mut Random) {
    book.comment("All 24 x 24 products of the one-qubit tableaux, in the order of their gates.");
    let gates: Vec<Vec<u8>> = crate::clifford::Clifford::all_1q()
        .iter()
        .map(|gate| crate::driver::records::write_tableau(&gate.on_qubit(0)).unwrap())
        .collect();
    for left in &gates {
        for right in &gates {
            book.add_sized(&Call::new("compose").b1(left).b2(right), 0);
        }
    }
    book.comment("Products of any two widths, valid and other tableaux.");
    for turn in 0..120 {
        let (left, right) = (turn / 2 % 6, turn / 12 % 6);
        let (left, right) = (
            any_or_valid(random, turn, left),
            any_or_valid(random, turn / 3, right),
        );
        book.add_sized(&Call::new("compose").b1(&left).b2(&right), turn % 3);
    }
}

fn widening(book: &mut Book, random: &mut Random) {
    book.comment("Wider, and a copy where the width asked for is no larger.");
    for width in 0..5 {
        for asked in [0, 1, 2, 4, 5, 9] {
            let record = random.any_tableau(width);
            book.add_sized(
                &Call::new("extended_to").b1(&record).n(&[asked]),
                asked as usize % 3,
            );
        }
    }
}

fn from_strings(book: &mut Book, random: &mut Random) {
    book.comment("Tableaux of strings: the phase is dropped, no letters give width 1.");
    for phase in 0..4 {
        book.add_sized(
            &Call::new("from_pauli_string").b1(&string(phase, &[])),
            phase as usize,
        );
        for letter in 1..4 {
            let record = string(phase, &[(0, letter)]);
            book.add_sized(&Call::new("from_pauli_string").b1(&record), 0);
        }
    }
    for turn in 0..16 {
        let letters: Vec<(usize, u8)> = (0..1 + turn % 8)
            .map(|qubit| (qubit, random.below(4) as u8))
            .collect();
        let record = string(random.below(4) as u8, &letters);
        book.add_sized(&Call::new("from_pauli_string").b1(&record), turn % 2);
    }
}

fn middle(book: &mut Book, random: &mut Random) {
    book.comment("Widths in between, valid and other tableaux.");
    for width in [12, 20, 33] {
        let valid = random.valid_tableau(width, 6 * width);
        let other = random.any_tableau(width);
        book.add(Call::new("is_valid").b1(&valid));
        book.add(Call::new("is_valid").b1(&random.damaged(&valid)));
        book.add_sized(&Call::new("inverse").b1(&valid), 0);
        book.add_sized(&Call::new("inverse").b1(&other), 1);
        book.add_sized(&Call::new("compose").b1(&valid).b2(&other), 2);
        book.add_sized(&Call::new("compose").b1(&other).b2(&valid), 0);
        let full = random.full_string((width % 4) as u8);
        book.add_sized(&Call::new("apply").b1(&other).b2(&full), 0);
        book.add_sized(&Call::new("apply").b1(&valid).b2(&full), 0);
    }
}

fn wide(book: &mut Book, random: &mut Random) {
    book.comment("Width 128, with rows that are easy to write.");
    for byte in 0..4 {
        let record = plain(QUBITS, byte);
        book.add(Call::new("is_valid").b1(&record));
        let full = random.full_string(byte);
        book.add_sized(&Call::new("apply").b1(&record).b2(&full), 2);
        book.add_sized(&Call::new("support_qubits").b1(&record), 1);
    }
    let (left, right) = (plain(QUBITS, 2), plain(QUBITS, 1));
    book.add_sized(&Call::new("compose").b1(&left).b2(&right), 1);
    book.add_sized(&Call::new("display").b1(&plain(QUBITS, 0)), 1);
    book.add_sized(&Call::new("inverse").b1(&plain(QUBITS, 0)), 0);
    book.add_sized(&Call::new("extended_to").b1(&plain(QUBITS, 3)).n(&[128]), 1);
    book.add_sized(&Call::new("identity").n(&[128]), 0);
}

/// What is asked of tableaux whose records are long: few runs of equal letters keep the lines short.
fn widest(book: &mut Book, random: &mut Random) {
    book.comment("Widths 127 and 128, valid and other tableaux.");
    for width in [QUBITS - 1, QUBITS] {
        let (valid, other) = (random.valid_tableau(width, 24), random.drawn_tableau(width));
        let full = random.full_string((width % 4) as u8);
        for record in [&valid, &random.damaged(&valid), &other] {
            book.add(Call::new("is_valid").b1(record));
            book.add_sized(&Call::new("support_qubits").b1(record), 1);
            book.add_sized(&Call::new("apply").b1(record).b2(&full), 0);
            book.add_sized(&Call::new("inverse").b1(record), 1);
        }
        book.add_sized(&Call::new("display").b1(&valid), 1);
        book.add_sized(&Call::new("compose").b1(&valid).b2(&other), 2);
        book.add_sized(&Call::new("compose").b1(&other).b2(&valid), 0);
        book.add_sized(&Call::new("extended_to").b1(&valid).n(&[QUBITS as u64]), 0);
        for slot in [0, width as u64 - 1, width as u64] {
            set(book, &valid, slot, &random.full_string(2)[..]);
            set(book, &other, slot, &string(1, &[(0, 3), (width - 1, 2)]));
        }
    }
    book.add_sized(&Call::new("identity").n(&[127]), 1);
}

const X_PREVIEW: &str = "composed_x_image";
const Z_PREVIEW: &str = "composed_z_image";

fn preview(book: &mut Book, name: &str, (left, right): (&[u8], &[u8]), qubit: usize, more: usize) {
    let call = Call::new(name).b1(left).b2(right);
    book.add_sized(&call.n(&[qubit as u64]), more);
}

fn previewing(book: &mut Book, random: &mut Random) {
    book.comment("Previews of every qubit, of any two widths, valid and other tableaux: images of the composed copy.");
    let widths = (0..7).flat_map(|left| (0..7).map(move |right| (left, right)));
    for (turn, (left, right)) in widths.enumerate() {
        let width = left.max(right);
        let (left, right) = (
            any_or_valid(random, turn, left),
            any_or_valid(random, turn / 2, right),
        );
        for qubit in 0..width {
            for name in [X_PREVIEW, Z_PREVIEW] {
                preview(book, name, (&left, &right), qubit, (turn + qubit) % 3);
            }
        }
    }
    book.comment("Previews in widths 127 and 128, also of a narrow tableau on either side.");
    for width in [QUBITS - 1, QUBITS] {
        let valid = random.valid_tableau(width, 24);
        let [drawn, other] = [(); 2].map(|()| random.drawn_tableau(width));
        let narrow = random.any_tableau(3);
        preview(book, X_PREVIEW, (&valid, &drawn), random.below(width), 0);
        preview(book, Z_PREVIEW, (&drawn, &other), width - 1, 1);
        preview(book, X_PREVIEW, (&drawn, &narrow), 3, 2);
        preview(book, Z_PREVIEW, (&drawn, &narrow), width - 1, 0);
        preview(book, X_PREVIEW, (&narrow, &other), 2, 1);
        preview(book, Z_PREVIEW, (&narrow, &other), 3, 0);
    }
}
