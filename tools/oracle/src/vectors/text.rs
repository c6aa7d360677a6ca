//! Sparse and dense text.

use super::Book;
use super::inputs::{Random, room, string};
use crate::driver::line::Call;
use crate::driver::records::{QUBITS, STRING_LENGTH};

const SPARSE: &str = "from_sparse_str";
const DENSE: &str = "from_dense_str";
const EITHER: &str = "from_str";
const READERS: [&str; 3] = [SPARSE, DENSE, EITHER];
const ALPHABET: &[u8] = b"XyZIi10+- Q";
const SPACES: &[u8] = &[9, 10, 11, 12, 13, 32];
const PREFIXES: [&str; 6] = ["", "+", "-", "+i", "-i", "i"];
/// What a text may hold, every white space, and what no text may hold.
const WIDE: &[u8] = b"XYZxyzXYZxyzIi0123456789+-\t\n\x0b\x0c\r QqWwAaJj_.,\0\x08\x0e\x1f\x7f";
/// What dense texts are made of, and what sparse texts are.
const DENSE_BYTES: &[u8] = b"XYZxyzIi1XYZxyzIi1XYZxyzIi1+-\n ";
const SPARSE_BYTES: &[u8] = b"XYZxyz0123456789+ \t";

pub fn fill(book: &mut Book) {
    let random = &mut Random::new(2);
    book.comment(
        "Made by `oracle vectors text`: every answer is the Rust's, `!` where it refuses a",
    );
    book.comment("text as bad syntax, without a number and an offset.");
    short_texts(book);
    chance_texts(book, random);
    single_bytes(book);
    made_texts(book, random);
    damaged_texts(book, random);
    edges(book);
    long_texts(book);
    writing(book, random);
    there_and_back(book, random);
}

/// The text in these readers, where the Rust judges it.
fn read_in(book: &mut Book, readers: &[&str], text: &[u8], more: usize) {
    for name in readers {
        let room = room(STRING_LENGTH, more);
        book.add_if_judged(&Call::new(name).b1(text).d(&room));
    }
}

fn read_all(book: &mut Book, text: &[u8], more: usize) {
    read_in(book, &READERS, text, more);
}

/// The `number`-th text of this length.
fn numbered(length: u32, mut number: usize) -> Vec<u8> {
    let mut text = Vec::new();
    for _ in 0..length {
        text.push(ALPHABET[number % ALPHABET.len()]);
        number /= ALPHABET.len();
    }
    text
}

fn short_texts(book: &mut Book) {
    book.comment("Every text of up to three bytes out of \"XyZIi10+- Q\".");
    for length in 0..=3 {
        for number in 0..ALPHABET.len().pow(length) {
            read_all(book, &numbered(length, number), 0);
        }
    }
}

fn chance_texts(book: &mut Book, random: &mut Random) {
    book.comment("Texts of four to eight bytes, by chance: out of many bytes, and out of those of");
    book.comment("dense and of sparse texts.");
    for turn in 0..660 {
        let from = [WIDE, DENSE_BYTES, SPARSE_BYTES][turn % 3];
        let text: Vec<u8> = (0..4 + turn % 5).map(|_| random.pick(from)).collect();
        read_all(book, &text, turn % 2);
    }
}

/// The text with one more byte before `place`.
fn with_byte(text: &[u8], place: usize, byte: u8) -> Vec<u8> {
    [&text[..place], &[byte], &text[place..]].concat()
}

fn single_bytes(book: &mut Book) {
    book.comment("Each byte from 0 to 127 in front of, inside and behind \"X0\" and \"XYZ\".");
    for byte in 0..128 {
        for place in 0..=2 {
            read_in(book, &[SPARSE, EITHER], &with_byte(b"X0", place, byte), 0);
        }
        for place in [0, 1, 3] {
            read_in(book, &[DENSE, EITHER], &with_byte(b"XYZ", place, byte), 0);
        }
    }
}

fn some_space(random: &mut Random, least: usize) -> Vec<u8> {
    (0..least + random.below(2))
        .map(|_| random.pick(SPACES))
        .collect()
}

/// A numeral of an index, now and then with a plus and leading zeros.
fn numeral(random: &mut Random, index: usize) -> String {
    let plus = random.pick(&["", "", "+"]);
    let zeros = random.pick(&["", "", "0", "000"]);
    format!("{plus}{zeros}{index}")
}

fn sparse_text(random: &mut Random, count: usize, limit: usize) -> Vec<u8> {
    let mut text = some_space(random, 0);
    text.extend(random.pick(&PREFIXES).bytes());
    text.extend(some_space(random, 0));
    for place in 0..count {
        text.extend(some_space(random, usize::from(place > 0)));
        text.push(random.pick(b"XYZxyz"));
        text.extend(some_space(random, 0));
        let index = random.below(limit);
        text.extend(numeral(random, index).bytes());
    }
    text.extend(some_space(random, 0));
    text
}

fn dense_text(random: &mut Random, length: usize) -> Vec<u8> {
    let mut text = some_space(random, 0);
    text.extend(random.pick(&PREFIXES).bytes());
    text.extend((0..length).map(|_| random.pick(b"IXYZixyz1")));
    text.extend(some_space(random, 0));
    text
}

fn made_texts(book: &mut Book, random: &mut Random) {
    book.comment(
        "Sparse texts: prefixes, either case, every white space, pluses and zeros, duplicates.",
    );
    for turn in 0..240 {
        let limit = random.pick(&[4, 10, 30, QUBITS]);
        let text = sparse_text(random, 1 + turn % 6, limit);
        let name = if turn % 3 == 0 { EITHER } else { SPARSE };
        book.add(Call::new(name).b1(&text).d(&room(STRING_LENGTH, turn % 4)));
    }
    book.comment("Dense texts: prefixes, either case, 1 for I, white space at both ends.");
    for turn in 0..120 {
        let length = random.pick(&[1, 5, 12]);
        let text = dense_text(random, length);
        book.add(Call::new(DENSE).b1(&text).d(&room(STRING_LENGTH, turn % 4)));
        read_in(book, &[EITHER], &text, 0);
    }
}

/// The text with one byte changed, left out or put in.
fn damaged(random: &mut Random, text: &[u8], turn: usize) -> Vec<u8> {
    let place = random.below(text.len());
    let byte = random.pick(WIDE);
    let mut text = text.to_vec();
    match turn % 3 {
        0 => text[place] = byte,
        1 => text.insert(place, byte),
        _ => {
            text.remove(place);
        }
    }
    text
}

fn damaged_texts(book: &mut Book, random: &mut Random) {
    book.comment("Sparse and dense texts with one byte changed, put in or left out.");
    for turn in 0..300 {
        let limit = random.pick(&[3, 12, QUBITS]);
        let good = sparse_text(random, 1 + turn % 5, limit);
        let text = damaged(random, &good, turn);
        read_in(book, &[SPARSE, EITHER], &text, 0);
    }
    for turn in 0..150 {
        let length = random.pick(&[2, 6, 20]);
        let good = dense_text(random, length);
        let text = damaged(random, &good, turn);
        read_in(book, &[DENSE, EITHER], &text, 0);
    }
}

fn repeated(start: &str, piece: &str, count: usize, end: &str) -> Vec<u8> {
    [start, &piece.repeat(count), end].concat().into_bytes()
}

fn edges(book: &mut Book) {
    book.comment("The last qubit, long runs, identity letters beyond the last qubit.");
    let texts = [
        repeated("X127", "", 0, ""),
        repeated("-i", " ", 3, "x 127 z0"),
        repeated("X+", "0", 400, "5"),
        repeated("Y ", "0", 30, "127"),
        repeated("", "\u{b}\u{c}\r", 20, "Z3\n"),
        repeated("+i", "X", 128, ""),
        repeated("  -", "I", 127, "y  "),
        repeated("", "I", 300, ""),
        repeated("i", "i", 128, ""),
        repeated("", "Z", 128, "IIII"),
        repeated("", "1", 128, ""),
        repeated("X5 X5 X3 X3", "", 0, ""),
        repeated("X0 ", "Y127 ", 2, ""),
        repeated("z7", " x7", 40, ""),
        repeated("X00 X0", "", 0, ""),
        repeated("X1 y2 Z+1", "", 0, ""),
    ];
    for text in &texts {
        read_all(book, text, 2);
    }
}

/// All qubits in this order, the letters in turn.
fn all_entries(qubits: impl Iterator<Item = usize>) -> String {
    let entry = |qubit: usize| format!("{}{qubit}", char::from(b"XyZxYz"[qubit % 6]));
    qubits.map(entry).collect::<Vec<String>>().join(" ")
}

fn long_texts(book: &mut Book) {
    book.comment(
        "Long texts: every qubit, rising and falling, once and one of them twice; 128 letters;",
    );
    book.comment("hundreds of zeros; long white space.");
    let (rising, falling) = (all_entries(0..QUBITS), all_entries((0..QUBITS).rev()));
    let letters: String = "XyzIiY1Zx".chars().cycle().take(QUBITS).collect();
    for text in [&rising, &falling, &letters] {
        read_all(book, text.as_bytes(), 0);
        read_all(book, format!("\n-i{text}\t").as_bytes(), 0);
        read_all(book, format!("{text}Q").as_bytes(), 0);
    }
    for more in [" Z64", " z 0", " Y", " Q", " 5", " X-1"] {
        read_in(
            book,
            &[SPARSE, EITHER],
            (rising.clone() + more).as_bytes(),
            0,
        );
    }
    for count in [100, 300, 500, 4000] {
        for end in ["0", "9", "127", "5 Y5", "x", " ", "+"] {
            let text = repeated("Z", "0", count, end);
            read_in(book, &[SPARSE, EITHER], &text, 0);
            let text = repeated("y2  x +", "0", count, end);
            read_in(book, &[SPARSE, EITHER], &text, 0);
        }
    }
    for &space in SPACES {
        let run = char::from(space).to_string().repeat(600);
        for prefix in PREFIXES {
            read_all(book, format!("{run}{prefix}").as_bytes(), 1);
        }
        read_all(book, format!("-i{run}X{run}1{run}y2{run}").as_bytes(), 0);
        read_all(book, format!("{run}iXyZ{run}").as_bytes(), 0);
        read_all(book, format!("{run}X{run}Y").as_bytes(), 0);
        read_all(book, format!("-{run}i{run}").as_bytes(), 0);
    }
}

fn write(book: &mut Book, record: &[u8], more: usize) {
    book.add_sized(&Call::new("to_sparse_str").b1(record), more);
}

fn writing(book: &mut Book, random: &mut Random) {
    book.comment("Written sparse text, in exactly its own room and in more.");
    for phase in 0..4 {
        write(book, &string(phase, &[]), 0);
        write(book, &string(phase, &[]), 5);
        write(book, &string(phase, &[(0, 3)]), phase as usize);
        for qubit in [1, 9, 10, 99, 100, 127] {
            write(book, &string(phase, &[(qubit, 1 + phase % 3)]), qubit % 3);
        }
        write(book, &random.full_string(phase), 0);
        let all: Vec<(usize, u8)> = (0..QUBITS)
            .map(|q| (q, 1 + random.below(3) as u8))
            .collect();
        write(book, &string(phase, &all), 3);
    }
    for turn in 0..40 {
        let phase = random.below(4) as u8;
        write(book, &random.sparse_string(phase, 1 + turn % 8), turn % 2);
    }
}

fn there_and_back(book: &mut Book, random: &mut Random) {
    book.comment("Texts that the Rust wrote.");
    for turn in 0..24 {
        let phase = (turn % 4) as u8;
        let record = match turn / 4 {
            0 => string(phase, &[]),
            1 => random.full_string(phase),
            _ => random.sparse_string(phase, 1 + turn % 7),
        };
        let text = crate::driver::records::read_string(&record)
            .unwrap()
            .to_sparse_str();
        let back = Call::new(EITHER)
            .b1(text.as_bytes())
            .d(&room(STRING_LENGTH, turn % 3));
        book.add(back);
    }
}
