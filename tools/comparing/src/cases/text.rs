//! Sparse and dense text.

use crate::comparison::Comparison;
use crate::model::QUBITS;
use oracle::driver::Call;
use oracle::vectors::Random;

const SPARSE: &str = "from_sparse_str";
const DENSE: &str = "from_dense_str";
const EITHER: &str = "from_str";
const READERS: [&str; 3] = [SPARSE, DENSE, EITHER];
const ALPHABET: &[u8] = b"+-iIXyZ1 0Q";
const PREFIXES: [&str; 8] = ["", "+", "-", "+i", "-i", "i", "--", "I"];
const SPACES: &[u8] = &[9, 10, 11, 12, 13, 32];
/// What texts are made of, every white space, what no text may hold, and bytes that are not ASCII.
const WIDE: &[u8] =
    b"XYZxyzXYZxyzIi0123456789+-\t\n\x0b\x0c\r QqWwAaJj_.,\0\x08\x0e\x1f\x7f\x80\x85\xa0\xc2\xff";
const DENSE_BYTES: &[u8] = b"XYZxyzIi1XYZxyzIi1XYZxyzIi1+-\n ";
const SPARSE_BYTES: &[u8] = b"XYZxyz0123456789+ \t";
/// Indices at and around the limits.
const NUMERALS: [&str; 14] = [
    "126",
    "127",
    "128",
    "129",
    "0127",
    "00128",
    "255",
    "256",
    "1000",
    "18446744073709551615",
    "18446744073709551616",
    "18446744073709551743",
    "184467440737095516160",
    "99999999999999999999999999",
];

pub fn all(compare: &mut Comparison) {
    short(compare);
    single_bytes(compare);
    by_chance(compare);
    made(compare);
    long(compare);
}

fn read(compare: &mut Comparison, readers: &[&str], text: &[u8]) {
    for name in readers {
        compare.some_room(&Call::new(name).b1(text));
    }
}

/// Every text of a length over these bytes.
fn each_text(alphabet: &[u8], length: u32, mut to: impl FnMut(&[u8])) {
    let mut text = vec![0; length as usize];
    for number in 0..alphabet.len().pow(length) {
        let mut rest = number;
        for byte in &mut text {
            *byte = alphabet[rest % alphabet.len()];
            rest /= alphabet.len();
        }
        to(&text);
    }
}

/// Up to four bytes in every reader; five bytes in the two that see the most, and over fewer bytes in the third.
fn short(compare: &mut Comparison) {
    for length in 0..=4 {
        each_text(ALPHABET, length, |text| read(compare, &READERS, text));
    }
    each_text(ALPHABET, 5, |text| read(compare, &[SPARSE, EITHER], text));
    each_text(b"+iX1 Q", 5, |text| read(compare, &[DENSE], text));
}

/// Every byte in place of, before and behind each byte of some texts.
fn single_bytes(compare: &mut Comparison) {
    for good in ["X0", " -iy 12 Z+3\n", "XYZ", "\t+iIxz1 ", "", "i"] {
        for byte in 0..=255 {
            for place in 0..=good.len() {
                let mut text = good.as_bytes().to_vec();
                text.insert(place, byte);
                read(compare, &READERS, &text);
                if place < good.len() {
                    text.remove(place + 1);
                    read(compare, &READERS, &text);
                }
            }
        }
    }
}

fn by_chance(compare: &mut Comparison) {
    for turn in 0..120_000 {
        let from = [WIDE, DENSE_BYTES, SPARSE_BYTES][turn % 3];
        let random = &mut compare.random;
        let text: Vec<u8> = (0..4 + turn / 3 % 8).map(|_| random.pick(from)).collect();
        read(compare, &READERS, &text);
    }
}

fn some_space(random: &mut Random, least: usize) -> Vec<u8> {
    let count = least + random.below(2);
    (0..count).map(|_| random.pick(SPACES)).collect()
}

fn numeral(random: &mut Random, limit: usize) -> String {
    if random.below(24) == 0 {
        return random.pick(&NUMERALS).to_string();
    }
    let plus = random.pick(&["", "", "", "+"]);
    let zeros = random.pick(&["", "", "", "0", "000"]);
    format!("{plus}{zeros}{}", random.below(limit))
}

fn sparse_text(random: &mut Random, count: usize, limit: usize) -> Vec<u8> {
    let mut text = some_space(random, 0);
    text.extend(random.pick(&PREFIXES[..6]).bytes());
    for place in 0..count {
        text.extend(some_space(random, usize::from(place > 0)));
        text.push(random.pick(b"XYZxyz"));
        if random.below(3) == 0 {
            text.extend(some_space(random, 0));
        }
        text.extend(numeral(random, limit).bytes());
    }
    text.extend(some_space(random, 0));
    text
}

fn dense_text(random: &mut Random, length: usize) -> Vec<u8> {
    let mut text = some_space(random, 0);
    text.extend(random.pick(&PREFIXES).bytes());
    let letters: &[u8] = if random.below(2) == 0 {
        b"IXYZixyz1"
    } else {
        b"IXYZixyz"
    };
    text.extend((0..length).map(|_| random.pick(letters)));
    text.extend(some_space(random, 0));
    text
}

/// The text with one byte changed, left out or put in.
fn damaged(random: &mut Random, text: &[u8]) -> Vec<u8> {
    let mut text = text.to_vec();
    let (place, byte) = (random.below(text.len() + 1), random.pick(WIDE));
    match random.below(3) {
        0 => text.insert(place, byte),
        1 if place < text.len() => text[place] = byte,
        _ if place < text.len() => {
            text.remove(place);
        }
        _ => {}
    }
    text
}

/// Texts that are meant, and copies with one byte damaged.
fn made(compare: &mut Comparison) {
    for turn in 0..40_000 {
        let random = &mut compare.random;
        let limit = random.pick(&[3, 12, QUBITS, QUBITS, 140]);
        let count = random.pick(&[1, 2, 3, 6, 6, 20]);
        let sparse = sparse_text(random, count, limit);
        let length = random.pick(&[0, 1, 5, 20, 127, 128, 129, 130]);
        let dense = dense_text(random, length);
        let (worse, denser) = (damaged(random, &sparse), damaged(random, &dense));
        read(compare, &[SPARSE, EITHER], &sparse);
        read(compare, &[SPARSE, EITHER], &worse);
        read(compare, &[DENSE, EITHER], &dense);
        read(compare, &[DENSE, EITHER], &denser);
        if turn % 16 == 0 {
            compare.each_room(&Call::new(SPARSE).b1(&sparse));
            compare.each_room(&Call::new(DENSE).b1(&dense));
            compare.each_room(&Call::new(EITHER).b1(&dense));
        }
    }
}

/// Every qubit once, in this order.
fn all_entries(qubits: impl Iterator<Item = usize>) -> String {
    let entry = |qubit: usize| format!("{}{qubit}", char::from(b"XyZxYz"[qubit % 6]));
    qubits.map(entry).collect::<Vec<String>>().join(" ")
}

fn long(compare: &mut Comparison) {
    let letters: String = "XyzIiY1Zx".chars().cycle().take(QUBITS).collect();
    let starts = [
        all_entries(0..QUBITS),
        all_entries((0..QUBITS).rev()),
        letters,
    ];
    let ends = [
        "", "X", "I", "1", "\n", " Q", " Z64", " z 0", " Y", " 5", " X-1", " X128", "\u{85}",
    ];
    for start in &starts {
        for prefix in PREFIXES {
            for end in ends {
                read(
                    compare,
                    &READERS,
                    format!("{prefix}{start}{end}").as_bytes(),
                );
            }
        }
    }
    for count in [19, 20, 21, 100, 500, 4000, 70_000] {
        for digit in ["0", "9", "1"] {
            for end in ["", "0", "127", "128", "5 Y5", "x", "+"] {
                let text = format!("Z{}{end}", digit.repeat(count));
                read(compare, &READERS, text.as_bytes());
                let text = format!("y2  x +{}{end}", digit.repeat(count));
                read(compare, &READERS, text.as_bytes());
            }
        }
    }
    for &space in SPACES {
        let run = char::from(space).to_string().repeat(600);
        for prefix in PREFIXES {
            for middle in ["", "X0", "XyZ", "X", "Q"] {
                read(
                    compare,
                    &READERS,
                    format!("{run}{prefix}{middle}{run}").as_bytes(),
                );
                read(
                    compare,
                    &READERS,
                    format!("{prefix}{run}{middle}{run}1{run}y2").as_bytes(),
                );
            }
        }
    }
}
