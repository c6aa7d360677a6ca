//! Records to ask about.

use crate::model::{QUBITS, STRING, row_start, tableau_length};
use oracle::driver::records::put_weights;
use oracle::vectors::Random;

/// Numbers at and around the limits, and far above them.
pub const EDGES: [u64; 12] = [
    0,
    1,
    126,
    127,
    128,
    129,
    255,
    256,
    383,
    1 << 32,
    1 << 63,
    u64::MAX,
];
/// Bytes that are no phase and no letter.
pub const BAD: [u8; 8] = [4, 5, 7, 8, 64, 127, 128, 255];

/// A string with these letters.
pub fn string(phase: u8, letters: &[(usize, u8)]) -> Vec<u8> {
    let mut record = vec![0; STRING];
    record[0] = phase;
    for (qubit, letter) in letters {
        record[1 + qubit] = *letter;
    }
    record
}

/// Every record of width 1.
pub fn width_one() -> Vec<[u8; 7]> {
    let digits = |number: u8| [6, 4, 2, 0].map(|bits| number >> bits & 3);
    let record = |number: u8| {
        let [x, xl, z, zl] = digits(number);
        [1, x, u8::from(xl > 0), xl, z, u8::from(zl > 0), zl]
    };
    (0..=255).map(record).collect()
}

pub fn identity(width: usize) -> Vec<u8> {
    let mut record = vec![0; tableau_length(width)];
    record[0] = width as u8;
    for qubit in 0..width {
        for (row, letter) in [(qubit, 1), (width + qubit, 2)] {
            let start = row_start(width, row);
            record[start + 1] = 1;
            record[start + 2 + qubit] = letter;
        }
    }
    record
}

/// Any string: full, sparse, or with letters below a limit alone.
pub fn any_string(random: &mut Random, limit: usize) -> Vec<u8> {
    let phase = random.below(4) as u8;
    match random.below(3) {
        0 => random.full_string(phase),
        1 => {
            let count = random.below(6);
            random.sparse_string(phase, count)
        }
        _ => {
            let letters: Vec<(usize, u8)> =
                (0..limit).map(|q| (q, random.below(4) as u8)).collect();
            string(phase, &letters)
        }
    }
}

/// H, S or CX after the rows' own images: the updates of Aaronson and Gottesman. Weights are left as they are.
fn gate_on_rows(random: &mut Random, record: &mut [u8], width: usize) {
    let (q, other) = (random.below(width), random.below(width));
    let gate = random.below(if width == 1 { 2 } else { 3 });
    let other = if other == q { (q + 1) % width } else { other };
    for row in record[1..].chunks_mut(width + 2) {
        let [phase, _, letters @ ..] = row else {
            panic!("a row of a phase, a weight and letters");
        };
        let (letter, second) = (letters[q], letters[other]);
        let minus = match gate {
            0 | 1 => letter == 3,
            _ => letter & 1 == 1 && second & 2 == 2 && (second & 1) == letter >> 1,
        };
        *phase ^= u8::from(minus);
        match gate {
            0 => letters[q] = letter >> 1 | (letter & 1) << 1,
            1 => letters[q] = letter ^ (letter & 1) << 1,
            _ => {
                letters[other] = second ^ letter & 1;
                letters[q] = letter ^ second & 2;
            }
        }
    }
}

/// A valid tableau of random gates; `count` of 8 for each qubit fills it.
pub fn valid_tableau(random: &mut Random, width: usize, count: usize) -> Vec<u8> {
    let mut record = identity(width);
    if width > 0 {
        for _ in 0..count {
            gate_on_rows(random, &mut record, width);
        }
    }
    put_weights(&mut record);
    record
}

/// One byte of a string changed to one that it may not hold.
fn spoiled_string(random: &mut Random, record: &[u8]) -> Vec<u8> {
    let mut record = record.to_vec();
    let place = random.below(record.len());
    record[place] = random.pick(&BAD);
    record
}

/// One phase or letter of a tableau changed to a byte that is none; width 0 has none.
fn spoiled(random: &mut Random, record: &[u8]) -> Vec<u8> {
    let mut record = record.to_vec();
    if record[0] > 0 {
        let place = random.place(&record);
        record[place] = random.pick(&BAD);
    }
    record
}

/// One weight of a tableau changed, most often by 1; width 0 has none.
fn misweighed(random: &mut Random, record: &[u8]) -> Vec<u8> {
    let mut record = record.to_vec();
    let width = usize::from(record[0]);
    if width > 0 {
        let place = row_start(width, random.below(2 * width)) + 1;
        let by = match random.below(4) {
            0 | 1 => 1,
            2 => 255,
            _ => 1 + random.below(255) as u8,
        };
        record[place] = record[place].wrapping_add(by);
    }
    record
}

/// The rows of a tableau without their weights.
fn unweighed(record: &[u8]) -> Vec<u8> {
    let width = usize::from(record[0]);
    let rows = record[1..].chunks(width + 2);
    let rows = rows.flat_map(|row| row[..1].iter().chain(&row[2..]));
    record[..1].iter().chain(rows).copied().collect()
}

/// One phase or letter changed to another, and the weights true.
pub fn damaged(random: &mut Random, record: &[u8]) -> Vec<u8> {
    if record.len() > 1 {
        random.damaged(record)
    } else {
        record.to_vec()
    }
}

/// A tableau of this width: a valid one, one with a byte changed, or one of any bytes.
pub fn some_tableau(random: &mut Random, width: usize) -> Vec<u8> {
    match random.below(3) {
        0 => valid_tableau(random, width, 6 * width),
        1 => {
            let valid = valid_tableau(random, width, 6 * width);
            damaged(random, &valid)
        }
        _ => random.any_tableau(width),
    }
}

pub fn longer(record: &[u8]) -> Vec<u8> {
    [record, &[0]].concat()
}

pub fn shorter(record: &[u8]) -> Vec<u8> {
    record[..record.len() - 1].to_vec()
}

/// The same bytes under another width.
pub fn other_width(random: &mut Random, record: &[u8]) -> Vec<u8> {
    let mut record = record.to_vec();
    record[0] = match random.below(4) {
        0 => record[0].wrapping_sub(1),
        1 => record[0] + 1,
        2 => random.pick(&[0, 127, 128, 129, 255]),
        _ => random.number() as u8,
    };
    record
}

/// A string that is refused, for its length or for a byte.
pub fn bad_string(random: &mut Random) -> Vec<u8> {
    let record = any_string(random, QUBITS);
    match random.below(5) {
        0 => longer(&record),
        1 => shorter(&record),
        2 => Vec::new(),
        3 => {
            let once = spoiled_string(random, &record);
            spoiled_string(random, &once)
        }
        _ => spoiled_string(random, &record),
    }
}

/// Copies that are refused, for their width, their length, a byte or a weight, or for two of these. Some may not be: width 0 has no
/// row to spoil, and a weight may be changed back.
pub fn bad_tableaux(random: &mut Random, record: &[u8]) -> Vec<Vec<u8>> {
    let once = spoiled(random, record);
    let other = damaged(random, record);
    let false_weight = misweighed(random, record);
    vec![
        Vec::new(),
        longer(record),
        shorter(record),
        unweighed(record),
        other_width(random, record),
        spoiled(random, &longer(record)),
        misweighed(random, &longer(record)),
        spoiled(random, &once),
        misweighed(random, &once),
        once,
        misweighed(random, &false_weight),
        misweighed(random, &other),
        false_weight,
    ]
}
