//! Text: what is refused where, and how long written text is.

use super::{QUBITS, Questions, ask, once, row};

fn is_space(byte: u8) -> bool {
    matches!(byte, 9..=13 | 32)
}

/// Where the trimmed text starts and ends, once every byte is below 128.
fn trimmed(text: &[u8]) -> Result<(usize, usize), (u64, u64)> {
    if let Some(place) = text.iter().position(|byte| *byte >= 128) {
        return Err((8, place as u64));
    }
    let start = text.iter().position(|byte| !is_space(*byte));
    let end = text.iter().rposition(|byte| !is_space(*byte));
    Ok(start
        .zip(end)
        .map_or((0, 0), |(start, end)| (start, end + 1)))
}

/// How many bytes the prefix takes: as many as it can.
fn prefix_length(text: &[u8]) -> usize {
    match text {
        [b'+' | b'-', b'i', ..] => 2,
        [b'+' | b'-' | b'i', ..] => 1,
        _ => 0,
    }
}

/// The places of what is between white space, from one place to another.
fn tokens(text: &[u8], from: usize, to: usize) -> Vec<(usize, usize)> {
    let mut found = Vec::new();
    let mut at = from;
    while at < to {
        let end = (at..to).find(|place| is_space(text[*place])).unwrap_or(to);
        if at < end {
            found.push((at, end));
        }
        at = end + 1;
    }
    found
}

/// An optional + and digits, below 2^64.
fn numeral(text: &[u8]) -> Option<u64> {
    let digits = text.strip_prefix(b"+").unwrap_or(text);
    let all = !digits.is_empty() && digits.iter().all(u8::is_ascii_digit);
    let add = |sum: u64, digit: &u8| sum.checked_mul(10)?.checked_add(u64::from(digit - b'0'));
    if all {
        digits.iter().try_fold(0, add)
    } else {
        None
    }
}

pub fn sparse(text: &[u8]) -> Questions {
    let (start, end) = trimmed(text)?;
    let from = start + prefix_length(&text[start..end]);
    let mut rest = tokens(text, from, end).into_iter();
    let mut qubits = Vec::new();
    while let Some((letter, token_end)) = rest.next() {
        ask(b"XYZxyz".contains(&text[letter]), 9, letter as u64)?;
        let attached = (letter + 1 < token_end).then_some((letter + 1, token_end));
        let (at, to) = attached
            .or_else(|| rest.next())
            .ok_or((10, letter as u64))?;
        let index = numeral(&text[at..to]).ok_or((11, at as u64))?;
        ask(index < QUBITS as u64, 13, at as u64)?;
        qubits.push(index);
    }
    once(&qubits)
}

pub fn dense(text: &[u8]) -> Questions {
    let (start, end) = trimmed(text)?;
    let from = start + prefix_length(&text[start..end]);
    for (qubit, byte) in text[from..end].iter().enumerate() {
        let place = (from + qubit) as u64;
        ask(b"IXYZixyz1".contains(byte), 9, place)?;
        let is_letter = !b"Ii1".contains(byte);
        ask(!is_letter || qubit < QUBITS, 13, place)?;
    }
    Ok(())
}

pub fn either(text: &[u8]) -> Questions {
    if text.iter().any(u8::is_ascii_digit) {
        sparse(text)
    } else {
        dense(text)
    }
}

fn digits(number: usize) -> usize {
    number.to_string().len()
}

/// A sign, an i for the phases 2 and 3; entries with one space between, or I.
pub fn sparse_length(phase: u8, letters: &[u8]) -> usize {
    let entries: Vec<usize> = (0..letters.len())
        .filter(|qubit| letters[*qubit] != 0)
        .map(|qubit| 1 + digits(qubit))
        .collect();
    let sign = 1 + usize::from(phase > 1);
    let written = entries.iter().sum::<usize>() + entries.len().saturating_sub(1);
    sign + if entries.is_empty() { 1 } else { written }
}

/// A line for the width, and one for each generator: `  X_0 -> +Z0`.
pub fn display_length(record: &[u8], width: usize) -> usize {
    let line = |place: usize| {
        let label = "  X_ -> \n".len() + digits(place % width);
        let row = row(record, width, place);
        label + sparse_length(row[0], &row[2..])
    };
    format!("CliffordRep({width} qubits):\n").len() + (0..2 * width).map(line).sum::<usize>()
}
