//! The questions of a gate list.

use super::{QUBITS, Refusal, ask};

/// The width of a list that can be run.
pub fn list(bytes: &[u8]) -> Result<usize, Refusal> {
    let whole = bytes.len().is_multiple_of(6) && (6..=24_576).contains(&bytes.len());
    ask(whole, 16, 0)?;
    let records = bytes.as_chunks::<6>().0;
    let head = records[0];
    let width = usize::from(head[1]);
    ask(width <= QUBITS, 1, 0)?;
    ask(head[0] == 0 && head[2] == 0 && head[3] == 0, 17, 0)?;
    let mut met = vec![false; records.len()];
    let mut next = link(records, 0)?;
    while next != 0 {
        ask(!std::mem::replace(&mut met[next], true), 19, next as u64)?;
        record(&records[next], width, next as u64)?;
        next = link(records, next)?;
    }
    Ok(width)
}

fn link(records: &[[u8; 6]], place: usize) -> Result<usize, Refusal> {
    let next = usize::from(records[place][4]) + 256 * usize::from(records[place][5]);
    ask(next < records.len(), 18, place as u64)?;
    Ok(next)
}

fn record(record: &[u8; 6], width: usize, place: u64) -> Result<(), Refusal> {
    let [gate, q0, q1, zero, ..] = *record;
    let two = gate > 23;
    ask(zero == 0 && (two || q1 == 0), 17, place)?;
    ask(gate <= 37, 4, place)?;
    ask(usize::from(q0) < width, 5, place)?;
    ask(!two || usize::from(q1) < width, 5, place)?;
    ask(!two || q0 != q1, 6, place)
}
