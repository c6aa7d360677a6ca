//! The scope document's questions on entry, written a second time and plainly: which refusal a call meets, or how many bytes of its
//! destination the answer takes. It knows lengths and numbers, which letters differ, how many a row has, which phases are real, and
//! nothing of products. The lines of refusals are those of docs/REFUSALS.md.

mod list;
mod refusals;
mod text;

pub use list::list;
pub use refusals::line as refusal_line;

use oracle::driver::Call;
use oracle::driver::gates::NO_GATE;

pub const QUBITS: usize = 128;
pub const STRING: usize = 129;

/// A refusal's number and detail.
pub type Refusal = (u64, u64);
pub type Questions = Result<(), Refusal>;

/// Two rows for each qubit, each of a phase, a weight and a letter for each qubit.
pub fn tableau_length(width: usize) -> usize {
    1 + 2 * width * (width + 2)
}

/// Where a row starts. Its weight is the next byte.
pub fn row_start(width: usize, place: usize) -> usize {
    1 + place * (width + 2)
}

/// The refusal, or how many bytes are written; the room is asked last.
pub fn judge(call: &Call) -> Result<usize, Refusal> {
    let needs = needs(call)?;
    ask(needs <= call.d.len(), 7, 0)?;
    Ok(needs)
}

/// The answer's value, where the model knows it too: the number of places with two different letters other than I; the number of
/// places without those at the end at which both strings have I; no gate, where the tableau has another width than 1 or is not valid.
pub fn value(call: &Call) -> Option<u64> {
    let letters = || call.b1[1..].iter().zip(&call.b2[1..]);
    let places = match call.name.as_str() {
        "anticommuting_places" => letters()
            .filter(|(left, right)| left != right && **left > 0 && **right > 0)
            .count(),
        "mul" => {
            let behind = letters().rev().take_while(|both| *both == (&0, &0));
            QUBITS - behind.count()
        }
        "from_clifford_rep" if !valid_of_width_one(&call.b1) => return Some(NO_GATE),
        _ => return None,
    };
    Some(places as u64)
}

/// Real phases, and two different letters other than I.
fn valid_of_width_one(record: &[u8]) -> bool {
    matches!(record, [1, 0 | 1, _, x, 0 | 1, _, z] if x != z && *x > 0 && *z > 0)
}

fn ask(yes: bool, number: u64, detail: u64) -> Questions {
    if yes { Ok(()) } else { Err((number, detail)) }
}

/// How many bytes the answer takes in a destination that has room for it.
pub fn needs(call: &Call) -> Result<usize, Refusal> {
    let [n1, n2, n3] = call.n;
    match call.name.as_str() {
        "phase_product" | "letter_product" => small(n1).and(small(n2)).map(|()| 0),
        "phase_conjugate" | "phase_is_real" => small(n1).map(|()| 0),
        "phase" => string(&call.b1).map(|()| 0),
        "get" => {
            string(&call.b1)?;
            qubit(n1).map(|()| 0)
        }
        "anticommuting_places" => strings(call).map(|()| 0),
        "mul" => strings(call).map(|()| STRING),
        "with_phase_and_paulis" => entries(n1, &call.b1).map(|()| STRING),
        "from_sparse_str" => text::sparse(&call.b1).map(|()| STRING),
        "from_dense_str" => text::dense(&call.b1).map(|()| STRING),
        "from_str" => text::either(&call.b1).map(|()| STRING),
        "to_sparse_str" => {
            string(&call.b1).map(|()| text::sparse_length(call.b1[0], &call.b1[1..]))
        }
        "identity" => width(n1).map(tableau_length),
        "x_image" | "z_image" => {
            let width = tableau(&call.b1)?;
            ask(n1 < width as u64, 15, n1).map(|()| 0)
        }
        "set_x_image" | "set_z_image" => set_image(call),
        "apply" => {
            tableau(&call.b1)?;
            string(&call.b2).map(|()| STRING)
        }
        "compose" => {
            let (left, right) = (tableau(&call.b1)?, tableau(&call.b2)?);
            Ok(tableau_length(left.max(right)))
        }
        "composed_x_image" | "composed_z_image" => {
            let (left, right) = (tableau(&call.b1)?, tableau(&call.b2)?);
            ask(n1 < left.max(right) as u64, 15, n1).map(|()| STRING)
        }
        "extended_to" => {
            let own = tableau(&call.b1)?;
            Ok(tableau_length(own.max(width(n1)?)))
        }
        "inverse" => tableau(&call.b1).map(tableau_length),
        "is_valid" | "from_clifford_rep" => tableau(&call.b1).map(|_| 0),
        "support_qubits" => tableau(&call.b1).map(|width| support(&call.b1, width)),
        "from_pauli_string" => string(&call.b1).map(|()| string_tableau(&call.b1)),
        "display" => tableau(&call.b1).map(|width| text::display_length(&call.b1, width)),
        "single_qubit_clifford" | "on_qubit" => {
            gate(n1, 23)?;
            qubit(n2).map(|()| tableau_length(n2 as usize + 1))
        }
        "on_qubits" => on_qubits(n1, n2, n3),
        "play" => play(call),
        "gate_compose" => gate(n1, 23).and(gate(n2, 23)).map(|()| 0),
        "gate_inverse" => gate(n1, 37).map(|()| 0),
        "run" => list(&call.b1).map(tableau_length),
        "refusal_line" => Ok(refusal_line(n1, n2, n3).len()),
        // Its text may be that of a refusal; the length comes with the text.
        "report" => Ok(0),
        name => panic!("{name} has no questions"),
    }
}

/// A phase or a letter given by itself.
fn small(byte: u64) -> Questions {
    ask(byte <= 3, 3, 0)
}

/// Phases and letters that stand at an offset.
fn small_bytes(bytes: &[u8], offset: usize) -> Questions {
    match bytes.iter().position(|byte| *byte > 3) {
        Some(place) => Err((3, (offset + place) as u64)),
        None => Ok(()),
    }
}

fn qubit(number: u64) -> Questions {
    ask(number < QUBITS as u64, 5, number)
}

fn gate(number: u64, most: u64) -> Questions {
    ask(number <= most, 4, 0)
}

fn width(number: u64) -> Result<usize, Refusal> {
    ask(number <= QUBITS as u64, 1, 0)?;
    Ok(number as usize)
}

fn string(bytes: &[u8]) -> Questions {
    ask(bytes.len() == STRING, 2, 0)?;
    small_bytes(bytes, 0)
}

fn strings(call: &Call) -> Questions {
    string(&call.b1)?;
    string(&call.b2)
}

/// The width of a tableau that passes: every phase and letter is asked before the first weight.
fn tableau(bytes: &[u8]) -> Result<usize, Refusal> {
    let Some(first) = bytes.first() else {
        return Err((2, 0));
    };
    let width = width(u64::from(*first))?;
    ask(bytes.len() == tableau_length(width), 2, 0)?;
    for place in 0..2 * width {
        let (row, start) = (row(bytes, width, place), row_start(width, place));
        small_bytes(&row[..1], start)?;
        small_bytes(&row[2..], start + 2)?;
    }
    for place in 0..2 * width {
        let row = row(bytes, width, place);
        let letters = row[2..].iter().filter(|letter| **letter != 0).count();
        let offset = row_start(width, place) + 1;
        ask(usize::from(row[1]) == letters, 24, offset as u64)?;
    }
    Ok(width)
}

/// Question by question over all entries.
fn entries(phase: u64, bytes: &[u8]) -> Questions {
    small(phase)?;
    ask(bytes.len().is_multiple_of(2), 2, 0)?;
    for (place, letter) in bytes.iter().enumerate().step_by(2) {
        ask(*letter <= 3, 3, place as u64)?;
    }
    let qubits: Vec<u64> = bytes
        .iter()
        .skip(1)
        .step_by(2)
        .map(|q| (*q).into())
        .collect();
    qubits.iter().try_for_each(|q| qubit(*q))?;
    once(&qubits)
}

/// Is each qubit named once? The smallest that is not.
fn once(qubits: &[u64]) -> Questions {
    let mut sorted = qubits.to_vec();
    sorted.sort_unstable();
    match sorted.windows(2).find(|pair| pair[0] == pair[1]) {
        Some(pair) => Err((12, pair[0])),
        None => Ok(()),
    }
}

/// The image before the slot.
fn set_image(call: &Call) -> Result<usize, Refusal> {
    let width = tableau(&call.d)?;
    string(&call.b1)?;
    if let Some(outside) = (width..QUBITS).find(|qubit| call.b1[1 + qubit] != 0) {
        return Err((14, outside as u64));
    }
    ask(call.n[0] < width as u64, 15, call.n[0])?;
    Ok(call.d.len())
}

fn on_qubits(number: u64, q0: u64, q1: u64) -> Result<usize, Refusal> {
    gate(number, 37)?;
    qubit(q0)?;
    if number <= 23 {
        return Ok(tableau_length(q0 as usize + 1));
    }
    qubit(q1)?;
    ask(q0 != q1, 6, q0)?;
    Ok(tableau_length(q0.max(q1) as usize + 1))
}

/// The tableau in the destination, the gate, and its qubits, which the width bounds.
fn play(call: &Call) -> Result<usize, Refusal> {
    let width = tableau(&call.d)? as u64;
    let [number, q0, q1] = call.n;
    gate(number, 37)?;
    ask(q0 < width, 5, q0)?;
    if number > 23 {
        ask(q1 < width, 5, q1)?;
        ask(q0 != q1, 6, q0)?;
    }
    Ok(call.d.len())
}

/// Width 1 for no letters.
fn string_tableau(record: &[u8]) -> usize {
    let last = record[1..].iter().rposition(|letter| *letter != 0);
    tableau_length(last.map_or(1, |qubit| qubit + 1))
}

/// A phase, a weight and the letters.
pub fn row(record: &[u8], width: usize, place: usize) -> &[u8] {
    &record[row_start(width, place)..row_start(width, place + 1)]
}

/// How many qubits: each whose rows are changed, and each with a letter in such a row.
fn support(record: &[u8], width: usize) -> usize {
    let plain = |row: &[u8], qubit: usize, letter: u8| {
        row[0] == 0 && (0..width).all(|q| row[2 + q] == if q == qubit { letter } else { 0 })
    };
    let mut touched = vec![false; width];
    for qubit in 0..width {
        let (x, z) = (row(record, width, qubit), row(record, width, width + qubit));
        if plain(x, qubit, 1) && plain(z, qubit, 2) {
            continue;
        }
        for (q, place) in touched.iter_mut().enumerate() {
            *place |= q == qubit || x[2 + q] != 0 || z[2 + q] != 0;
        }
    }
    touched.into_iter().filter(|yes| *yes).count()
}
