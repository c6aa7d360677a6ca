//! Gates by their number.

use super::answer::{Answer, written};
use super::line::Call;
use super::records::{QUBITS, below, read_tableau, write_tableau};
use crate::clifford::Clifford;
use crate::clifford_rep::CliffordRep;

pub const ONE_QUBIT_GATES: usize = 24;
pub const GATES: usize = 38;
pub const NO_GATE: u64 = 255;

/// The gate of a number below the limit: the number is the Rust's own.
pub fn gate_of(number: u64, limit: usize) -> Option<Clifford> {
    let gate = Clifford::all()[below(number, limit)?];
    assert_eq!(u64::from(gate as u8), number);
    Some(gate)
}

fn of_gate(gate: Clifford) -> Answer {
    Answer::Value((gate as u8).into())
}

fn of_tableau(tableau: &CliffordRep) -> Option<Answer> {
    Some(written(write_tableau(tableau)?))
}

/// Qubits below the limit, and different where two are meant. The second of a one-qubit gate
/// is handed to the Rust as it is.
pub fn qubits_of(gate: Clifford, q0: u64, q1: u64, limit: usize) -> Option<(usize, usize)> {
    let q0 = below(q0, limit)?;
    if gate.is_1q() {
        return Some((q0, usize::try_from(q1).ok()?));
    }
    let q1 = below(q1, limit)?;
    (q0 != q1).then_some((q0, q1))
}

fn on_qubits(call: &Call) -> Option<Answer> {
    let gate = gate_of(call.n[0], GATES)?;
    let (q0, q1) = qubits_of(gate, call.n[1], call.n[2], QUBITS)?;
    of_tableau(&gate.on_qubits(q0, q1))
}

fn on_qubit(call: &Call) -> Option<Answer> {
    of_tableau(&gate_of(call.n[0], ONE_QUBIT_GATES)?.on_qubit(below(call.n[1], QUBITS)?))
}

/// The gate's tableau composed on the left of the destination.
fn play(call: &Call) -> Option<Answer> {
    let tableau = read_tableau(&call.d)?;
    let gate = gate_of(call.n[0], GATES)?;
    let (q0, q1) = qubits_of(gate, call.n[1], call.n[2], tableau.num_qubits())?;
    of_tableau(&gate.on_qubits(q0, q1).compose(&tableau))
}

fn single_qubit_clifford(call: &Call) -> Option<Answer> {
    let index = below(call.n[0], ONE_QUBIT_GATES)?;
    of_tableau(&CliffordRep::single_qubit_cliffords(below(call.n[1], QUBITS)?)[index])
}

fn compose(call: &Call) -> Option<Answer> {
    let left = gate_of(call.n[0], ONE_QUBIT_GATES)?;
    Some(of_gate(left.compose(gate_of(call.n[1], ONE_QUBIT_GATES)?)))
}

/// Compared over valid tableaux. At other widths than 1 there is no name either way, and the Rust's `is_valid` takes long.
fn from_clifford_rep(call: &Call) -> Option<Answer> {
    let tableau = read_tableau(&call.b1)?;
    if tableau.num_qubits() == 1 && !tableau.is_valid() {
        return None;
    }
    let found = Clifford::from_clifford_rep(&tableau);
    Some(found.map_or(Answer::Value(NO_GATE), of_gate))
}

/// Outer nothing: no name of this file. Inner nothing: outside the compared domain.
pub fn answer(call: &Call) -> Option<Option<Answer>> {
    let found = match call.name.as_str() {
        "single_qubit_clifford" => single_qubit_clifford(call),
        "on_qubits" => on_qubits(call),
        "on_qubit" => on_qubit(call),
        "play" => play(call),
        "gate_compose" => compose(call),
        "gate_inverse" => gate_of(call.n[0], GATES).map(|gate| of_gate(gate.inverse())),
        "from_clifford_rep" => from_clifford_rep(call),
        _ => return None,
    };
    Some(found)
}
