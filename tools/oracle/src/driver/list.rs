//! Gate lists: the same `compose` calls made in the Rust.

use super::answer::{Answer, counted};
use super::gates::{GATES, gate_of, qubits_of};
use super::line::Call;
use super::records::{QUBITS, write_tableau};
use crate::clifford::Clifford;
use crate::clifford_rep::CliffordRep;

const RECORD: usize = 6;
const RECORDS: usize = 4096;

/// A gate on its qubits.
type Step = (Clifford, usize, usize);

fn step_of(record: &[u8; RECORD], width: usize) -> Option<Step> {
    let gate = gate_of(record[0].into(), GATES)?;
    if record[3] != 0 || (gate.is_1q() && record[2] != 0) {
        return None;
    }
    let (q0, q1) = qubits_of(gate, record[1].into(), record[2].into(), width)?;
    Some((gate, q0, q1))
}

/// The width and the gates along the chain of a well-formed list, nothing otherwise.
fn steps_of(list: &[u8]) -> Option<(usize, Vec<Step>)> {
    let (records, rest) = list.as_chunks::<RECORD>();
    if !rest.is_empty() || records.is_empty() || records.len() > RECORDS {
        return None;
    }
    let head = records[0];
    let width = usize::from(head[1]);
    if width > QUBITS || head[0] != 0 || head[2] != 0 || head[3] != 0 {
        return None;
    }
    let mut steps = Vec::new();
    let mut met = vec![false; records.len()];
    let mut next = usize::from(u16::from_le_bytes([head[4], head[5]]));
    while next != 0 {
        let record = records.get(next)?;
        if std::mem::replace(&mut met[next], true) {
            return None;
        }
        steps.push(step_of(record, width)?);
        next = usize::from(u16::from_le_bytes([record[4], record[5]]));
    }
    Some((width, steps))
}

/// The run of a well-formed list, and its steps.
fn played(list: &[u8]) -> Option<(CliffordRep, usize)> {
    let (width, steps) = steps_of(list)?;
    let mut record = CliffordRep::identity(width);
    for (gate, q0, q1) in &steps {
        record = gate.on_qubits(*q0, *q1).compose(&record);
    }
    Some((record, steps.len()))
}

fn run(call: &Call) -> Option<Answer> {
    let (record, steps) = played(&call.b1)?;
    Some(Answer::Written(steps as u64, write_tableau(&record)?))
}

fn report(call: &Call) -> Option<Answer> {
    let (record, _) = played(&call.b1)?;
    Some(counted(record.to_string().into_bytes()))
}

/// Outer nothing: no name of this file. Inner nothing: outside the compared domain.
pub fn answer(call: &Call) -> Option<Option<Answer>> {
    match call.name.as_str() {
        "run" => Some(run(call)),
        "report" => Some(report(call)),
        _ => None,
    }
}
