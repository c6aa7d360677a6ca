//! Gates by number.

use crate::comparison::Comparison;
use crate::inputs::{EDGES, bad_tableaux, damaged, valid_tableau};
use oracle::driver::Call;

const ONE_QUBIT_GATES: u64 = 24;
const GATES: u64 = 38;
/// The first qubits and the last one.
const QUBITS: [u64; 9] = [0, 1, 2, 3, 4, 5, 6, 7, 127];

pub fn all(compare: &mut Comparison) {
    by_number(compare);
    two_qubits(compare);
    any_qubits(compare);
    one_qubit(compare);
    refused(compare);
    playing(compare);
}

/// All 24 x 24 products, and every other pair of bytes.
fn by_number(compare: &mut Comparison) {
    for gate in 0..256 {
        compare.case(&Call::new("gate_inverse").n(&[gate]));
        for other in 0..256 {
            compare.case(&Call::new("gate_compose").n(&[gate, other]));
        }
    }
}

/// Every gate on every two of the qubits, in both orders; the second is not looked at for the first 24.
fn two_qubits(compare: &mut Comparison) {
    for gate in 0..GATES {
        for q0 in QUBITS {
            for q1 in QUBITS {
                let call = Call::new("on_qubits").n(&[gate, q0, q1]);
                if q0.max(q1) < 8 {
                    compare.each_room(&call);
                } else {
                    compare.some_room(&call);
                }
            }
        }
    }
}

fn one_qubit(compare: &mut Comparison) {
    for gate in 0..ONE_QUBIT_GATES {
        for qubit in QUBITS {
            for name in ["on_qubit", "single_qubit_clifford"] {
                compare.each_room(&Call::new(name).n(&[gate, qubit]));
            }
        }
    }
    for qubit in 8..127 {
        let gate = compare.random.below(24) as u64;
        for name in ["on_qubit", "single_qubit_clifford"] {
            compare.some_room(&Call::new(name).n(&[gate, qubit]));
        }
    }
}

/// Two-qubit gates on any two qubits.
fn any_qubits(compare: &mut Comparison) {
    for _ in 0..2_000 {
        let random = &mut compare.random;
        let [gate, q0, q1] = [GATES as usize, 128, 128].map(|limit| random.below(limit) as u64);
        compare.some_room(&Call::new("on_qubits").n(&[gate, q0, q1]));
    }
}

/// Gates and qubits at and above their limits, in every order.
fn refused(compare: &mut Comparison) {
    for gate in [0, 4, 23, 24, 37, 38, 39, 128, 255] {
        for q0 in EDGES {
            for name in ["on_qubit", "single_qubit_clifford"] {
                if !(2..=127).contains(&q0) {
                    compare.each_room(&Call::new(name).n(&[gate, q0]));
                }
            }
            for q1 in EDGES {
                compare.some_room(&Call::new("on_qubits").n(&[gate, q0, q1]));
            }
        }
    }
    for index in EDGES {
        compare.some_room(&Call::new("single_qubit_clifford").n(&[index, 1]));
    }
}

/// Every gate on tableaux of every width up to 8, of some up to 64, and of the widest.
fn playing(compare: &mut Comparison) {
    for width in 0..=8 {
        for _ in 0..40 {
            play_on(compare, width, GATES as usize + 2);
        }
    }
    for width in [9, 16, 31, 64] {
        play_on(compare, width, GATES as usize);
    }
    for width in [127, 128] {
        play_on(compare, width, 3);
    }
    play_on_bad_bytes(compare);
}

/// A valid tableau, one with a byte changed, one of any bytes, and refused ones; so many gates on each.
fn play_on(compare: &mut Comparison, width: usize, gates: usize) {
    let random = &mut compare.random;
    let valid = valid_tableau(random, width, 4 * width);
    let other = damaged(random, &valid);
    let any = random.any_tableau(width);
    let bad = bad_tableaux(random, &valid);
    let first = random.below(GATES as usize + 2);
    for turn in 0..gates {
        let gate = ((first + turn) % (GATES as usize + 2)) as u64;
        for record in [&valid, &other, &any] {
            play_gate(compare, record, gate);
        }
    }
    for record in &bad {
        play_gate(compare, record, first as u64);
    }
}

/// Qubits inside the width, the same one twice, and at and around the width and the limits.
fn play_gate(compare: &mut Comparison, record: &[u8], gate: u64) {
    let width = u64::from(record.first().copied().unwrap_or(0));
    let random = &mut compare.random;
    let q0 = random.below(width.max(1) as usize) as u64;
    let q1 = random.below(width.max(1) as usize) as u64;
    let edge = random.pick(&EDGES);
    let pairs = [
        (q0, q1),
        (q1, q1),
        (width.wrapping_sub(1), 0),
        (width, q1),
        (q0, width),
        (width, width),
        (width + 1, width),
        (q0, edge),
        (edge, q1),
    ];
    for (q0, q1) in pairs {
        compare.case(&Call::new("play").d(record).n(&[gate, q0, q1]));
    }
}

/// Bytes above 3, and those beside the right one, at every offset of small records.
fn play_on_bad_bytes(compare: &mut Comparison) {
    for width in 1..=4 {
        let good = valid_tableau(&mut compare.random, width, 8 * width);
        for place in 1..good.len() {
            let right = good[place];
            for byte in [4, 255, right.wrapping_sub(1), right + 1] {
                let mut record = good.clone();
                record[place] = byte;
                for gate in [4, 24, 38] {
                    play_gate(compare, &record, gate);
                }
            }
        }
    }
}
