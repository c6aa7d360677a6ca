//! A call through the C interface, on buffers with marked bytes before and behind them.

use oracle::driver::Call;
use renetcleat::raw::{self, Reply};

/// Marked bytes on either side of a lent buffer.
const MARGIN: usize = 32;

fn mark(place: usize) -> u8 {
    0xc5 ^ (place as u8).wrapping_mul(29)
}

/// Bytes of a call between two margins, at any alignment.
struct Lent {
    bytes: Vec<u8>,
    start: usize,
    length: usize,
}

impl Lent {
    fn new(payload: &[u8], shift: usize) -> Lent {
        let (start, length) = (MARGIN + shift % 16, payload.len());
        let mut bytes: Vec<u8> = (0..start).map(mark).collect();
        bytes.extend_from_slice(payload);
        bytes.extend((start + length..start + length + MARGIN).map(mark));
        Lent {
            bytes,
            start,
            length,
        }
    }

    fn pointer(&mut self) -> *mut u8 {
        self.bytes[self.start..].as_mut_ptr()
    }

    fn payload(&self) -> &[u8] {
        &self.bytes[self.start..self.start + self.length]
    }

    fn margins_kept(&self) -> bool {
        let (before, rest) = self.bytes.split_at(self.start);
        let behind = &rest[self.length..];
        let kept = |bytes: &[u8], from: usize| {
            bytes
                .iter()
                .enumerate()
                .all(|(place, byte)| *byte == mark(from + place))
        };
        kept(before, 0) && kept(behind, self.start + self.length)
    }
}

/// What came of a call: the reply, the destination, and whether all else that was lent is as before.
pub struct Outcome {
    pub reply: Reply,
    pub after: Vec<u8>,
    pub kept: bool,
}

/// The call of a name that the oracle's line format knows; `shift` moves the buffers' alignment.
pub fn call(call: &Call, shift: usize) -> Outcome {
    let mut b1 = Lent::new(&call.b1, shift);
    let mut b2 = Lent::new(&call.b2, shift / 3);
    let mut d = Lent::new(&call.d, shift / 5);
    let reply = reply(call, &mut b1, &mut b2, &mut d);
    let unchanged = b1.payload() == call.b1 && b2.payload() == call.b2;
    let margins = b1.margins_kept() && b2.margins_kept() && d.margins_kept();
    Outcome {
        reply,
        after: d.payload().to_vec(),
        kept: unchanged && margins,
    }
}

fn byte(number: u64) -> u8 {
    u8::try_from(number).expect("a number of one byte")
}

fn size(number: u64) -> usize {
    usize::try_from(number).expect("a machine of 64 bits")
}

fn reply(call: &Call, b1: &mut Lent, b2: &mut Lent, d: &mut Lent) -> Reply {
    let [n1, n2, n3] = call.n;
    let (p1, l1) = (b1.pointer().cast_const(), b1.length);
    // Buffers that are only read may be the same one.
    let p2 = if call.b1 == call.b2 {
        p1
    } else {
        b2.pointer().cast_const()
    };
    let l2 = b2.length;
    let (pd, ld) = (d.pointer(), d.length);
    // Each pointer is that of a buffer of its own, valid for its length.
    unsafe {
        match call.name.as_str() {
            "phase_product" => raw::rc_phase_product(byte(n1), byte(n2)),
            "phase_conjugate" => raw::rc_phase_conjugate(byte(n1)),
            "phase_is_real" => raw::rc_phase_is_real(byte(n1)),
            "letter_product" => raw::rc_letter_product(byte(n1), byte(n2)),
            "phase" => raw::rc_phase(p1, l1),
            "get" => raw::rc_get(p1, l1, size(n1)),
            "anticommuting_places" => raw::rc_anticommuting_places(p1, l1, p2, l2),
            "mul" => raw::rc_mul(p1, l1, p2, l2, pd, ld),
            "with_phase_and_paulis" => raw::rc_with_phase_and_paulis(byte(n1), p1, l1, pd, ld),
            "from_sparse_str" => raw::rc_from_sparse_str(p1.cast(), l1, pd, ld),
            "from_dense_str" => raw::rc_from_dense_str(p1.cast(), l1, pd, ld),
            "from_str" => raw::rc_from_str(p1.cast(), l1, pd, ld),
            "to_sparse_str" => raw::rc_to_sparse_str(p1, l1, pd.cast(), ld),
            "identity" => raw::rc_identity(size(n1), pd, ld),
            "x_image" => raw::rc_x_image(p1, l1, size(n1)),
            "z_image" => raw::rc_z_image(p1, l1, size(n1)),
            "set_x_image" => raw::rc_set_x_image(pd, ld, size(n1), p1, l1),
            "set_z_image" => raw::rc_set_z_image(pd, ld, size(n1), p1, l1),
            "apply" => raw::rc_apply(p1, l1, p2, l2, pd, ld),
            "compose" => raw::rc_compose(p1, l1, p2, l2, pd, ld),
            "composed_x_image" => raw::rc_composed_x_image(p1, l1, p2, l2, size(n1), pd, ld),
            "composed_z_image" => raw::rc_composed_z_image(p1, l1, p2, l2, size(n1), pd, ld),
            "extended_to" => raw::rc_extended_to(p1, l1, size(n1), pd, ld),
            "inverse" => raw::rc_inverse(p1, l1, pd, ld),
            "is_valid" => raw::rc_is_valid(p1, l1),
            "support_qubits" => raw::rc_support_qubits(p1, l1, pd, ld),
            "from_pauli_string" => raw::rc_from_pauli_string(p1, l1, pd, ld),
            "display" => raw::rc_display(p1, l1, pd.cast(), ld),
            "single_qubit_clifford" => raw::rc_single_qubit_clifford(size(n1), size(n2), pd, ld),
            "on_qubits" => raw::rc_on_qubits(byte(n1), size(n2), size(n3), pd, ld),
            "on_qubit" => raw::rc_on_qubit(byte(n1), size(n2), pd, ld),
            "play" => raw::rc_play(pd, ld, byte(n1), size(n2), size(n3)),
            "gate_compose" => raw::rc_gate_compose(byte(n1), byte(n2)),
            "gate_inverse" => raw::rc_gate_inverse(byte(n1)),
            "from_clifford_rep" => raw::rc_from_clifford_rep(p1, l1),
            "refusal_line" => raw::rc_refusal_line(n1, n2, n3, pd.cast(), ld),
            #[cfg(feature = "lists")]
            "run" => raw::rc_run(p1, l1, pd, ld),
            #[cfg(feature = "lists")]
            "report" => raw::rc_report(p1, l1, pd.cast(), ld),
            name => panic!("{name} is not called"),
        }
    }
}
