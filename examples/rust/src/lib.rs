//! Pauli strings and Clifford tableaux over byte records, safe to call with any bytes: slices in, an answer or a refusal out.
//! What the records are, and what each number means, stands in `include/renetcleat.h`.

pub mod raw;

use std::fmt;

pub const STRING_LENGTH: usize = 129;
/// The value of [`from_clifford_rep`] where no gate has the tableau.
pub const NO_GATE: u64 = 255;

/// The bytes of a tableau's row: phase, weight, letters.
pub const fn row_length(width: usize) -> usize {
    width + 2
}

pub const fn tableau_length(width: usize) -> usize {
    1 + 2 * width * row_length(width)
}

/// The offset in a tableau of a row's weight, the number of its letters other than I. The row is q for the image of X_q, and the
/// width + q for that of Z_q.
pub const fn weight_at(width: usize, row: usize) -> usize {
    2 + row * row_length(width)
}

/// The most bytes that the line of a refusal has.
pub const REFUSAL_LINE_MOST: usize = 140;

/// A question answered with no: its number, what it is about, and for 14 and 15 the width of the tableau that was called with, the
/// larger of two, which its line tells; 0 for all others.
#[derive(Debug, Clone, Copy, PartialEq, Eq)]
pub struct Refusal {
    pub number: u64,
    pub detail: u64,
    pub width: u64,
}

/// Its line, as docs/REFUSALS.md lists them.
impl fmt::Display for Refusal {
    fn fmt(&self, f: &mut fmt::Formatter) -> fmt::Result {
        let mut line = [0; REFUSAL_LINE_MOST];
        let length = refusal_line(self.number, self.detail, self.width, &mut line);
        let length = length.map_err(|_| fmt::Error)? as usize;
        f.write_str(std::str::from_utf8(&line[..length]).map_err(|_| fmt::Error)?)
    }
}

impl std::error::Error for Refusal {}

/// The value: the count, length, flag, byte or gate, and 0 where bytes are written of which nothing is counted.
pub type Answer = Result<u64, Refusal>;

fn answer(reply: raw::Reply) -> Answer {
    answer_of(0, reply)
}

/// The answer of a call with a tableau of this width.
fn answer_of(width: u64, reply: raw::Reply) -> Answer {
    match reply.number {
        0 => Ok(reply.value),
        number => Err(Refusal {
            number,
            detail: reply.value,
            width: if matches!(number, 14 | 15) { width } else { 0 },
        }),
    }
}

fn width_of(t: &[u8]) -> u64 {
    t.first().copied().unwrap_or(0).into()
}

// Each call below is sound: a slice is valid for its length, also where it is empty, and what `&mut` lends overlaps nothing else.

/// The product of two phases.
pub fn phase_product(a: u8, b: u8) -> Answer {
    answer(unsafe { raw::rc_phase_product(a, b) })
}

/// The phase with +i and -i exchanged.
pub fn phase_conjugate(phase: u8) -> Answer {
    answer(unsafe { raw::rc_phase_conjugate(phase) })
}

/// 1 where the phase is +1 or -1, otherwise 0.
pub fn phase_is_real(phase: u8) -> Answer {
    answer(unsafe { raw::rc_phase_is_real(phase) })
}

/// The product of two letters, as 4 * phase + letter.
pub fn letter_product(a: u8, b: u8) -> Answer {
    answer(unsafe { raw::rc_letter_product(a, b) })
}

/// The phase of a string.
pub fn phase(s: &[u8]) -> Answer {
    answer(unsafe { raw::rc_phase(s.as_ptr(), s.len()) })
}

/// The letter at a qubit.
pub fn get(s: &[u8], qubit: usize) -> Answer {
    answer(unsafe { raw::rc_get(s.as_ptr(), s.len(), qubit) })
}

/// The number of qubits at which the two strings anticommute, 0 to 128.
pub fn anticommuting_places(s: &[u8], t: &[u8]) -> Answer {
    answer(unsafe { raw::rc_anticommuting_places(s.as_ptr(), s.len(), t.as_ptr(), t.len()) })
}

/// Whether the two strings commute: the number of those qubits is even.
pub fn commutes_with(s: &[u8], t: &[u8]) -> Result<bool, Refusal> {
    Ok(anticommuting_places(s, t)? % 2 == 0)
}

/// Writes the product s t; the answer is the number of places that it took: 1 + the last qubit at which either string has a letter
/// other than I, and 0 where both have only I.
pub fn mul(s: &[u8], t: &[u8], dst: &mut [u8]) -> Answer {
    answer(unsafe {
        raw::rc_mul(
            s.as_ptr(),
            s.len(),
            t.as_ptr(),
            t.len(),
            dst.as_mut_ptr(),
            dst.len(),
        )
    })
}

/// Writes the string of a phase and entries.
pub fn with_phase_and_paulis(phase: u8, entries: &[u8], dst: &mut [u8]) -> Answer {
    answer(unsafe {
        raw::rc_with_phase_and_paulis(
            phase,
            entries.as_ptr(),
            entries.len(),
            dst.as_mut_ptr(),
            dst.len(),
        )
    })
}

/// Writes the string of a sparse text, as "-i X0 z 7".
pub fn from_sparse_str(text: &[u8], dst: &mut [u8]) -> Answer {
    answer(unsafe {
        raw::rc_from_sparse_str(
            text.as_ptr().cast(),
            text.len(),
            dst.as_mut_ptr(),
            dst.len(),
        )
    })
}

/// Writes the string of a dense text, as "-iXIIIIIIZ".
pub fn from_dense_str(text: &[u8], dst: &mut [u8]) -> Answer {
    answer(unsafe {
        raw::rc_from_dense_str(
            text.as_ptr().cast(),
            text.len(),
            dst.as_mut_ptr(),
            dst.len(),
        )
    })
}

/// Writes the string of a text: sparse where it has a digit, otherwise dense.
pub fn from_str(text: &[u8], dst: &mut [u8]) -> Answer {
    answer(unsafe {
        raw::rc_from_str(
            text.as_ptr().cast(),
            text.len(),
            dst.as_mut_ptr(),
            dst.len(),
        )
    })
}

/// Writes the string's sparse text; the value is its length.
pub fn to_sparse_str(s: &[u8], dst: &mut [u8]) -> Answer {
    answer(unsafe {
        raw::rc_to_sparse_str(s.as_ptr(), s.len(), dst.as_mut_ptr().cast(), dst.len())
    })
}

/// Writes the identity of width n.
pub fn identity(n: usize, dst: &mut [u8]) -> Answer {
    answer(unsafe { raw::rc_identity(n, dst.as_mut_ptr(), dst.len()) })
}

/// The offset in t of the X row of a slot; the row has [`row_length`] bytes.
pub fn x_image(t: &[u8], slot: usize) -> Answer {
    answer_of(width_of(t), unsafe {
        raw::rc_x_image(t.as_ptr(), t.len(), slot)
    })
}

/// The offset in t of the Z row of a slot; the row has [`row_length`] bytes.
pub fn z_image(t: &[u8], slot: usize) -> Answer {
    answer_of(width_of(t), unsafe {
        raw::rc_z_image(t.as_ptr(), t.len(), slot)
    })
}

/// Puts the string s, with its weight, in the place of the X row of a slot, in t itself.
pub fn set_x_image(t: &mut [u8], slot: usize, s: &[u8]) -> Answer {
    answer_of(width_of(t), unsafe {
        raw::rc_set_x_image(t.as_mut_ptr(), t.len(), slot, s.as_ptr(), s.len())
    })
}

/// Puts the string s, with its weight, in the place of the Z row of a slot, in t itself.
pub fn set_z_image(t: &mut [u8], slot: usize, s: &[u8]) -> Answer {
    answer_of(width_of(t), unsafe {
        raw::rc_set_z_image(t.as_mut_ptr(), t.len(), slot, s.as_ptr(), s.len())
    })
}

/// Writes the string that the tableau t sends s to.
pub fn apply(t: &[u8], s: &[u8], dst: &mut [u8]) -> Answer {
    answer(unsafe {
        raw::rc_apply(
            t.as_ptr(),
            t.len(),
            s.as_ptr(),
            s.len(),
            dst.as_mut_ptr(),
            dst.len(),
        )
    })
}

/// Writes the tableau of b first, then a, in the larger of the two widths.
pub fn compose(a: &[u8], b: &[u8], dst: &mut [u8]) -> Answer {
    answer(unsafe {
        raw::rc_compose(
            a.as_ptr(),
            a.len(),
            b.as_ptr(),
            b.len(),
            dst.as_mut_ptr(),
            dst.len(),
        )
    })
}

/// Writes the string that the X row of a qubit would hold after [`compose`] of a and b, its weight left out; no tableau is made.
pub fn composed_x_image(a: &[u8], b: &[u8], qubit: usize, dst: &mut [u8]) -> Answer {
    answer_of(width_of(a).max(width_of(b)), unsafe {
        raw::rc_composed_x_image(
            a.as_ptr(),
            a.len(),
            b.as_ptr(),
            b.len(),
            qubit,
            dst.as_mut_ptr(),
            dst.len(),
        )
    })
}

/// Writes the string that the Z row of a qubit would hold after [`compose`] of a and b, its weight left out; no tableau is made.
pub fn composed_z_image(a: &[u8], b: &[u8], qubit: usize, dst: &mut [u8]) -> Answer {
    answer_of(width_of(a).max(width_of(b)), unsafe {
        raw::rc_composed_z_image(
            a.as_ptr(),
            a.len(),
            b.as_ptr(),
            b.len(),
            qubit,
            dst.as_mut_ptr(),
            dst.len(),
        )
    })
}

/// Writes the tableau in width n, or a copy where n is no larger than its width. Two tableaux send every string alike exactly when,
/// in the larger of their widths, they are the same bytes.
pub fn extended_to(t: &[u8], n: usize, dst: &mut [u8]) -> Answer {
    answer(unsafe { raw::rc_extended_to(t.as_ptr(), t.len(), n, dst.as_mut_ptr(), dst.len()) })
}

/// Writes the inverse.
pub fn inverse(t: &[u8], dst: &mut [u8]) -> Answer {
    answer(unsafe { raw::rc_inverse(t.as_ptr(), t.len(), dst.as_mut_ptr(), dst.len()) })
}

/// 1 where phases are real and images commute as the generators do, otherwise 0. It is 1 exactly when `apply` sends the product of
/// every two strings to the product of their images, phase included.
pub fn is_valid(t: &[u8]) -> Answer {
    answer(unsafe { raw::rc_is_valid(t.as_ptr(), t.len()) })
}

/// Writes the qubits that the tableau touches, rising, a byte each; the value is their count.
pub fn support_qubits(t: &[u8], dst: &mut [u8]) -> Answer {
    answer(unsafe { raw::rc_support_qubits(t.as_ptr(), t.len(), dst.as_mut_ptr(), dst.len()) })
}

/// Writes the tableau of conjugation by the string s; its phase is dropped.
pub fn from_pauli_string(s: &[u8], dst: &mut [u8]) -> Answer {
    answer(unsafe { raw::rc_from_pauli_string(s.as_ptr(), s.len(), dst.as_mut_ptr(), dst.len()) })
}

/// Writes the tableau's text, a line for each generator; the value is its length.
pub fn display(t: &[u8], dst: &mut [u8]) -> Answer {
    answer(unsafe { raw::rc_display(t.as_ptr(), t.len(), dst.as_mut_ptr().cast(), dst.len()) })
}

/// Writes one of the 24 products of H and SZ, by its index from 0 to 23, on a qubit.
pub fn single_qubit_clifford(index: usize, qubit: usize, dst: &mut [u8]) -> Answer {
    answer(unsafe { raw::rc_single_qubit_clifford(index, qubit, dst.as_mut_ptr(), dst.len()) })
}

/// Writes the gate's tableau on its qubits; q1 is not looked at for gates 0 to 23.
pub fn on_qubits(gate: u8, q0: usize, q1: usize, dst: &mut [u8]) -> Answer {
    answer(unsafe { raw::rc_on_qubits(gate, q0, q1, dst.as_mut_ptr(), dst.len()) })
}

/// Writes the tableau of a one-qubit gate.
pub fn on_qubit(gate: u8, q: usize, dst: &mut [u8]) -> Answer {
    answer(unsafe { raw::rc_on_qubit(gate, q, dst.as_mut_ptr(), dst.len()) })
}

/// Plays the gate on the tableau t, in t itself: what [`compose`] of the gate's tableau and t gives. A refusal leaves t as it was.
pub fn play(t: &mut [u8], gate: u8, q0: usize, q1: usize) -> Answer {
    answer(unsafe { raw::rc_play(t.as_mut_ptr(), t.len(), gate, q0, q1) })
}

/// The one-qubit gate that is h first, then g.
pub fn gate_compose(g: u8, h: u8) -> Answer {
    answer(unsafe { raw::rc_gate_compose(g, h) })
}

/// The gate's inverse.
pub fn gate_inverse(g: u8) -> Answer {
    answer(unsafe { raw::rc_gate_inverse(g) })
}

/// The gate of 0 to 23 whose tableau on qubit 0 this is, byte for byte, or [`NO_GATE`]: a gate is named exactly when the tableau has
/// width 1 and is valid.
pub fn from_clifford_rep(t: &[u8]) -> Answer {
    answer(unsafe { raw::rc_from_clifford_rep(t.as_ptr(), t.len()) })
}

/// Writes the tableau of all gates on the list's chain; the value is the number of steps.
#[cfg(feature = "lists")]
pub fn run(list: &[u8], dst: &mut [u8]) -> Answer {
    answer(unsafe { raw::rc_run(list.as_ptr(), list.len(), dst.as_mut_ptr(), dst.len()) })
}

/// Writes what the program writes of the list: its run's display text, or "refused N at D" and a newline; the value is its length.
#[cfg(feature = "lists")]
pub fn report(list: &[u8], out: &mut [u8]) -> Answer {
    answer(unsafe {
        raw::rc_report(
            list.as_ptr(),
            list.len(),
            out.as_mut_ptr().cast(),
            out.len(),
        )
    })
}

/// Writes the line of a refusal's number, detail and width, without a newline; the value is its length. Any three numbers have one.
pub fn refusal_line(number: u64, detail: u64, width: u64, dst: &mut [u8]) -> Answer {
    answer(unsafe {
        raw::rc_refusal_line(number, detail, width, dst.as_mut_ptr().cast(), dst.len())
    })
}
