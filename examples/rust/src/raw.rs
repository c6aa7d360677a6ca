//! The declarations of `include/renetcleat.h`.

use std::ffi::c_char;

/// Number 0 and a value, or a refusal's number and its detail.
#[repr(C)]
#[derive(Debug, Clone, Copy, PartialEq, Eq)]
pub struct Reply {
    pub number: u64,
    pub value: u64,
}

// The one thing trusted: pointers are valid for their lengths, and a destination overlaps no other buffer.
unsafe extern "C" {
    pub fn rc_phase_product(a: u8, b: u8) -> Reply;
    pub fn rc_phase_conjugate(phase: u8) -> Reply;
    pub fn rc_phase_is_real(phase: u8) -> Reply;
    pub fn rc_letter_product(a: u8, b: u8) -> Reply;
    pub fn rc_phase(s: *const u8, s_len: usize) -> Reply;
    pub fn rc_get(s: *const u8, s_len: usize, qubit: usize) -> Reply;
    pub fn rc_anticommuting_places(s: *const u8, s_len: usize, t: *const u8, t_len: usize)
    -> Reply;
    pub fn rc_mul(
        s: *const u8,
        s_len: usize,
        t: *const u8,
        t_len: usize,
        dst: *mut u8,
        dst_len: usize,
    ) -> Reply;
    pub fn rc_with_phase_and_paulis(
        phase: u8,
        entries: *const u8,
        entries_len: usize,
        dst: *mut u8,
        dst_len: usize,
    ) -> Reply;
    pub fn rc_from_sparse_str(
        text: *const c_char,
        text_len: usize,
        dst: *mut u8,
        dst_len: usize,
    ) -> Reply;
    pub fn rc_from_dense_str(
        text: *const c_char,
        text_len: usize,
        dst: *mut u8,
        dst_len: usize,
    ) -> Reply;
    pub fn rc_from_str(text: *const c_char, text_len: usize, dst: *mut u8, dst_len: usize)
    -> Reply;
    pub fn rc_to_sparse_str(s: *const u8, s_len: usize, dst: *mut c_char, dst_len: usize) -> Reply;
    pub fn rc_identity(n: usize, dst: *mut u8, dst_len: usize) -> Reply;
    pub fn rc_x_image(t: *const u8, t_len: usize, slot: usize) -> Reply;
    pub fn rc_z_image(t: *const u8, t_len: usize, slot: usize) -> Reply;
    pub fn rc_set_x_image(
        t: *mut u8,
        t_len: usize,
        slot: usize,
        s: *const u8,
        s_len: usize,
    ) -> Reply;
    pub fn rc_set_z_image(
        t: *mut u8,
        t_len: usize,
        slot: usize,
        s: *const u8,
        s_len: usize,
    ) -> Reply;
    pub fn rc_apply(
        t: *const u8,
        t_len: usize,
        s: *const u8,
        s_len: usize,
        dst: *mut u8,
        dst_len: usize,
    ) -> Reply;
    pub fn rc_compose(
        a: *const u8,
        a_len: usize,
        b: *const u8,
        b_len: usize,
        dst: *mut u8,
        dst_len: usize,
    ) -> Reply;
    pub fn rc_composed_x_image(
        a: *const u8,
        a_len: usize,
        b: *const u8,
        b_len: usize,
        qubit: usize,
        dst: *mut u8,
        dst_len: usize,
    ) -> Reply;
    pub fn rc_composed_z_image(
        a: *const u8,
        a_len: usize,
        b: *const u8,
        b_len: usize,
        qubit: usize,
        dst: *mut u8,
        dst_len: usize,
    ) -> Reply;
    pub fn rc_extended_to(
        t: *const u8,
        t_len: usize,
        n: usize,
        dst: *mut u8,
        dst_len: usize,
    ) -> Reply;
    pub fn rc_inverse(t: *const u8, t_len: usize, dst: *mut u8, dst_len: usize) -> Reply;
    pub fn rc_is_valid(t: *const u8, t_len: usize) -> Reply;
    pub fn rc_support_qubits(t: *const u8, t_len: usize, dst: *mut u8, dst_len: usize) -> Reply;
    pub fn rc_from_pauli_string(s: *const u8, s_len: usize, dst: *mut u8, dst_len: usize) -> Reply;
    pub fn rc_display(t: *const u8, t_len: usize, dst: *mut c_char, dst_len: usize) -> Reply;
    pub fn rc_single_qubit_clifford(
        index: usize,
        qubit: usize,
        dst: *mut u8,
        dst_len: usize,
    ) -> Reply;
    pub fn rc_on_qubits(gate: u8, q0: usize, q1: usize, dst: *mut u8, dst_len: usize) -> Reply;
    pub fn rc_on_qubit(gate: u8, q: usize, dst: *mut u8, dst_len: usize) -> Reply;
    pub fn rc_play(t: *mut u8, t_len: usize, gate: u8, q0: usize, q1: usize) -> Reply;
    pub fn rc_gate_compose(g: u8, h: u8) -> Reply;
    pub fn rc_gate_inverse(g: u8) -> Reply;
    pub fn rc_from_clifford_rep(t: *const u8, t_len: usize) -> Reply;
    pub fn rc_run(list: *const u8, list_len: usize, dst: *mut u8, dst_len: usize) -> Reply;
    pub fn rc_report(list: *const u8, list_len: usize, out: *mut c_char, out_len: usize) -> Reply;
    pub fn rc_refusal_line(
        number: u64,
        detail: u64,
        width: u64,
        dst: *mut c_char,
        dst_len: usize,
    ) -> Reply;
}
