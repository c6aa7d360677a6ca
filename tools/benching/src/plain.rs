//! The plain C loops. Each is handed records that the library has accepted, in buffers of their exact lengths.

unsafe extern "C" {
    fn plain_mul(s: *const u8, t: *const u8, dst: *mut u8);
    fn plain_places(s: *const u8, t: *const u8) -> u32;
    fn plain_from_entries(entries: *const u8, count: usize, dst: *mut u8);
    fn plain_from_text(text: *const u8, length: usize, dst: *mut u8);
    fn plain_apply(t: *const u8, s: *const u8, dst: *mut u8);
    fn plain_compose(a: *const u8, b: *const u8, dst: *mut u8);
    fn plain_composed_x_image(a: *const u8, b: *const u8, qubit: usize, dst: *mut u8);
    fn plain_inverse(t: *const u8, dst: *mut u8);
    fn plain_is_valid(t: *const u8) -> i32;
    fn plain_gate(gate: u32, tableau: *const u8);
    fn plain_play(gate: *const u8, dst: *mut u8, n: usize);
    #[cfg(feature = "lists")]
    fn plain_run(list: *const u8, dst: *mut u8) -> usize;
}

pub fn mul(s: &[u8], t: &[u8], dst: &mut [u8]) {
    unsafe { plain_mul(s.as_ptr(), t.as_ptr(), dst.as_mut_ptr()) }
}

pub fn anticommuting_places(s: &[u8], t: &[u8]) -> u32 {
    unsafe { plain_places(s.as_ptr(), t.as_ptr()) }
}

pub fn from_entries(entries: &[u8], dst: &mut [u8]) {
    unsafe { plain_from_entries(entries.as_ptr(), entries.len() / 2, dst.as_mut_ptr()) }
}

/// A sparse text with no prefix.
pub fn from_text(text: &[u8], dst: &mut [u8]) {
    unsafe { plain_from_text(text.as_ptr(), text.len(), dst.as_mut_ptr()) }
}

pub fn apply(t: &[u8], s: &[u8], dst: &mut [u8]) {
    unsafe { plain_apply(t.as_ptr(), s.as_ptr(), dst.as_mut_ptr()) }
}

pub fn compose(a: &[u8], b: &[u8], dst: &mut [u8]) {
    unsafe { plain_compose(a.as_ptr(), b.as_ptr(), dst.as_mut_ptr()) }
}

pub fn composed_x_image(a: &[u8], b: &[u8], qubit: usize, dst: &mut [u8]) {
    unsafe { plain_composed_x_image(a.as_ptr(), b.as_ptr(), qubit, dst.as_mut_ptr()) }
}

pub fn inverse(t: &[u8], dst: &mut [u8]) {
    unsafe { plain_inverse(t.as_ptr(), dst.as_mut_ptr()) }
}

pub fn is_valid(t: &[u8]) -> bool {
    unsafe { plain_is_valid(t.as_ptr()) == 1 }
}

/// Fills in the tables of all gates; once, before a gate is played.
pub fn prepare_gates() {
    for gate in 0..38 {
        let mut tableau = [0; renetcleat::tableau_length(2)];
        renetcleat::on_qubits(gate, 0, 1, &mut tableau).unwrap();
        unsafe { plain_gate(gate.into(), tableau.as_ptr()) }
    }
}

pub fn play(t: &mut [u8], gate: u8, q0: usize, q1: usize) {
    let record = [gate, q0 as u8, q1 as u8];
    let width = usize::from(t[0]);
    unsafe { plain_play(record.as_ptr(), t.as_mut_ptr(), width) }
}

#[cfg(feature = "lists")]
pub fn run(list: &[u8], dst: &mut [u8]) -> usize {
    unsafe { plain_run(list.as_ptr(), dst.as_mut_ptr()) }
}
