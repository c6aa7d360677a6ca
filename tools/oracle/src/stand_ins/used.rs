//! Stand-ins that the compared functions run through. Their meaning is the scope document's:
//! `QubitId` wraps a usize, `Sign` is plus or minus, a letter is I, X, Y or Z, and
//! `assert_distinct_qubits` panics on equal qubits.

use crate::{Complex64, QuarterPhase};

/// The operations that `quarter_phase.rs` gives.
pub trait Phase: Sized {
    fn to_complex(&self) -> Complex64;
    fn conjugate(&self) -> Self;
    fn multiply(&self, other: &Self) -> Self;
}

/// A letter. Only names count: the driver never casts one to a number.
#[derive(Debug, Clone, Copy, PartialEq, Eq, PartialOrd, Ord, Hash, Default)]
pub enum Pauli {
    #[default]
    I,
    X,
    Y,
    Z,
}

/// A qubit: a usize.
#[derive(Debug, Clone, Copy, PartialEq, Eq, PartialOrd, Ord, Hash)]
pub struct QubitId(usize);

impl QubitId {
    pub fn new(index: usize) -> Self {
        QubitId(index)
    }

    pub fn index(&self) -> usize {
        self.0
    }
}

impl From<QubitId> for usize {
    fn from(qubit: QubitId) -> usize {
        qubit.0
    }
}

impl From<usize> for QubitId {
    fn from(index: usize) -> QubitId {
        QubitId(index)
    }
}

/// Plus or minus.
#[derive(Debug, Clone, Copy, PartialEq, Eq)]
pub enum Sign {
    PlusOne,
    MinusOne,
}

/// The operations that `pauli_string.rs` gives for strings.
pub trait PauliOperator: Sized {
    fn phase(&self) -> QuarterPhase;
    fn x_positions(&self) -> Vec<usize>;
    fn z_positions(&self) -> Vec<usize>;
    fn multiply(&self, other: &Self) -> Self;
    fn weight(&self) -> usize;
    fn commutes_with(&self, other: &Self) -> bool;
    fn from_single(qubit: usize, pauli: Pauli) -> Self;
}

pub mod qubit_support {
    /// The qubits that are in both, rising.
    pub fn overlapping_qubits(
        left: impl IntoIterator<Item = usize>,
        right: impl IntoIterator<Item = usize>,
    ) -> Vec<usize> {
        let right: Vec<usize> = right.into_iter().collect();
        let mut both: Vec<usize> = left.into_iter().filter(|q| right.contains(q)).collect();
        both.sort_unstable();
        both.dedup();
        both
    }

    pub fn assert_distinct_qubits<const N: usize>(gate: &str, qubits: [usize; N]) {
        for (place, qubit) in qubits.iter().enumerate() {
            assert!(
                !qubits[..place].contains(qubit),
                "{gate} on equal qubits {qubits:?}"
            );
        }
    }
}
