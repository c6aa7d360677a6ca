//! PECOS's five files, unchanged, over stand-ins for what they use but do not hold,
//! and a driver that answers calls on records by running them.

// The files say `num_complex::..` and `rand::..`; both names lead to the stand-ins here.
extern crate self as num_complex;
extern crate self as rand;

pub mod driver;
mod stand_ins;
pub mod vectors;

pub use stand_ins::left_out::{
    Angle64, Complex64, PauliBitmap, PauliSparse, Rng, RngExt, VecSet, gate_type, unitary_rep,
};
pub use stand_ins::used::{Pauli, PauliOperator, Phase, QubitId, Sign, qubit_support};

include!(concat!(env!("OUT_DIR"), "/pecos_files.rs"));

pub use pauli::pauli_string::{ParsePauliStringError, PauliString, PauliWidthError};
pub use quarter_phase::QuarterPhase;
