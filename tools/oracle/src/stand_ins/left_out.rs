//! Stand-ins for what the scope document leaves out: the five files name these things, no compared
//! function runs through them. A type that stands for a left-out value has no values, or its
//! operations panic, so that a comparison can never rest on a meaning invented here.

use crate::{PauliOperator, PauliString, QuarterPhase};
use std::convert::Infallible;
use std::marker::PhantomData;

fn left_out() -> ! {
    panic!("left out by the scope document: no compared function may come here")
}

/// `num_complex::Complex64`: only the matrices and `to_complex` use it.
#[derive(Debug, Clone, Copy, PartialEq)]
pub struct Complex64 {
    pub re: f64,
    pub im: f64,
}

impl Complex64 {
    pub fn new(re: f64, im: f64) -> Self {
        Complex64 { re, im }
    }
}

impl std::ops::MulAssign for Complex64 {
    fn mul_assign(&mut self, _: Complex64) {
        left_out()
    }
}

/// `rand::Rng` and `rand::RngExt`: only the random tableaux use them.
pub trait Rng {}

pub trait RngExt {
    fn random_range(&mut self, _: std::ops::Range<usize>) -> usize {
        left_out()
    }

    fn random_bool(&mut self, _: f64) -> bool {
        left_out()
    }
}

impl<R: Rng> RngExt for R {}

pub struct VecSet<T>(PhantomData<T>);

/// Has no values: `PauliSparse` conversions are left out.
pub struct PauliSparse<T>(Infallible, PhantomData<T>);

impl<T> PauliSparse<T> {
    pub fn with_operators(
        _: QuarterPhase,
        _: &[usize],
        _: &[usize],
        _: &[usize],
    ) -> Result<Self, String> {
        left_out()
    }
}

impl<T> PauliOperator for PauliSparse<T> {
    fn phase(&self) -> QuarterPhase {
        match self.0 {}
    }

    fn x_positions(&self) -> Vec<usize> {
        match self.0 {}
    }

    fn z_positions(&self) -> Vec<usize> {
        match self.0 {}
    }

    fn multiply(&self, _: &Self) -> Self {
        match self.0 {}
    }

    fn weight(&self) -> usize {
        match self.0 {}
    }

    fn commutes_with(&self, _: &Self) -> bool {
        match self.0 {}
    }

    fn from_single(_: usize, _: crate::Pauli) -> Self {
        left_out()
    }
}

/// Has no values: bitmap conversions are left out.
pub struct PauliBitmap(Infallible);

impl PauliBitmap {
    pub fn with_operators(
        _: QuarterPhase,
        _: &[u64],
        _: &[u64],
        _: &[u64],
    ) -> Result<Self, String> {
        left_out()
    }

    pub fn phase(&self) -> QuarterPhase {
        match self.0 {}
    }

    pub fn get_x_bits(&self) -> u64 {
        match self.0 {}
    }

    pub fn get_z_bits(&self) -> u64 {
        match self.0 {}
    }
}

/// Angles are used by the unitary expressions alone.
#[derive(Clone, Copy)]
pub struct Angle64;

impl Angle64 {
    pub const QUARTER_TURN: Angle64 = Angle64;
    pub const HALF_TURN: Angle64 = Angle64;
    pub const THREE_QUARTERS_TURN: Angle64 = Angle64;
}

impl std::ops::Neg for Angle64 {
    type Output = Angle64;

    fn neg(self) -> Angle64 {
        left_out()
    }
}

impl std::ops::Div<u64> for Angle64 {
    type Output = Angle64;

    fn div(self, _: u64) -> Angle64 {
        left_out()
    }
}

pub mod unitary_rep {
    use super::{Angle64, PauliString, left_out};
    use crate::QubitId;

    /// `apply_to` names these two shapes; nothing here makes one.
    pub enum UnitaryRep {
        Pauli(PauliString),
        Other,
    }

    impl UnitaryRep {
        pub fn dg(self) -> UnitaryRep {
            left_out()
        }
    }

    impl std::ops::Mul for UnitaryRep {
        type Output = UnitaryRep;

        fn mul(self, _: UnitaryRep) -> UnitaryRep {
            left_out()
        }
    }

    pub fn phase(_: Angle64) -> UnitaryRep {
        left_out()
    }

    macro_rules! one_qubit {
        ($($name:ident)*) => { $(
            #[allow(non_snake_case)]
            pub fn $name(_: QubitId) -> UnitaryRep { left_out() }
        )* };
    }

    macro_rules! two_qubits {
        ($($name:ident)*) => { $(
            #[allow(non_snake_case)]
            pub fn $name(_: QubitId, _: QubitId) -> UnitaryRep { left_out() }
        )* };
    }

    macro_rules! rotations {
        ($($name:ident)*) => { $(
            #[allow(non_snake_case)]
            pub fn $name(_: Angle64, _: QubitId, _: QubitId) -> UnitaryRep { left_out() }
        )* };
    }

    one_qubit!(I X Y Z H SX SY SZ);
    two_qubits!(CX CY CZ SWAP SXX SYY SZZ);
    rotations!(RXX RYY);
}

pub mod gate_type {
    pub type SingleQubitGateMatrix = [f64; 8];
    pub type TwoQubitGateMatrix = [f64; 32];

    /// The names that `clifford.rs` uses.
    #[derive(Debug, Clone, Copy, PartialEq, Eq)]
    #[rustfmt::skip]
    pub enum GateType {
        I, X, Y, Z, H, SX, SXdg, SY, SYdg, SZ, SZdg, F, Fdg,
        CX, CY, CZ, SWAP, SXX, SXXdg, SYY, SYYdg, SZZ, SZZdg,
    }

    // Constant functions, since `clifford.rs` calls them in constant functions.
    impl GateType {
        pub const fn canonical_1q_matrix(self) -> Option<SingleQubitGateMatrix> {
            None
        }

        pub const fn canonical_2q_matrix(self) -> Option<TwoQubitGateMatrix> {
            None
        }
    }

    pub const fn multiply_2x2(
        _: SingleQubitGateMatrix,
        _: SingleQubitGateMatrix,
    ) -> SingleQubitGateMatrix {
        panic!("left out by the scope document")
    }

    pub const fn scale_2x2(_: SingleQubitGateMatrix, _: f64, _: f64) -> SingleQubitGateMatrix {
        panic!("left out by the scope document")
    }
}
