//! Phases and letters, every byte.

use crate::comparison::Comparison;
use oracle::driver::Call;

pub fn all(compare: &mut Comparison) {
    for left in 0..256 {
        for name in ["phase_conjugate", "phase_is_real"] {
            compare.case(&Call::new(name).n(&[left]));
        }
        for right in 0..256 {
            for name in ["phase_product", "letter_product"] {
                compare.case(&Call::new(name).n(&[left, right]));
            }
        }
    }
}
