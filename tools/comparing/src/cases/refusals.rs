//! Lines of refusals: every number that has a meaning and many that have none, with details and widths of any size.

use crate::comparison::Comparison;
use oracle::driver::Call;

/// Numbers of every count of digits, where the count changes, and around powers of two.
fn numbers() -> Vec<u64> {
    let mut numbers = vec![0, 5, 127, 128, 129, u64::MAX - 1, u64::MAX];
    for exponent in 1..20 {
        let power = 10u64.pow(exponent);
        numbers.extend([power - 1, power, power + 1]);
    }
    for bits in [8, 16, 31, 32, 63] {
        let power = 1u64 << bits;
        numbers.extend([power - 1, power]);
    }
    numbers
}

fn line(number: u64, detail: u64, width: u64) -> Call {
    Call::new("refusal_line").n(&[number, detail, width])
}

pub fn all(compare: &mut Comparison) {
    let some = numbers();
    // A number that is read as a byte, or as four, would be a known one.
    let like_known = (0..34).flat_map(|low| [low + (1 << 8), low + (1 << 32)]);
    let numbers: Vec<u64> = (0..300).chain(like_known).chain(some.clone()).collect();
    for number in numbers {
        for detail in &some {
            compare.some_room(&line(number, *detail, 4));
            compare.some_room(&line(number, 4, *detail));
        }
        compare.each_room(&line(number, u64::MAX, u64::MAX));
    }
    for detail in &some {
        for width in &some {
            for number in [14, 15] {
                compare.some_room(&line(number, *detail, *width));
            }
        }
    }
    by_chance(compare);
}

fn by_chance(compare: &mut Comparison) {
    for _ in 0..100_000 {
        let mut any = || {
            let bits = compare.random.below(64) + 1;
            (0..bits).fold(0, |all, _| 2 * all + compare.random.below(2) as u64)
        };
        let (detail, width) = (any(), any());
        let number = compare.random.below(40) as u64;
        compare.some_room(&line(number, detail, width));
    }
}
