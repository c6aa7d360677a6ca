//! The lines of refusals 14 and 15.

use super::Book;
use super::inputs::Random;
use crate::driver::line::Call;

/// Numbers with every count of digits, and where the count changes.
fn numbers() -> Vec<u64> {
    let mut numbers = vec![0, 7, 127, 128, u64::MAX];
    for exponent in 1..20 {
        let power = 10u64.pow(exponent);
        numbers.extend([power - 1, power]);
    }
    numbers
}

pub fn fill(book: &mut Book) {
    book.comment("Made by `oracle vectors refusals`: every answer is the Rust's.");
    let line = |number: u64, detail: u64, width: u64| {
        Call::new("refusal_line").n(&[number, detail, width])
    };
    for number in [14, 15] {
        for some in numbers() {
            book.add_sized(&line(number, some, 4), 0);
            book.add_sized(&line(number, 4, some), 1);
        }
        book.add_sized(&line(number, u64::MAX, u64::MAX), 0);
    }
    let random = &mut Random::new(8);
    for _ in 0..60 {
        let number = random.pick(&[14, 15]);
        let mut any = || {
            let bits = random.below(64) + 1;
            (0..bits).fold(0, |all, _| 2 * all + random.below(2) as u64)
        };
        book.add_sized(&line(number, any(), any()), 3);
    }
}
