//! Previews of one image. They are held to the image of the Rust's composed copy, which takes the Rust long at large widths; and,
//! without asking the Rust, to every row that the library's own `compose` and `play` leave.

use crate::comparison::Comparison;
use crate::inputs::{EDGES, some_tableau, valid_tableau, width_one};
use crate::library;
use crate::model::{self, QUBITS, STRING, row, tableau_length};
use oracle::driver::Call;

const NAMES: [&str; 2] = ["composed_x_image", "composed_z_image"];
const ONE_QUBIT_GATES: u64 = 24;
const GATES: u64 = 38;

pub fn all(compare: &mut Comparison) {
    every_pair_of_width_one(compare);
    for left in 0..=6 {
        for right in 0..=6 {
            for _ in 0..20 {
                every_qubit(compare, left, right);
            }
        }
    }
    rooms(compare);
    of_two_widths(compare);
    by_compose(compare);
    by_play(compare);
}

fn preview(name: &str, left: &[u8], right: &[u8], qubit: u64) -> Call {
    Call::new(name).b1(left).b2(right).n(&[qubit])
}

/// Both images of a qubit.
pub fn both(compare: &mut Comparison, left: &[u8], right: &[u8], qubit: u64) {
    for name in NAMES {
        compare.some_room(&preview(name, left, right, qubit));
    }
}

/// One of the two images of a qubit.
pub fn either(compare: &mut Comparison, left: &[u8], right: &[u8], qubit: u64) {
    let name = compare.random.pick(&NAMES);
    compare.some_room(&preview(name, left, right, qubit));
}

/// Qubits at, directly above and far above the larger width.
pub fn outside(compare: &mut Comparison, left: &[u8], right: &[u8]) {
    let width = larger_width(left, right) as u64;
    for qubit in [width, width + 1] {
        either(compare, left, right, qubit);
    }
    let edge = compare.random.pick(&EDGES);
    either(compare, left, right, edge.max(width));
}

fn larger_width(left: &[u8], right: &[u8]) -> usize {
    let width = |record: &[u8]| record.first().copied().unwrap_or(0);
    usize::from(width(left).max(width(right)))
}

fn every_pair_of_width_one(compare: &mut Comparison) {
    for left in width_one() {
        for right in width_one() {
            both(compare, &left, &right, 0);
        }
    }
}

/// Every qubit of small tableaux, valid and not, and every qubit around them.
fn every_qubit(compare: &mut Comparison, left: usize, right: usize) {
    let random = &mut compare.random;
    let (left, right) = (some_tableau(random, left), some_tableau(random, right));
    let width = larger_width(&left, &right) as u64;
    for qubit in (0..width + 2).chain(EDGES) {
        both(compare, &left, &right, qubit);
    }
}

/// Each destination around 129 bytes, of qubits inside and outside.
fn rooms(compare: &mut Comparison) {
    for turn in 0..600 {
        let random = &mut compare.random;
        let (left, right) = (random.below(5), random.below(5));
        let (left, right) = (some_tableau(random, left), some_tableau(random, right));
        let qubit = random.below(larger_width(&left, &right) + 2) as u64;
        compare.each_room(&preview(NAMES[turn % 2], &left, &right, qubit));
        compare.with_room(&preview(NAMES[turn % 2], &left, &right, qubit), 0);
    }
}

/// A narrow tableau on either side of each wider one, which has few letters, and the first qubit that only one of them has.
fn of_two_widths(compare: &mut Comparison) {
    for width in 1..=QUBITS {
        let random = &mut compare.random;
        let wide = valid_tableau(random, width, 4);
        let narrow = random.below(width.min(5));
        let other = some_tableau(random, narrow);
        let qubit = random.below(width) as u64;
        for qubit in [qubit, narrow as u64] {
            either(compare, &wide, &other, qubit);
            either(compare, &other, &wide, qubit);
        }
        outside(compare, &wide, &other);
        outside(compare, &other, &wide);
    }
}

/// Every image of the previews against a composed copy that the library made: its row without the weight, and I behind.
fn same_rows(compare: &mut Comparison, name: &str, left: &[u8], right: &[u8], copy: &[u8]) {
    let width = larger_width(left, right);
    for place in 0..2 * width {
        let row = row(copy, width, place);
        let mut image = [&row[..1], &row[2..]].concat();
        image.resize(STRING, 0);
        let call = preview(NAMES[place / width], left, right, (place % width) as u64);
        let more = compare.random.pick(&[0, 0, 0, 1, 17]);
        let room = compare.room(STRING + more);
        compare.same_bytes(name, &call.d(&room), &image);
    }
}

pub fn same_as_compose(compare: &mut Comparison, left: &[u8], right: &[u8]) {
    let room = compare.room(tableau_length(larger_width(left, right)));
    let call = Call::new("compose").b1(left).b2(right).d(&room);
    let copy = library::call(&call, 0).after;
    same_rows(compare, "preview_by_compose", left, right, &copy);
}

/// Every two small widths; each width with the one below it and with another up to 128, on either side; and the widest.
fn by_compose(compare: &mut Comparison) {
    for left in 0..=12 {
        for right in 0..=12 {
            for _ in 0..12 {
                let random = &mut compare.random;
                let (left, right) = (some_tableau(random, left), some_tableau(random, right));
                same_as_compose(compare, &left, &right);
            }
        }
    }
    for width in 0..=QUBITS {
        let any = compare.random.below(QUBITS + 1);
        for other in [width.saturating_sub(1), any] {
            let random = &mut compare.random;
            let (left, right) = (some_tableau(random, width), some_tableau(random, other));
            same_as_compose(compare, &left, &right);
            same_as_compose(compare, &right, &left);
        }
    }
    for _ in 0..12 {
        let random = &mut compare.random;
        let (left, right) = (some_tableau(random, QUBITS), some_tableau(random, QUBITS));
        same_as_compose(compare, &left, &right);
    }
}

/// A gate's tableau on the left gives what the gate leaves where it is played.
fn same_as_play(compare: &mut Comparison, record: &[u8], gate: u64) {
    let width = usize::from(record[0]);
    let random = &mut compare.random;
    let q0 = random.below(width);
    let q1 = if gate < ONE_QUBIT_GATES {
        random.below(QUBITS)
    } else {
        (q0 + 1 + random.below(width - 1)) % width
    };
    let numbers = [gate, q0 as u64, q1 as u64];
    let call = Call::new("on_qubits").n(&numbers);
    let room = compare.room(model::needs(&call).expect("a gate and its qubits"));
    let tableau = library::call(&call.d(&room), 0).after;
    let played = library::call(&Call::new("play").d(record).n(&numbers), 0).after;
    same_rows(compare, "preview_by_play", &tableau, record, &played);
}

/// Every gate on small tableaux; some on each wider one.
fn by_play(compare: &mut Comparison) {
    for width in 1..=QUBITS {
        let gates = if width == 1 { ONE_QUBIT_GATES } else { GATES };
        let (rounds, step) = match width {
            1..=8 => (8, 1),
            9..=32 => (1, 1),
            _ => (1, 9),
        };
        for _ in 0..rounds {
            for gate in (width as u64 % step..gates).step_by(step as usize) {
                let record = some_tableau(&mut compare.random, width);
                same_as_play(compare, &record, gate);
            }
        }
    }
}
