//! Tableau records.

use super::previews;
use crate::comparison::Comparison;
use crate::inputs::{
    EDGES, any_string, bad_string, bad_tableaux, damaged, identity, some_tableau, string,
    valid_tableau, width_one,
};
use crate::model::{QUBITS, tableau_length};
use oracle::clifford::Clifford;
use oracle::driver::Call;
use oracle::driver::records::read_tableau;

pub fn all(compare: &mut Comparison) {
    identities(compare);
    headers(compare);
    names_of_the_rust_alone();
    every_of_width_one(compare);
    every_pair_of_width_one(compare);
    weights_of_width_one(compare);
    bad_places(compare);
    for width in 0..=QUBITS {
        for _ in 0..rounds(width) {
            of_width(compare, width);
        }
    }
    pairs_of_widths(compare);
    full(compare);
}

/// The Rust's time grows with the third power of the width.
fn rounds(width: usize) -> usize {
    match width {
        0..=4 => 600,
        5..=8 => 240,
        9..=16 => 60,
        17..=32 => 12,
        33..=64 => 3,
        _ => 1,
    }
}

fn identities(compare: &mut Comparison) {
    for width in (0..=QUBITS as u64).chain(EDGES) {
        compare.each_room(&Call::new("identity").n(&[width]));
        compare.case(&Call::new("identity").n(&[width]));
    }
}

/// Each first byte on records of every length up to 70, and of its own length and those beside it.
fn headers(compare: &mut Comparison) {
    for first in 0..=255u8 {
        let own = tableau_length(usize::from(first));
        let lengths = (0..70).chain([own - 1, own, own + 1]);
        for length in lengths {
            let mut record = vec![0; length];
            record.iter_mut().take(1).for_each(|byte| *byte = first);
            compare.case(&Call::new("is_valid").b1(&record));
            compare.case(&Call::new("from_clifford_rep").b1(&record));
            compare.case(&Call::new("x_image").b1(&record));
        }
    }
}

/// What is asked of one tableau without much work.
fn easy(compare: &mut Comparison, record: &[u8]) {
    compare.case(&Call::new("from_clifford_rep").b1(record));
    compare.some_room(&Call::new("support_qubits").b1(record));
    compare.some_room(&Call::new("display").b1(record));
    let own = u64::from(record.first().copied().unwrap_or(0));
    let edge = compare.random.pick(&EDGES);
    for slot in [0, own.wrapping_sub(1), own, edge] {
        compare.case(&Call::new("x_image").b1(record).n(&[slot]));
        compare.case(&Call::new("z_image").b1(record).n(&[slot]));
    }
    for asked in [own.saturating_sub(1), own + 1, edge] {
        compare.some_room(&Call::new("extended_to").b1(record).n(&[asked]));
    }
}

/// Images set in a tableau: inside it, wider, refused; in slots inside and outside.
fn setting(compare: &mut Comparison, record: &[u8]) {
    let own = record.first().copied().unwrap_or(0);
    let width = usize::from(own).min(QUBITS);
    let inside = string_inside(compare, width);
    let (any, bad) = (
        any_string(&mut compare.random, width),
        bad_string(&mut compare.random),
    );
    let slot = compare.random.below(width + 1) as u64;
    for name in ["set_x_image", "set_z_image"] {
        let call = Call::new(name).d(record);
        for slot in [slot, own.into(), u64::MAX] {
            compare.case(&call.clone().b1(&inside).n(&[slot]));
            compare.case(&call.clone().b1(&any).n(&[slot]));
        }
        compare.case(&call.clone().b1(&bad).n(&[slot]));
    }
}

fn string_inside(compare: &mut Comparison, width: usize) -> Vec<u8> {
    let random = &mut compare.random;
    let phase = random.below(4) as u8;
    let letters: Vec<(usize, u8)> = (0..width).map(|q| (q, random.below(4) as u8)).collect();
    string(phase, &letters)
}

fn applying(compare: &mut Comparison, record: &[u8]) {
    let width = usize::from(record.first().copied().unwrap_or(0)).min(QUBITS);
    let some = any_string(&mut compare.random, width);
    let (inside, bad) = (
        string_inside(compare, width),
        bad_string(&mut compare.random),
    );
    for image in [&some, &inside, &bad] {
        compare.some_room(&Call::new("apply").b1(record).b2(image));
    }
}

/// What takes the Rust long at large widths.
fn hard(compare: &mut Comparison, record: &[u8]) {
    compare.case(&Call::new("is_valid").b1(record));
    compare.some_room(&Call::new("inverse").b1(record));
}

fn every_of_width_one(compare: &mut Comparison) {
    for record in width_one() {
        compare.case(&Call::new("is_valid").b1(&record));
        compare.case(&Call::new("from_clifford_rep").b1(&record));
        for name in ["inverse", "support_qubits", "display"] {
            compare.each_room(&Call::new(name).b1(&record));
        }
        for number in [0, 1, 2, 3, 128, 129, u64::MAX] {
            compare.case(&Call::new("x_image").b1(&record).n(&[number]));
            compare.case(&Call::new("z_image").b1(&record).n(&[number]));
            compare.each_room(&Call::new("extended_to").b1(&record).n(&[number]));
        }
        for number in 0..64 {
            let [phase, letter, next] = [4, 2, 0].map(|bits| (number >> bits & 3) as u8);
            let image = string(phase, &[(0, letter), (1, next)]);
            compare.some_room(&Call::new("apply").b1(&record).b2(&image));
            for name in ["set_x_image", "set_z_image"] {
                compare.case(
                    &Call::new(name)
                        .d(&record)
                        .b1(&image)
                        .n(&[u64::from(next > 2)]),
                );
            }
        }
    }
}

/// What docs/DIFFERENCES.md says of the records of width 1 that are not valid: the Rust names 72 of them, each as if its imaginary
/// phases were +1.
fn names_of_the_rust_alone() {
    let read = |record: &[u8]| read_tableau(record).expect("a record");
    let mut count = 0;
    for record in width_one() {
        let mut signed = record;
        for phase in [1, 4] {
            signed[phase] = u8::from(record[phase] == 1);
        }
        let name = Clifford::from_clifford_rep(&read(&record));
        assert_eq!(name, Clifford::from_clifford_rep(&read(&signed)));
        count += usize::from(name.is_some() && !read(&record).is_valid());
    }
    assert_eq!(count, 72);
}

fn every_pair_of_width_one(compare: &mut Comparison) {
    for left in width_one() {
        for right in width_one() {
            compare.some_room(&Call::new("compose").b1(&left).b2(&right));
        }
    }
}

/// Weights around the true ones and far above them, of every record of width 1.
fn weights_of_width_one(compare: &mut Comparison) {
    let weights = [0, 1, 2, 3, 4, 255];
    for (turn, good) in width_one().into_iter().enumerate() {
        for (x, z) in weights.into_iter().flat_map(|x| weights.map(|z| (x, z))) {
            let mut record = good;
            (record[2], record[5]) = (x, z);
            compare.case(&Call::new("is_valid").b1(&record));
            compare.case(&Call::new("from_clifford_rep").b1(&record));
            if turn % 8 == 0 {
                bad_record(compare, &record, &good);
            }
        }
    }
}

/// A record that may be refused, in every function that takes a tableau; another one beside it where there are two.
fn bad_record(compare: &mut Comparison, record: &[u8], good: &[u8]) {
    easy(compare, record);
    hard(compare, record);
    let image = string_inside(compare, usize::from(good[0]));
    compare.some_room(&Call::new("apply").b1(record).b2(&image));
    for (left, right) in [(record, good), (good, record), (record, record)] {
        compare.some_room(&Call::new("compose").b1(left).b2(right));
        let qubit = compare.random.below(usize::from(good[0]) + 2) as u64;
        previews::both(compare, left, right, qubit);
    }
    for name in ["set_x_image", "set_z_image"] {
        for slot in 0..u64::from(good[0]) {
            compare.case(&Call::new(name).d(record).b1(&image).n(&[slot]));
        }
    }
}

/// Bytes above 3, and those beside the right one, at every offset of small records.
fn bad_places(compare: &mut Comparison) {
    for width in 1..=6 {
        let good = valid_tableau(&mut compare.random, width, 8 * width);
        for place in 1..good.len() {
            let right = good[place];
            for byte in [4, 255, right.wrapping_sub(1), right + 1] {
                let mut record = good.clone();
                record[place] = byte;
                bad_record(compare, &record, &good);
            }
        }
    }
}

/// A valid tableau, one with a byte changed, one of any bytes, and refused ones.
fn of_width(compare: &mut Comparison, width: usize) {
    let random = &mut compare.random;
    let count = random.below(4 * width + 1);
    let valid = valid_tableau(random, width, count);
    let other = damaged(random, &valid);
    let any = random.any_tableau(width);
    let bad = bad_tableaux(random, &valid);
    let light = if width > 48 {
        &[]
    } else {
        std::slice::from_ref(&any)
    };
    for record in [&valid, &other].into_iter().chain(light) {
        easy(compare, record);
        setting(compare, record);
        applying(compare, record);
        hard(compare, record);
    }
    for record in &bad {
        easy(compare, record);
        setting(compare, record);
        applying(compare, record);
        hard(compare, record);
        let second = compare.random.below(bad.len());
        let pairs = [
            (record, &valid),
            (&any, record),
            (record, record),
            (record, &bad[second]),
        ];
        for (left, right) in pairs {
            compare.some_room(&Call::new("compose").b1(left).b2(right));
            let qubit = compare.random.below(width + 2) as u64;
            previews::either(compare, left, right, qubit);
        }
    }
    if width <= 32 {
        let qubit = compare.random.below(width + 1) as u64;
        previews::both(compare, &valid, &other, qubit);
        previews::both(compare, &any, &valid, qubit);
    }
    previews::outside(compare, &other, &any);
    for name in ["inverse", "support_qubits", "display"] {
        compare.each_room(&Call::new(name).b1(&valid));
    }
    compare.each_room(&Call::new("extended_to").b1(&other).n(&[width as u64]));
    let image = any_string(&mut compare.random, width);
    compare.each_room(&Call::new("apply").b1(&other).b2(&image));
}

/// Products of every two small widths, valid and not, and of a small one with each larger one.
fn pairs_of_widths(compare: &mut Comparison) {
    for turn in 0..20_000 {
        let most = if turn % 50 == 0 { 16 } else { 6 };
        let random = &mut compare.random;
        let (left, right) = (random.below(most), random.below(most));
        let qubit = random.below(left.max(right) + 2) as u64;
        let (left, right) = (some_tableau(random, left), some_tableau(random, right));
        compare.some_room(&Call::new("compose").b1(&left).b2(&right));
        previews::either(compare, &left, &right, qubit);
    }
    for width in 0..=QUBITS {
        let random = &mut compare.random;
        let wide = valid_tableau(random, width, 4);
        let narrow = random.below(4);
        let narrow = some_tableau(random, narrow);
        compare.some_room(&Call::new("compose").b1(&wide).b2(&narrow));
        compare.some_room(&Call::new("compose").b1(&narrow).b2(&wide));
        compare.some_room(&Call::new("compose").b1(&wide).b2(&identity(width)));
    }
}

/// Full tableaux at every width, in the functions that multiply rows: products, inverses, images.
fn full(compare: &mut Comparison) {
    for width in 0..=QUBITS {
        let valid = valid_tableau(&mut compare.random, width, 8 * width);
        let any = compare.random.any_tableau(width);
        let (left, right) = if width % 2 == 0 {
            (&valid, &any)
        } else {
            (&any, &valid)
        };
        compare.each_room_but_once(&Call::new("compose").b1(left).b2(right));
        // Of the copy that was held to the Rust; the Rust composes anew for each preview.
        previews::same_as_compose(compare, left, right);
        previews::outside(compare, left, right);
        if width % 32 == 0 {
            let qubit = compare.random.below(width + 1) as u64;
            previews::either(compare, left, right, qubit);
        }
        compare.each_room_but_once(&Call::new("inverse").b1(left));
        for record in [&valid, &any] {
            compare.case(&Call::new("is_valid").b1(record));
            easy(compare, record);
            setting(compare, record);
            applying(compare, record);
        }
    }
}
