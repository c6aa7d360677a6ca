//! Gate lists: the same `compose` calls made in the Rust, its display text, and the model's refusals.

use crate::comparison::{Comparison, report_text};
use oracle::driver::Call;
use oracle::vectors::Random;

type Record = [u8; 6];
const RECORDS: usize = 4096;

pub fn all(compare: &mut Comparison) {
    lengths(compare);
    heads(compare);
    one_gate(compare);
    links(compare);
    random_lists(compare);
    wide_lists(compare);
    long_lists(compare);
}

/// The list in both functions.
fn play(compare: &mut Comparison, list: &[u8]) {
    compare.some_room(&Call::new("run").b1(list));
    let length = report_text(list).0.len();
    let length = match compare.random.below(8) {
        0 => length - 1,
        1 => length + 17,
        _ => length,
    };
    compare.with_room(&Call::new("report").b1(list), length);
}

fn play_records(compare: &mut Comparison, records: &[Record]) {
    play(compare, records.as_flattened());
}

/// Lengths around multiples of six, the shortest and the longest list.
fn lengths(compare: &mut Comparison) {
    for length in (0..40).chain(24_565..24_590).chain([30_000]) {
        for first in [0, 1] {
            let mut list = vec![0; length];
            list.iter_mut().take(1).for_each(|byte| *byte = first);
            play(compare, &list);
        }
    }
}

/// Every byte at every place of the head.
fn heads(compare: &mut Comparison) {
    for place in 0..6 {
        for byte in 0..=255 {
            let mut records = [[0, 3, 0, 0, 1, 0], [4, 2, 0, 0, 0, 0]];
            records[0][place] = byte;
            play_records(compare, &records);
            play_records(compare, &records[..1]);
        }
    }
}

/// Every gate byte on qubits inside and outside, equal and different, with fixed zeros right and wrong.
fn one_gate(compare: &mut Comparison) {
    for gate in 0..=255 {
        for (q0, q1) in [
            (0, 0),
            (0, 1),
            (1, 0),
            (2, 1),
            (2, 2),
            (3, 0),
            (0, 3),
            (3, 3),
            (255, 1),
        ] {
            for zero in [0, 1] {
                for width in [0, 1, 3] {
                    let head = [0, width, 0, 0, 1, 0];
                    play_records(compare, &[head, [gate, q0, q1, zero, 0, 0]]);
                    play_records(compare, &[head, [gate, q0, q1, zero, 2, 0]]);
                }
            }
        }
    }
}

/// Every way in which four records can follow each other, and links beyond them.
fn links(compare: &mut Comparison) {
    for number in 0..6u32.pow(4) {
        let next = |place: u32| (number / 6u32.pow(place) % 6) as u8;
        let records: Vec<Record> = (0..4)
            .map(|place| match place {
                0 => [0, 2, 0, 0, next(0), 0],
                _ => [
                    23 + place as u8,
                    0,
                    1,
                    0,
                    next(place),
                    u8::from(next(place) == 5),
                ],
            })
            .collect();
        play_records(compare, &records);
    }
}

/// A chain of this many gates at random places, among records of any bytes.
fn random_list(random: &mut Random, width: usize, count: usize, spare: usize) -> Vec<Record> {
    let mut records: Vec<Record> = (0..1 + count + spare)
        .map(|_| std::array::from_fn(|_| random.number() as u8))
        .collect();
    let mut places: Vec<usize> = (1..records.len()).collect();
    random.shuffle(&mut places);
    records[0] = [0, width as u8, 0, 0, 0, 0];
    let mut last = 0;
    for place in &places[..count] {
        let (gate, q0, q1) = random.gate(width);
        records[last][4..].copy_from_slice(&(*place as u16).to_le_bytes());
        records[*place] = [gate as u8, q0 as u8, q1 as u8, 0, 0, 0];
        last = *place;
    }
    records
}

/// Lists that run, and copies with one byte changed.
fn random_lists(compare: &mut Comparison) {
    for turn in 0..12_000 {
        let random = &mut compare.random;
        let (width, count, spare) = (1 + turn % 6, random.below(24), random.below(5));
        let records = random_list(random, width, count, spare);
        play_records(compare, &records);
        for _ in 0..3 {
            let random = &mut compare.random;
            let mut list = records.as_flattened().to_vec();
            let place = random.below(list.len());
            list[place] = match random.below(3) {
                0 => random.number() as u8,
                _ => random.below(40) as u8,
            };
            play(compare, &list);
        }
    }
}

/// Every width, with few gates; the Rust composes whole tableaux.
fn wide_lists(compare: &mut Comparison) {
    for width in 1..=128 {
        let count = 1 + 40 / width;
        let records = random_list(&mut compare.random, width, count, 2);
        play_records(compare, &records);
        compare.each_room(&Call::new("run").b1(records.as_flattened()));
    }
}

/// Indices of two bytes, the longest list and one record more.
fn long_lists(compare: &mut Comparison) {
    for (width, count, spare) in [
        (4, 300, 10),
        (3, 700, 0),
        (2, RECORDS - 1, 0),
        (1, RECORDS - 1, 0),
        (8, 1000, 3095),
        (2, 5, 4090),
        (2, 5, 4091),
    ] {
        let records = random_list(&mut compare.random, width, count, spare);
        play_records(compare, &records);
    }
}
