//! Lists of 4,095 random gates: `rc_run` against the same `compose` calls in the Rust.

use crate::page::{Figure, Goal};
use crate::plain;
use crate::timing::least;
use oracle::clifford::Clifford;
use oracle::clifford_rep::CliffordRep;
use oracle::driver::records::{read_tableau, write_tableau};
use oracle::vectors::Random;
use renetcleat::tableau_length;
use std::hint::black_box;
use std::time::Instant;

const GATES: usize = 4095;
/// Of the widest list so many steps are timed in the Rust, unless the whole is asked for.
const SAMPLED: usize = 40;

type Step = (Clifford, usize, usize);

pub fn all(random: &mut Random, whole: bool) -> Vec<Figure> {
    plain::prepare_gates();
    [8, 20, 128]
        .into_iter()
        .map(|width| figure(random, width, whole))
        .collect()
}

/// The first `count` steps as a list, each record behind the one before.
fn list_of(width: usize, steps: &[Step]) -> Vec<u8> {
    let mut list = vec![0, width as u8, 0, 0];
    for (place, (gate, q0, q1)) in steps.iter().enumerate() {
        list.extend(((place + 1) as u16).to_le_bytes());
        list.extend([*gate as u8, *q0 as u8, *q1 as u8, 0]);
    }
    list.extend([0, 0]);
    list
}

fn run(width: usize, steps: &[Step]) -> Vec<u8> {
    let mut record = vec![0; tableau_length(width)];
    let count = renetcleat::run(&list_of(width, steps), &mut record);
    assert_eq!(count, Ok(steps.len() as u64));
    record
}

fn step(record: &CliffordRep, (gate, q0, q1): Step) -> CliffordRep {
    gate.on_qubits(q0, q1).compose(record)
}

fn run_in_rust(width: usize, steps: &[Step]) -> CliffordRep {
    let start = CliffordRep::identity(width);
    steps
        .iter()
        .fold(start, |record, gate| step(&record, *gate))
}

/// The time of all steps, from some that are spread evenly over the list. Each step is held to the library's.
fn sampled(width: usize, steps: &[Step]) -> f64 {
    let mut seconds = 0.0;
    for sample in 0..SAMPLED {
        let place = sample * steps.len() / SAMPLED;
        let record = read_tableau(&run(width, &steps[..place])).unwrap();
        let start = Instant::now();
        let next = black_box(step(&record, steps[place]));
        seconds += start.elapsed().as_secs_f64();
        assert_eq!(write_tableau(&next), Some(run(width, &steps[..=place])));
    }
    seconds * steps.len() as f64 / SAMPLED as f64
}

fn once(width: usize, steps: &[Step], expected: &[u8]) -> f64 {
    let start = Instant::now();
    let record = black_box(run_in_rust(width, steps));
    let seconds = start.elapsed().as_secs_f64();
    assert_eq!(write_tableau(&record).as_deref(), Some(expected));
    seconds
}

fn figure(random: &mut Random, width: usize, whole: bool) -> Figure {
    let steps: Vec<Step> = (0..GATES).map(|_| random.gate(width)).collect();
    let (list, expected) = (list_of(width, &steps), run(width, &steps));
    let (mut ours, mut theirs) = (vec![0; expected.len()], vec![0; expected.len()]);
    assert_eq!(plain::run(&list, &mut theirs), GATES);
    assert_eq!(theirs, expected);
    let extrapolated = width == 128 && !whole;
    let rust = match width {
        128 if extrapolated => sampled(width, &steps),
        128 => once(width, &steps, &expected),
        _ => (0..2)
            .map(|_| once(width, &steps, &expected))
            .fold(f64::MAX, f64::min),
    };
    let size = format!("width {width}");
    Figure {
        call: "list of 4,095 gates",
        size: if extrapolated {
            size + " (Rust: extrapolated)"
        } else {
            size
        },
        rust,
        ours: least(|| renetcleat::run(&list, &mut ours)),
        plain: least(|| plain::run(&list, &mut theirs)),
        goal: if width == 128 {
            Goal::Times(20_000.0)
        } else {
            Goal::None
        },
    }
}
