//! Compares every function of the library, through its C interface, with the Rust on the same inputs in one process.

mod cases;
mod comparison;
mod inputs;
mod library;
mod model;

use comparison::Comparison;
use std::process::ExitCode;
use std::time::Instant;

type Suite = (&'static str, fn(&mut Comparison));

const SUITES: &[Suite] = &[
    ("phases", cases::phases::all),
    ("strings", cases::strings::all),
    ("text", cases::text::all),
    ("gates", cases::gates::all),
    ("tableaux", cases::tableaux::all),
    ("previews", cases::previews::all),
    ("validity", cases::validity::all),
    ("refusals", cases::refusals::all),
    // Lists stand apart, behind a feature: see Cargo.toml.
    #[cfg(feature = "lists")]
    ("lists", cases::lists::all),
];

fn main() -> ExitCode {
    let asked: Vec<String> = std::env::args().skip(1).collect();
    let mut compare = Comparison::new(7);
    for (name, all) in SUITES {
        if asked.is_empty() || asked.iter().any(|word| word == name) {
            let start = Instant::now();
            all(&mut compare);
            eprintln!("{name}: {} s", start.elapsed().as_secs());
        }
    }
    if compare.report() {
        ExitCode::SUCCESS
    } else {
        ExitCode::FAILURE
    }
}
