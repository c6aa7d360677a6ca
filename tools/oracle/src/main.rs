//! The oracle's commands, each a filter.

use oracle::driver::{answer_line, check};
use oracle::vectors::vectors;
use std::io::{self, BufRead, Write};
use std::process::ExitCode;

const USAGE: &str = "usage: oracle answer | oracle check | oracle vectors (pauli | text | refusals | tableaux | gates | lists | way_back)";

/// Calls on standard input, answered on standard output.
fn answer_all() -> Result<(), String> {
    let mut out = io::BufWriter::new(io::stdout().lock());
    for (number, line) in io::stdin().lock().lines().enumerate() {
        let line = line.map_err(|error| error.to_string())?;
        let answered = answer_line(&line).map_err(|why| format!("line {}: {why}", number + 1))?;
        writeln!(out, "{answered}").map_err(|error| error.to_string())?;
    }
    out.flush().map_err(|error| error.to_string())
}

/// Answered lines on standard input, compared with what the Rust says.
fn check_all() -> Result<(), String> {
    let text = io::read_to_string(io::stdin().lock()).map_err(|error| error.to_string())?;
    let tally = check::check(&text)?;
    print!("{}", tally.report());
    if tally.disagree == 0 {
        Ok(())
    } else {
        Err("the Rust disagrees".to_string())
    }
}

fn write_vectors(name: &str) -> Result<(), String> {
    let text = vectors(name).ok_or(USAGE)?;
    io::stdout()
        .lock()
        .write_all(text.as_bytes())
        .map_err(|error| error.to_string())
}

fn main() -> ExitCode {
    let arguments: Vec<String> = std::env::args().skip(1).collect();
    let words: Vec<&str> = arguments.iter().map(String::as_str).collect();
    let done = match words[..] {
        ["answer"] => answer_all(),
        ["check"] => check_all(),
        ["vectors", name] => write_vectors(name),
        _ => Err(USAGE.to_string()),
    };
    match done {
        Ok(()) => ExitCode::SUCCESS,
        Err(why) => {
            eprintln!("oracle: {why}");
            ExitCode::FAILURE
        }
    }
}
