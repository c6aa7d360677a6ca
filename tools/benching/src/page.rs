//! docs/BENCHMARKS.md.

use std::fs;
use std::process::Command;

/// What is to hold of a figure.
pub enum Goal {
    None,
    /// Faster than the Rust.
    Faster,
    /// So many times as fast as plain C.
    PlainTimes(f64),
    /// So many times as fast as the Rust.
    #[cfg(feature = "lists")]
    Times(f64),
    /// So many times as fast as the Rust, and no slower than plain C.
    TimesAndPlain(f64),
    /// So many times as fast as this library's `compose` on the same tableaux, whose seconds these are.
    TimesCompose(f64, f64),
}

/// Seconds of one call on each side.
pub struct Figure {
    pub call: &'static str,
    pub size: String,
    pub rust: f64,
    pub ours: f64,
    pub plain: f64,
    pub goal: Goal,
}

/// Seconds of a call, and of the same call with a destination one byte short, which is refused when all questions are put.
pub struct Share {
    pub call: &'static str,
    pub size: String,
    pub whole: f64,
    pub questions: f64,
}

impl Share {
    fn line(&self) -> String {
        format!(
            "- {}, {}: {} of {}, {:.0} %\n",
            self.call,
            self.size,
            time(self.questions),
            time(self.whole),
            100.0 * self.questions / self.whole
        )
    }
}

/// Three digits and a unit.
fn time(seconds: f64) -> String {
    let (number, unit) = match seconds {
        s if s < 1e-6 => (s * 1e9, "ns"),
        s if s < 1e-3 => (s * 1e6, "µs"),
        s if s < 1.0 => (s * 1e3, "ms"),
        s => (s, "s"),
    };
    format!("{} {unit}", three_digits(number))
}

fn three_digits(number: f64) -> String {
    match number {
        n if n < 10.0 => format!("{n:.2}"),
        n if n < 100.0 => format!("{n:.1}"),
        n => grouped(n.round() as u64),
    }
}

fn grouped(number: u64) -> String {
    let digits = number.to_string();
    let place = |index: usize| index > 0 && (digits.len() - index).is_multiple_of(3);
    let parts = digits.char_indices().map(|(index, digit)| {
        let comma = if place(index) { "," } else { "" };
        format!("{comma}{digit}")
    });
    parts.collect()
}

impl Figure {
    fn goal(&self) -> String {
        let (times, against_plain) = (self.rust / self.ours, self.plain / self.ours);
        let (words, met) = match self.goal {
            Goal::None => return String::new(),
            Goal::Faster => ("faster than the Rust".to_string(), times > 1.0),
            Goal::PlainTimes(least) => (
                format!("{} times plain C", grouped(least as u64)),
                against_plain >= least,
            ),
            #[cfg(feature = "lists")]
            Goal::Times(least) => (at_least(least), times >= least),
            Goal::TimesAndPlain(least) => (
                at_least(least) + ", no slower than C",
                times >= least && against_plain >= 1.0,
            ),
            Goal::TimesCompose(least, compose) => {
                let times = compose / self.ours;
                let said = [grouped(least as u64), three_digits(times)];
                let words = said.join(" times this library's compose, measured ");
                (words, times >= least)
            }
        };
        format!("{words}: {}", if met { "met" } else { "**not met**" })
    }

    fn line(&self) -> String {
        format!(
            "| {} | {} | {} | {} | {} | {} | {} | {} |\n",
            self.call,
            self.size,
            time(self.rust),
            time(self.ours),
            time(self.plain),
            three_digits(self.rust / self.ours),
            three_digits(self.plain / self.ours),
            self.goal()
        )
    }
}

fn at_least(times: f64) -> String {
    format!("{} times the Rust", grouped(times as u64))
}

/// The first line that a command writes.
fn said(program: &str, argument: &str) -> String {
    let output = Command::new(program).arg(argument).output();
    let text = output.map_or(String::new(), |it| {
        String::from_utf8_lossy(&it.stdout).into_owned()
    });
    text.lines().next().unwrap_or("unknown").to_string()
}

fn processor() -> String {
    let text = fs::read_to_string("/proc/cpuinfo").unwrap_or_default();
    let line = text.lines().find(|line| line.starts_with("model name"));
    let name = line.and_then(|line| line.split(": ").nth(1));
    let count = text
        .lines()
        .filter(|line| line.starts_with("processor"))
        .count();
    format!("{}, {count} processors", name.unwrap_or("unknown"))
}

/// The machine's load average over a minute.
pub fn load() -> String {
    let text = fs::read_to_string("/proc/loadavg").unwrap_or_default();
    text.split(' ').next().unwrap_or("unknown").to_string()
}

const HEAD: &str = "# Benchmarks

Made by `tools/bench`, never part of the tests. One driver times three sides on the same inputs, once all three have given the same
answer; a figure is the least of repeated runs.

- Rust: PECOS's own files (`tools/oracle`), an ordinary release build, called directly on its own values; nothing is read or written
  as a record inside the timed part.
- this library: through the C interface, questions on entry included.
- plain C: `tools/benching/src/plain.c`, loops over bytes with tables, `gcc -O3`. It trusts its inputs, and keeps the
  rows' weights too.

Strings have any letters on the qubits named, the first factor of a product one other than I on the last of them, and I on the
others. Tableaux are valid, of random gates; how many of their letters are not I stands beside the width, and 75 % is full. A list's
gates and qubits are random; in the Rust each step composes the gate's tableau with the record. A gate played by itself (`play`) is
CX on a full tableau, which the library reads through for its questions. Of two strings the Rust says whether they commute
(`commutes_with`), the other two at how many places they do not. Of a product this library also tells the places that it took.
Entries and the tokens of a sparse text name distinct qubits in any order; the Rust sorts them, and is handed a copy of a list of
its own where a text is not read. Plain C looks for no duplicate. A preview (`composed_x_image`) is one row of what the `compose`
above it gives, without the others; the Rust has none, so it composes and hands out the image. Its goal is held against this
library's `compose` of the same tableaux, in the same run.

The Rust's time goes by the letters that are not I, this library's much less: on sparse tableaux the ratio is smaller, and the goals
are those of full ones.
";

/// The page; `load` is the machine's load before the first figure.
pub fn page(figures: &[Figure], shares: &[Share], load: &str) -> String {
    let mut text = HEAD.to_string();
    text += &format!("\nMachine: {}. Load average before: {load}.\n", processor());
    let compilers = [
        said("rustc", "--version"),
        said("gcc", "--version"),
        said("rt", "version"),
    ];
    text += &format!("Compilers: {}.\n\n", compilers.join("; "));
    text +=
        "| call | size | Rust | this library | plain C | Rust ÷ library | C ÷ library | goal |\n";
    text += "|---|---|---|---|---|---|---|---|\n";
    text.extend(figures.iter().map(Figure::line));
    text += "\nWhat part the questions take, by the same call with a destination one byte short, which is refused when all are put:\n\n";
    text.extend(shares.iter().map(Share::line));
    if figures
        .iter()
        .any(|figure| figure.size.contains("extrapolated"))
    {
        text += "\nExtrapolated: 40 of the 4,095 steps, spread evenly over the list, are timed in the Rust; `tools/bench whole` runs them all.\n";
    }
    text
}
