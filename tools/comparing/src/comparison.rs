//! One case after another: the library's outcome against what the Rust says, or the model where the Rust has nothing to say.

use crate::library;
use crate::model::{self, Refusal, STRING};
use oracle::driver::answer::write_answer;
use oracle::driver::line::write_bytes;
use oracle::driver::{Answer, Call, answer};
use oracle::vectors::Random;

/// How many mismatches are printed.
const SHOWN: usize = 20;

/// The cases of one function.
struct Row {
    name: String,
    cases: usize,
    by_rust: usize,
    mismatches: usize,
}

/// What is right: a number, a value, and what is written at the start of the destination.
struct Expected {
    number: u64,
    value: u64,
    written: Vec<u8>,
    by_rust: bool,
}

pub struct Comparison {
    pub random: Random,
    rows: Vec<Row>,
    cases: usize,
    mismatches: usize,
}

impl Comparison {
    pub fn new(seed: u64) -> Comparison {
        Comparison {
            random: Random::new(seed),
            rows: Vec::new(),
            cases: 0,
            mismatches: 0,
        }
    }

    /// One case, with the destination that the call has; what the library made of it.
    pub fn case(&mut self, call: &Call) -> library::Outcome {
        self.held_to(&call.name, call, &expected(call))
    }

    /// A call that is to write these bytes, as other calls of the library have them; the Rust is not asked. It is counted by itself.
    pub fn same_bytes(&mut self, name: &str, call: &Call, bytes: &[u8]) {
        let expected = Expected {
            by_rust: false,
            ..accepted(0, bytes.to_vec())
        };
        self.held_to(name, call, &Ok(expected));
    }

    /// What the library makes of a call, against what is right.
    fn held_to(
        &mut self,
        name: &str,
        call: &Call,
        expected: &Result<Expected, String>,
    ) -> library::Outcome {
        let outcome = library::call(call, self.cases);
        let right = expected.as_ref().is_ok_and(|expected| {
            let (number, value) = (outcome.reply.number, outcome.reply.value);
            let (start, rest) = outcome.after.split_at(expected.written.len());
            (number, value) == (expected.number, expected.value)
                && start == expected.written
                && rest == &call.d[expected.written.len()..]
                && outcome.kept
        });
        if !right {
            self.show(call, &outcome, expected);
        }
        self.count(name, expected.as_ref().is_ok_and(|it| it.by_rust), right);
        outcome
    }

    /// What has to hold of the answers to cases about one record.
    pub fn claim(&mut self, name: &str, holds: bool, record: &[u8]) {
        if !holds && self.mismatches < SHOWN {
            println!("# {name} does not hold of {}", write_bytes(record));
        }
        self.count(name, true, holds);
    }

    fn count(&mut self, name: &str, by_rust: bool, right: bool) {
        let place = self.rows.iter().position(|row| row.name == name);
        let place = place.unwrap_or_else(|| {
            self.rows.push(Row {
                name: name.to_string(),
                cases: 0,
                by_rust: 0,
                mismatches: 0,
            });
            self.rows.len() - 1
        });
        let row = &mut self.rows[place];
        row.cases += 1;
        row.by_rust += usize::from(by_rust);
        row.mismatches += usize::from(!right);
        self.cases += 1;
        self.mismatches += usize::from(!right);
    }

    fn show(&self, call: &Call, outcome: &library::Outcome, expected: &Result<Expected, String>) {
        if self.mismatches >= SHOWN {
            return;
        }
        let (reply, after) = (&outcome.reply, write_bytes(&outcome.after));
        println!(
            "{} = {} {} {after}",
            call.write(),
            reply.number,
            reply.value
        );
        match expected {
            Ok(it) => println!(
                "# expected {} {}, written {}",
                it.number,
                it.value,
                write_bytes(&it.written)
            ),
            Err(why) => println!("# {why}"),
        }
        if !outcome.kept {
            println!("# bytes outside the destination are changed");
        }
    }

    /// A destination of this length, its bytes unlike those of records and texts. The last ones, which lie behind the answer where
    /// there is more room than it takes, are all different; the others are one byte, so that a line is short.
    pub fn room(&mut self, length: usize) -> Vec<u8> {
        let fill = 0xa0 + self.random.below(16) as u8;
        let last = length.saturating_sub(18);
        let byte = |place: usize| fill + place.saturating_sub(last) as u8;
        (0..length).map(byte).collect()
    }

    fn needs(call: &Call) -> usize {
        model::needs(call).unwrap_or(STRING)
    }

    /// A destination of this length.
    pub fn with_room(&mut self, call: &Call, length: usize) {
        let room = self.room(length);
        self.case(&call.clone().d(&room));
    }

    /// A destination of exactly the answer's length, and now and then of another one.
    pub fn some_room(&mut self, call: &Call) {
        let needs = Self::needs(call);
        let length = match self.random.below(16) {
            0 => 0,
            1 | 2 => needs.saturating_sub(1),
            3 | 4 => needs + 1,
            5 => needs + 17,
            _ => needs,
        };
        self.with_room(call, length);
    }

    /// Destinations around the answer's length, each in turn.
    pub fn each_room(&mut self, call: &Call) {
        let needs = Self::needs(call);
        let mut lengths = vec![needs, needs + 1, needs + 17];
        if needs > 0 {
            lengths.push(needs - 1);
        }
        for length in lengths {
            self.with_room(call, length);
        }
    }

    /// Destinations around the answer's length, of which one alone is long enough: the Rust is asked once.
    pub fn each_room_but_once(&mut self, call: &Call) {
        let needs = Self::needs(call);
        let more = self.random.pick(&[0, 1, 17]);
        for length in [0, needs - 1, needs + more] {
            self.with_room(call, length);
        }
    }

    /// The table by function; whether nothing differs.
    pub fn report(&self) -> bool {
        let line = |a: &str, b: &str, c: &str, d: &str, e: &str| {
            println!("{a:22} {b:>9} {c:>9} {d:>9} {e:>10}");
        };
        line("function", "cases", "the Rust", "the model", "mismatches");
        for row in &self.rows {
            let by_model = row.cases - row.by_rust;
            let [b, c, d, e] =
                [row.cases, row.by_rust, by_model, row.mismatches].map(|number| number.to_string());
            line(&row.name, &b, &c, &d, &e);
        }
        println!("{} cases, {} mismatches", self.cases, self.mismatches);
        self.mismatches == 0
    }
}

/// What the Rust says. Where the room is short it has nothing to say, so long products need not be made.
fn rust_says(call: &Call, model: &Result<usize, Refusal>) -> Answer {
    let long = matches!(
        call.name.as_str(),
        "compose" | "composed_x_image" | "composed_z_image" | "inverse" | "run"
    );
    if long && *model == Err((7, 0)) {
        return Answer::Outside;
    }
    answer(call).expect("a known name")
}

/// Whether the model has nothing to say against the value.
fn known(call: &Call, value: u64) -> bool {
    model::value(call).is_none_or(|known| known == value)
}

/// The Rust's answer, or the model's where the Rust has none; or how the two disagree.
fn expected(call: &Call) -> Result<Expected, String> {
    match call.name.as_str() {
        "report" => return Ok(expected_report(call)),
        "refusal_line" => return expected_line(call),
        _ => (),
    }
    let model = model::judge(call);
    let said = rust_says(call, &model);
    let refused = |(number, value): Refusal, by_rust: bool| Expected {
        number,
        value,
        written: Vec::new(),
        by_rust,
    };
    match (said, model) {
        (Answer::Value(value), Ok(0)) if known(call, value) => Ok(accepted(value, Vec::new())),
        (Answer::Written(value, bytes), Ok(needs))
            if needs == bytes.len() && known(call, value) =>
        {
            Ok(accepted(value, bytes))
        }
        (Answer::Refused(number, detail), Err(why)) if why == (number, detail) => {
            Ok(refused(why, true))
        }
        // The Rust says no more than that it is bad syntax.
        (Answer::Syntax, Err(why)) if (9..=11).contains(&why.0) => Ok(refused(why, true)),
        (Answer::Outside, Err(why)) => Ok(refused(why, false)),
        (Answer::Outside, Ok(0)) if model::value(call).is_some() => Ok(Expected {
            by_rust: false,
            ..accepted(model::value(call).unwrap_or_default(), Vec::new())
        }),
        (said, model) => Err(format!(
            "the Rust says {}, the model {model:?}",
            write_answer(call, &said)
        )),
    }
}

fn accepted(value: u64, written: Vec<u8>) -> Expected {
    Expected {
        number: 0,
        value,
        written,
        by_rust: true,
    }
}

/// What the program writes: the Rust's display text of the Rust's run, or the model's refusal.
pub fn report_text(list: &[u8]) -> (Vec<u8>, bool) {
    let width = match model::list(list) {
        Ok(width) => width,
        Err((number, detail)) => {
            return (
                format!("refused {number} at {detail}\n").into_bytes(),
                false,
            );
        }
    };
    let room = vec![0; model::tableau_length(width)];
    let Some(Answer::Written(_, record)) = answer(&Call::new("run").b1(list).d(&room)) else {
        panic!("the Rust does not run a list that the model admits");
    };
    let room = vec![0; 5 * record.len() + 100];
    let Some(Answer::Written(_, text)) = answer(&Call::new("display").b1(&record).d(&room)) else {
        panic!("the Rust does not show its own record");
    };
    (text, true)
}

fn expected_report(call: &Call) -> Expected {
    let (text, by_rust) = report_text(&call.b1);
    text_in_room(call, text, by_rust)
}

/// The model's line, which has to be the Rust's where the Rust has one.
fn expected_line(call: &Call) -> Result<Expected, String> {
    let [number, detail, width] = call.n;
    let text = model::refusal_line(number, detail, width);
    match answer(call) {
        Some(Answer::Written(_, said)) if said == text => Ok(text_in_room(call, text, true)),
        Some(Answer::Outside) => Ok(text_in_room(call, text, false)),
        said => Err(format!("the Rust says {said:?}, the model {text:?}")),
    }
}

/// A text, or 7 where it does not fit.
fn text_in_room(call: &Call, text: Vec<u8>, by_rust: bool) -> Expected {
    let short = text.len() > call.d.len();
    Expected {
        number: if short { 7 } else { 0 },
        value: if short { 0 } else { text.len() as u64 },
        written: if short { Vec::new() } else { text },
        by_rust: by_rust && !short,
    }
}
