//! Compares answered lines, also those written by hand, with what the Rust says.

use super::answer::{Answer, answer, write_answer};
use super::line::{Call, read_bytes, read_number};
use std::collections::BTreeMap;

/// How lines came out, and what is to be said of them.
#[derive(Default)]
pub struct Tally {
    pub agree: usize,
    /// The Rust refuses too, without a number.
    pub refused: usize,
    /// The Rust has nothing to say.
    pub outside: usize,
    pub disagree: usize,
    by_name: BTreeMap<String, usize>,
    notes: String,
}

/// A reply that stands in a line: number, value, destination after the call.
fn read_reply(call: &Call, text: &str) -> Result<(u64, u64, Vec<u8>), String> {
    let fields: Vec<&str> = text.split(' ').collect();
    let [number, value, after] = fields[..] else {
        return Err(format!("{text:?} is no reply"));
    };
    let after = if after == "." {
        call.d.clone()
    } else {
        read_bytes(after)?
    };
    Ok((read_number(number)?, read_number(value)?, after))
}

impl Tally {
    fn disagreement(&mut self, place: usize, line: &str, said: &str) {
        self.disagree += 1;
        self.notes += &format!("line {place}: {line}\n  the Rust: {said}\n");
    }

    fn line(&mut self, place: usize, line: &str) -> Result<(), String> {
        let (asked, reply) = line.split_once(" = ").ok_or("no answer")?;
        let call = Call::read(asked)?;
        *self.by_name.entry(call.name.clone()).or_default() += 1;
        if reply == "!" {
            return self.syntax_line(place, line, &call);
        }
        let (number, value, after) = read_reply(&call, reply)?;
        if number != 0 && after != call.d {
            return Err("a refusal that changes the destination".to_string());
        }
        let said = answer(&call).ok_or("no known name")?;
        let written = write_answer(&call, &said);
        match said {
            Answer::Outside => self.outside += 1,
            // What the Rust calls bad syntax is an unknown letter, no index or no numeral.
            Answer::Syntax if (9..=11).contains(&number) => self.refused += 1,
            Answer::Syntax => self.disagreement(place, line, &written),
            _ if read_reply(&call, &written)? == (number, value, after) => self.agree += 1,
            _ => self.disagreement(place, line, &written),
        }
        Ok(())
    }

    /// A line that says no more than that the text is refused as bad syntax.
    fn syntax_line(&mut self, place: usize, line: &str, call: &Call) -> Result<(), String> {
        let said = answer(call).ok_or("no known name")?;
        match said {
            Answer::Outside => self.outside += 1,
            Answer::Syntax => self.refused += 1,
            _ => self.disagreement(place, line, &write_answer(call, &said)),
        }
        Ok(())
    }

    pub fn report(&self) -> String {
        let mut text = self.notes.clone();
        for (name, count) in &self.by_name {
            text += &format!("{count:6} {name}\n");
        }
        let all: usize = self.by_name.values().sum();
        text += &format!(
            "{all} lines: {} agree, {} refused by both, {} outside, {} disagree\n",
            self.agree, self.refused, self.outside, self.disagree
        );
        text
    }
}

pub fn check(text: &str) -> Result<Tally, String> {
    let mut tally = Tally::default();
    for (number, line) in text.lines().enumerate() {
        if line.starts_with('#') || line.is_empty() {
            continue;
        }
        tally
            .line(number + 1, line)
            .map_err(|why| format!("line {}: {why}", number + 1))?;
    }
    Ok(tally)
}
