//! From a call to its answer, and from a line to its answered line.

use super::line::{Call, write_bytes};
use super::{gates, list, refusals, strings, tableaux, text};

/// What the Rust says of a call.
#[derive(Debug, Clone, PartialEq)]
pub enum Answer {
    /// A value, with nothing written.
    Value(u64),
    /// A value, with these bytes at the start of the destination.
    Written(u64, Vec<u8>),
    /// A refusal that the Rust reports with its detail: the number and the detail.
    Refused(u64, u64),
    /// A refusal whose number and offset the Rust does not give.
    Syntax,
    /// Outside the compared domain: the Rust has nothing to say.
    Outside,
}

/// The answer to a record that is written: value 0.
pub fn written(bytes: Vec<u8>) -> Answer {
    Answer::Written(0, bytes)
}

/// The answer to bytes whose count is the value.
pub fn counted(bytes: Vec<u8>) -> Answer {
    Answer::Written(bytes.len() as u64, bytes)
}

fn known(call: &Call) -> Option<Option<Answer>> {
    strings::answer(call)
        .or_else(|| text::answer(call))
        .or_else(|| tableaux::answer(call))
        .or_else(|| gates::answer(call))
        .or_else(|| list::answer(call))
        .or_else(|| refusals::answer(call))
}

/// The answer to a call, or nothing for a name that is not known.
pub fn answer(call: &Call) -> Option<Answer> {
    let answer = known(call)?.unwrap_or(Answer::Outside);
    match &answer {
        // The Rust has no destinations, so it cannot say that one is too short.
        Answer::Written(_, bytes) if bytes.len() > call.d.len() => Some(Answer::Outside),
        _ => Some(answer),
    }
}

/// The destination after the call.
pub fn destination_after(call: &Call, answer: &Answer) -> Vec<u8> {
    let mut after = call.d.clone();
    if let Answer::Written(_, bytes) = answer {
        after[..bytes.len()].copy_from_slice(bytes);
    }
    after
}

/// An answer as it stands behind a call.
pub fn write_answer(call: &Call, answer: &Answer) -> String {
    let (number, value) = match answer {
        Answer::Value(value) | Answer::Written(value, _) => (0, *value),
        Answer::Refused(number, detail) => (*number, *detail),
        Answer::Syntax => return "!".to_string(),
        Answer::Outside => return "?".to_string(),
    };
    let after = destination_after(call, answer);
    let after = if after == call.d {
        ".".to_string()
    } else {
        write_bytes(&after)
    };
    format!("{number} {value} {after}")
}

/// A line with its answer behind it; an answer that it already has is replaced.
pub fn answer_line(line: &str) -> Result<String, String> {
    if line.starts_with('#') || line.is_empty() {
        return Ok(line.to_string());
    }
    let asked = line.split(" = ").next().unwrap();
    let call = Call::read(asked)?;
    let answer = answer(&call).ok_or_else(|| format!("{} is no known name", call.name))?;
    Ok(format!("{asked} = {}", write_answer(&call, &answer)))
}
