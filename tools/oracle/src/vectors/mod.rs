//! Inputs of the vector files, the same on every run, answered by the Rust.

mod gates;
mod inputs;
mod pauli;
mod refusals;
mod tableaux;
mod text;
mod way_back;

use crate::driver::answer::{Answer, answer, write_answer};
use crate::driver::line::Call;
use crate::driver::records::{QUBITS, tableau_length};
pub use inputs::Random;

/// A display text has the most bytes: some four for each letter of a record.
const ROOM_FOR_ALL: usize = 5 * tableau_length(QUBITS);

/// The lines of one vector file.
#[derive(Default)]
pub struct Book {
    pub text: String,
}

impl Book {
    pub fn comment(&mut self, words: &str) {
        self.text += &format!("# {words}\n");
    }

    /// A call that the Rust accepts, or refuses with a number. Anything else is a slip in the inputs.
    pub fn add(&mut self, call: Call) {
        let answer = answer(&call).expect("a known name");
        assert!(
            !matches!(answer, Answer::Syntax | Answer::Outside),
            "not answered by the Rust: {}",
            call.write()
        );
        self.write(&call, &answer);
    }

    /// A call whose destination has exactly the room that its answer takes, and `more` bytes.
    pub fn add_sized(&mut self, call: &Call, more: usize) {
        let roomy = call.clone().d(&vec![0; ROOM_FOR_ALL]);
        let Some(Answer::Written(_, bytes)) = answer(&roomy) else {
            panic!("nothing written by {}", call.write());
        };
        self.add(call.clone().d(&inputs::room(bytes.len(), more)));
    }

    /// Any call; nothing is written where the Rust has nothing to say.
    pub fn add_if_judged(&mut self, call: &Call) {
        let answer = answer(call).expect("a known name");
        if answer != Answer::Outside {
            self.write(call, &answer);
        }
    }

    /// A call that has this answer where the Rust has nothing to say.
    pub fn add_or_due(&mut self, call: &Call, due: &Answer) {
        match answer(call).expect("a known name") {
            Answer::Outside => self.write(call, due),
            said => self.write(call, &said),
        }
    }

    /// A call that the scope document refuses with this number and detail; the Rust has no such answer.
    pub fn add_refused(&mut self, call: &Call, number: u64, detail: u64) {
        self.write(call, &Answer::Refused(number, detail));
    }

    /// A line that is no call of the Rust, with what it should give.
    pub fn add_due(&mut self, call: &Call, due: &Answer) {
        self.write(call, due);
    }

    fn write(&mut self, call: &Call, answer: &Answer) {
        self.text += &format!("{} = {}\n", call.write(), write_answer(call, answer));
    }
}

/// The vector file of a name.
pub fn vectors(name: &str) -> Option<String> {
    let mut book = Book::default();
    match name {
        "pauli" => pauli::fill(&mut book),
        "text" => text::fill(&mut book),
        "refusals" => refusals::fill(&mut book),
        "tableaux" => tableaux::fill(&mut book),
        "gates" => gates::fill(&mut book),
        "lists" => gates::fill_lists(&mut book),
        "way_back" => way_back::fill(&mut book),
        _ => return None,
    }
    Some(book.text)
}
