//! Single calls: the three sides answer alike, then each is timed.

use crate::page::{Figure, Goal, Share};
use crate::plain;
use crate::timing::least;
use oracle::clifford::Clifford;
use oracle::driver::records::{read_string, read_tableau, write_string, write_tableau};
use oracle::vectors::Random;
use oracle::{Pauli, PauliOperator, PauliString, QuarterPhase, QubitId};
use renetcleat::{STRING_LENGTH, tableau_length};

pub fn all(random: &mut Random) -> Vec<Figure> {
    let mut figures = Vec::new();
    figures.push(product(random, 20));
    for letters in [64, 127] {
        figures.push(product(&mut Random::new(3), letters));
    }
    figures.push(product(random, 128));
    for letters in [20, 128] {
        figures.push(places(&mut Random::new(6), letters));
    }
    for count in [20, 128] {
        let read = named(&mut Random::new(11), count);
        figures.extend([from_entries(&read), from_text(&read)]);
    }
    for width in [20, 128] {
        figures.push(apply(random, width));
    }
    for width in [20, 64, 128] {
        figures.extend(of_tableaux(random, width, FULL));
    }
    figures.push(play(&mut Random::new(9), 128));
    // The Rust's time goes by the letters that are not I, so a sparser tableau says something else.
    figures.extend(of_tableaux(random, 128, SPARSER));
    figures
}

fn of_tableaux(random: &mut Random, width: usize, gates: usize) -> Vec<Figure> {
    let [left, right] = [(); 2].map(|()| valid_tableau(random, width, gates));
    let composed = compose(&left, &right);
    let preview = (width == 128).then(|| preview(&left, &right, composed.ours));
    let figures = [composed, inverse(&left), is_valid(&left)];
    figures.into_iter().chain(preview).collect()
}

/// Any letters on the first qubits, I on the others.
fn string(random: &mut Random, letters: usize) -> Vec<u8> {
    let mut record = random.full_string(1);
    record[1 + letters..].fill(0);
    record
}

/// Random gates for each qubit: so many that about three letters of four are not I, as of any letters; and fewer.
const FULL: usize = 32;
const SPARSER: usize = 8;

fn valid_tableau(random: &mut Random, width: usize, gates: usize) -> Vec<u8> {
    let mut record = vec![0; tableau_length(width)];
    renetcleat::identity(width, &mut record).unwrap();
    for _ in 0..gates * width {
        let (gate, q0, q1) = random.gate(width);
        let mut tableau = vec![0; tableau_length(1 + q0.max(q1))];
        renetcleat::on_qubits(gate as u8, q0, q1, &mut tableau).unwrap();
        let mut next = vec![0; record.len()];
        renetcleat::compose(&tableau, &record, &mut next).unwrap();
        record = next;
    }
    record
}

/// The share of a tableau's letters that are not I, in percent: each row's weight is the byte behind its phase.
fn letters(record: &[u8]) -> usize {
    let width = usize::from(record[0]);
    let rows = record[1..].chunks(width + 2);
    let letters: usize = rows.map(|row| usize::from(row[1])).sum();
    100 * letters / (2 * width * width)
}

fn size(record: &[u8]) -> String {
    format!("width {}, {} % letters", record[0], letters(record))
}

/// The goals are those of full tableaux.
fn is_full(record: &[u8]) -> bool {
    record[0] == 128 && letters(record) >= 70
}

fn goal(record: &[u8]) -> Goal {
    if is_full(record) {
        Goal::TimesAndPlain(200.0)
    } else {
        Goal::None
    }
}

/// Two strings, the first with a letter at the last of the qubits named.
fn factors(random: &mut Random, letters: usize) -> (Vec<u8>, Vec<u8>) {
    let (mut s, t) = (string(random, letters), string(random, letters));
    s[letters] = s[letters].max(1);
    (s, t)
}

/// What part of a product's time its questions take.
pub fn questions(random: &mut Random) -> Vec<Share> {
    let share = |letters| {
        let (s, t) = factors(random, letters);
        let mut dst = [0; STRING_LENGTH];
        Share {
            call: "product of strings",
            size: format!("{letters} letters"),
            whole: least(|| renetcleat::mul(&s, &t, &mut dst)),
            questions: least(|| renetcleat::mul(&s, &t, &mut dst[1..])),
        }
    };
    [20, 128].map(share).into()
}

fn product(random: &mut Random, letters: usize) -> Figure {
    let (s, t) = factors(random, letters);
    let (left, right) = (read_string(&s).unwrap(), read_string(&t).unwrap());
    let (mut ours, mut theirs) = ([0; STRING_LENGTH], [0; STRING_LENGTH]);
    assert_eq!(renetcleat::mul(&s, &t, &mut ours), Ok(letters as u64));
    plain::mul(&s, &t, &mut theirs);
    assert!(ours == theirs && write_string(&(&left * &right)).as_deref() == Some(&ours));
    Figure {
        call: "product of strings",
        size: format!("{letters} letters"),
        rust: least(|| &left * &right),
        ours: least(|| renetcleat::mul(&s, &t, &mut ours)),
        plain: least(|| plain::mul(&s, &t, &mut theirs)),
        goal: if letters == 20 {
            Goal::PlainTimes(3.0)
        } else {
            Goal::Faster
        },
    }
}

/// The Rust says whether the number is even.
fn places(random: &mut Random, letters: usize) -> Figure {
    let (s, t) = (string(random, letters), string(random, letters));
    let (left, right) = (read_string(&s).unwrap(), read_string(&t).unwrap());
    let number = renetcleat::anticommuting_places(&s, &t).unwrap();
    assert!(number == u64::from(plain::anticommuting_places(&s, &t)));
    assert!(left.commutes_with(&right) == (number % 2 == 0));
    Figure {
        call: "anticommuting_places",
        size: format!("{letters} letters"),
        rust: least(|| left.commutes_with(&right)),
        ours: least(|| renetcleat::anticommuting_places(&s, &t)),
        plain: least(|| plain::anticommuting_places(&s, &t)),
        goal: Goal::Faster,
    }
}

/// Letters other than I and their qubits, in any order.
fn named(random: &mut Random, count: usize) -> Vec<(u8, u8)> {
    let mut qubits: Vec<u8> = (0..128).collect();
    random.shuffle(&mut qubits);
    qubits.truncate(count);
    qubits
        .into_iter()
        .map(|it| (random.pick(&[1, 2, 3]), it))
        .collect()
}

/// The Rust is handed a list of its own, a copy of which it sorts.
fn from_entries(read: &[(u8, u8)]) -> Figure {
    let entries: Vec<u8> = read
        .iter()
        .flat_map(|&(letter, qubit)| [letter, qubit])
        .collect();
    let letter = |byte: u8| [Pauli::I, Pauli::X, Pauli::Z, Pauli::Y][usize::from(byte)];
    let own: Vec<(Pauli, QubitId)> = read
        .iter()
        .map(|&(byte, qubit)| (letter(byte), QubitId::from(usize::from(qubit))))
        .collect();
    let string = || PauliString::with_phase_and_paulis(QuarterPhase::PlusOne, own.clone()).unwrap();
    let (mut ours, mut theirs) = ([0; STRING_LENGTH], [0; STRING_LENGTH]);
    renetcleat::with_phase_and_paulis(0, &entries, &mut ours).unwrap();
    plain::from_entries(&entries, &mut theirs);
    assert!(ours == theirs && write_string(&string()).as_deref() == Some(&ours));
    Figure {
        call: "with_phase_and_paulis",
        size: format!("{} entries", read.len()),
        rust: least(string),
        ours: least(|| renetcleat::with_phase_and_paulis(0, &entries, &mut ours)),
        plain: least(|| plain::from_entries(&entries, &mut theirs)),
        goal: Goal::Faster,
    }
}

fn from_text(read: &[(u8, u8)]) -> Figure {
    let tokens: Vec<String> = read
        .iter()
        .map(|&(letter, qubit)| format!("{}{qubit}", ["I", "X", "Z", "Y"][usize::from(letter)]))
        .collect();
    let text = tokens.join(" ");
    let string = || PauliString::from_sparse_str(&text).unwrap();
    let (mut ours, mut theirs) = ([0; STRING_LENGTH], [0; STRING_LENGTH]);
    renetcleat::from_sparse_str(text.as_bytes(), &mut ours).unwrap();
    plain::from_text(text.as_bytes(), &mut theirs);
    assert!(ours == theirs && write_string(&string()).as_deref() == Some(&ours));
    Figure {
        call: "from_sparse_str",
        size: format!("{} entries", read.len()),
        rust: least(string),
        ours: least(|| renetcleat::from_sparse_str(text.as_bytes(), &mut ours)),
        plain: least(|| plain::from_text(text.as_bytes(), &mut theirs)),
        goal: Goal::Faster,
    }
}

fn apply(random: &mut Random, width: usize) -> Figure {
    let (record, s) = (valid_tableau(random, width, FULL), string(random, width));
    let (tableau, image) = (read_tableau(&record).unwrap(), read_string(&s).unwrap());
    let (mut ours, mut theirs) = ([0; STRING_LENGTH], [0; STRING_LENGTH]);
    renetcleat::apply(&record, &s, &mut ours).unwrap();
    plain::apply(&record, &s, &mut theirs);
    assert!(ours == theirs && write_string(&tableau.apply(&image)).as_deref() == Some(&ours));
    Figure {
        call: "apply",
        size: size(&record),
        rust: least(|| tableau.apply(&image)),
        ours: least(|| renetcleat::apply(&record, &s, &mut ours)),
        plain: least(|| plain::apply(&record, &s, &mut theirs)),
        goal: Goal::Faster,
    }
}

fn compose(a: &[u8], b: &[u8]) -> Figure {
    let (left, right) = (read_tableau(a).unwrap(), read_tableau(b).unwrap());
    let (mut ours, mut theirs) = (vec![0; a.len()], vec![0; a.len()]);
    renetcleat::compose(a, b, &mut ours).unwrap();
    plain::compose(a, b, &mut theirs);
    assert!(ours == theirs && write_tableau(&left.compose(&right)).as_ref() == Some(&ours));
    Figure {
        call: "compose",
        size: size(a),
        rust: least(|| left.compose(&right)),
        ours: least(|| renetcleat::compose(a, b, &mut ours)),
        plain: least(|| plain::compose(a, b, &mut theirs)),
        goal: goal(a),
    }
}

/// One image of two tableaux that this library composes in so many seconds.
fn preview(a: &[u8], b: &[u8], seconds: f64) -> Figure {
    let (left, right) = (read_tableau(a).unwrap(), read_tableau(b).unwrap());
    let qubit = usize::from(b[0]) / 3;
    let (mut ours, mut theirs) = ([0; STRING_LENGTH], [0; STRING_LENGTH]);
    renetcleat::composed_x_image(a, b, qubit, &mut ours).unwrap();
    plain::composed_x_image(a, b, qubit, &mut theirs);
    let image = || left.compose(&right).x_image(qubit).clone();
    assert!(ours == theirs && write_string(&image()).as_deref() == Some(&ours));
    Figure {
        call: "composed_x_image",
        size: size(a),
        rust: least(image),
        ours: least(|| renetcleat::composed_x_image(a, b, qubit, &mut ours)),
        plain: least(|| plain::composed_x_image(a, b, qubit, &mut theirs)),
        goal: if is_full(a) {
            Goal::TimesCompose(50.0, seconds)
        } else {
            Goal::None
        },
    }
}

/// CX on a full tableau.
fn play(random: &mut Random, width: usize) -> Figure {
    let record = valid_tableau(random, width, FULL);
    let (gate, q0, q1) = (Clifford::CX, width / 3, width - 1);
    let tableau = read_tableau(&record).unwrap();
    let (mut ours, mut theirs) = (record.clone(), record.clone());
    plain::prepare_gates();
    renetcleat::play(&mut ours, gate as u8, q0, q1).unwrap();
    plain::play(&mut theirs, gate as u8, q0, q1);
    let step = || gate.on_qubits(q0, q1).compose(&tableau);
    assert!(ours == theirs && write_tableau(&step()).as_ref() == Some(&ours));
    Figure {
        call: "play",
        size: size(&record),
        rust: least(step),
        ours: least(|| renetcleat::play(&mut ours, gate as u8, q0, q1)),
        plain: least(|| plain::play(&mut theirs, gate as u8, q0, q1)),
        goal: Goal::Faster,
    }
}

fn inverse(record: &[u8]) -> Figure {
    let tableau = read_tableau(record).unwrap();
    let (mut ours, mut theirs) = (vec![0; record.len()], vec![0; record.len()]);
    renetcleat::inverse(record, &mut ours).unwrap();
    plain::inverse(record, &mut theirs);
    assert!(ours == theirs && write_tableau(&tableau.inverse()).as_ref() == Some(&ours));
    Figure {
        call: "inverse",
        size: size(record),
        rust: least(|| tableau.inverse()),
        ours: least(|| renetcleat::inverse(record, &mut ours)),
        plain: least(|| plain::inverse(record, &mut theirs)),
        goal: goal(record),
    }
}

fn is_valid(record: &[u8]) -> Figure {
    let tableau = read_tableau(record).unwrap();
    assert!(tableau.is_valid() && renetcleat::is_valid(record) == Ok(1) && plain::is_valid(record));
    Figure {
        call: "is_valid",
        size: size(record),
        rust: least(|| tableau.is_valid()),
        ours: least(|| renetcleat::is_valid(record)),
        plain: least(|| plain::is_valid(record)),
        goal: goal(record),
    }
}
