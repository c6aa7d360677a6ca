//! Lists of `compose` calls on a record, refused ones among them, to be played forth and back.

use super::Book;
use super::inputs::{Random, room};
use crate::clifford_rep::CliffordRep;
use crate::driver::answer::{Answer, written};
use crate::driver::line::Call;
use crate::driver::records::{
    read_string, read_tableau, tableau_length, weight_offset, write_string, write_tableau,
};

/// How many strings are sent through a list, each with a phase of its own.
const STRINGS: u8 = 4;

pub fn fill(book: &mut Book) {
    let random = &mut Random::new(6);
    book.comment("Made by `oracle vectors way_back`: what is written is the Rust's, refusals are the scope document's.");
    for (width, steps, gates) in [
        (0, 1, 0),
        (1, 4, 3),
        (2, 4, 6),
        (3, 4, 9),
        (6, 3, 18),
        (20, 3, 30),
        (128, 2, 6),
    ] {
        let tableaux: Vec<Vec<u8>> = (0..steps)
            .map(|_| {
                let narrow = random.below(width + 1);
                random.valid_tableau(if width == 128 { width } else { narrow }, gates)
            })
            .collect();
        for mark in 0..=steps {
            let products = match width {
                0 | 128 => vec![width / 2],
                _ => vec![width, random.below(width)],
            };
            for product in products {
                play(book, random, width, product, &tableaux, mark);
            }
        }
    }
}

/// The list, with the record after `mark` steps as the one to come back to. The product of the later steps starts from the identity
/// of width `product`.
fn play(
    book: &mut Book,
    random: &mut Random,
    width: usize,
    product: usize,
    tableaux: &[Vec<u8>],
    mark: usize,
) {
    let length = tableau_length(width);
    let start = |name: &str| Call::new(name).n(&[width as u64, product as u64]);
    book.comment(&format!(
        "Width {width}, back to step {mark} of {}, by a product from width {product}.",
        tableaux.len()
    ));
    book.add(start("identity").d(&room(length, 0)));
    let mut record = write_tableau(&CliffordRep::identity(width)).unwrap();
    let strings: Vec<Vec<u8>> = (0..STRINGS)
        .map(|phase| random.string_on(phase, width))
        .collect();
    let mut sent = strings.clone();
    for (step, tableau) in tableaux.iter().enumerate() {
        if step == mark {
            book.add_due(&start("mark"), &Answer::Value(0));
        }
        let on_record = Call::new("compose").b2(&record);
        refused(book, random, &on_record, tableau, length);
        book.add(on_record.clone().b1(tableau).d(&room(length, step % 3)));
        let step_tableau = read_tableau(tableau).unwrap();
        record = write_tableau(&step_tableau.compose(&read_tableau(&record).unwrap())).unwrap();
        if step < mark {
            let call = Call::new("send").b1(tableau).b2(&sent.concat());
            book.add(call.d(&room(sent.concat().len(), 0)));
            for string in &mut sent {
                let image = step_tableau.apply(&read_string(string).unwrap());
                *string = write_string(&image).unwrap();
            }
        }
    }
    if mark == tableaux.len() {
        book.add_due(&start("mark"), &Answer::Value(0));
    }
    refused(
        book,
        random,
        &Call::new("compose").b2(&record),
        &tableaux[0],
        length,
    );
    let back = Call::new("back").b2(&strings.concat());
    book.add_due(
        &back.d(&room(sent.concat().len(), 0)),
        &written(sent.concat()),
    );
}

/// One call that is refused: too wide, of a wrong length, with a byte of 4, with a false weight, or with a destination short by one.
fn refused(book: &mut Book, random: &mut Random, call: &Call, tableau: &[u8], length: usize) {
    let whole = call.clone().b1(tableau).d(&room(length, 0));
    let mut bad = tableau.to_vec();
    match random.below(5) {
        0 => book.add_refused(&whole.b1(&[129]), 1, 0),
        1 => {
            bad.push(0);
            book.add_refused(&whole.b1(&bad), 2, 0);
        }
        2 if tableau.len() > 1 => {
            let place = random.place(tableau);
            bad[place] = 4;
            book.add_refused(&whole.b1(&bad), 3, place as u64);
        }
        3 if tableau.len() > 1 => {
            let width = usize::from(tableau[0]);
            let place = weight_offset(width, random.below(2 * width));
            bad[place] = bad[place].wrapping_sub(1);
            book.add_refused(&whole.b1(&bad), 24, place as u64);
        }
        _ => book.add_refused(&whole.d(&room(length - 1, 0)), 7, 0),
    }
}
