//! What validity amounts to, of answers: a tableau is valid exactly where products of strings are sent to products, and two tableaux
//! send strings alike exactly where they are widened to the same bytes. Each call is a case of its own, held to the Rust's answer.

use crate::comparison::Comparison;
use crate::inputs::{any_string, damaged, identity, string, valid_tableau, width_one};
use crate::model::{QUBITS, STRING, tableau_length};
use oracle::driver::Call;

pub fn all(compare: &mut Comparison) {
    width_one_by_letters(compare);
    for width in 0..=8 {
        for _ in 0..24 {
            by_generators(compare, width);
        }
    }
    by_generators(compare, 20);
    for width in 9..=QUBITS {
        by_strings(compare, width);
    }
    for left in 0..=5 {
        for right in 0..=5 {
            pairs_of_widths(compare, left, right);
        }
    }
    pairs_of_widths(compare, QUBITS, 3);
}

fn product(compare: &mut Comparison, left: &[u8], right: &[u8]) -> Vec<u8> {
    let call = Call::new("mul").b1(left).b2(right).d(&[0xaa; STRING]);
    compare.case(&call).after
}

fn image(compare: &mut Comparison, tableau: &[u8], sent: &[u8]) -> Vec<u8> {
    let call = Call::new("apply").b1(tableau).b2(sent).d(&[0xaa; STRING]);
    compare.case(&call).after
}

fn widened(compare: &mut Comparison, tableau: &[u8], width: usize) -> Vec<u8> {
    let call = Call::new("extended_to").b1(tableau).n(&[width as u64]);
    let room = compare.room(tableau_length(width));
    compare.case(&call.d(&room)).after
}

fn is_valid(compare: &mut Comparison, tableau: &[u8]) -> bool {
    compare.case(&Call::new("is_valid").b1(tableau)).reply.value == 1
}

/// Whether the product of two strings is sent to the product of their images, phase included.
fn sends_product(compare: &mut Comparison, tableau: &[u8], left: &[u8], right: &[u8]) -> bool {
    let both = product(compare, left, right);
    let sent = image(compare, tableau, &both);
    let (left, right) = (
        image(compare, tableau, left),
        image(compare, tableau, right),
    );
    sent == product(compare, &left, &right)
}

/// Valid exactly where every one of these products is sent to the product.
fn claim_products(compare: &mut Comparison, tableau: &[u8], pairs: &[(Vec<u8>, Vec<u8>)]) {
    let mut all = true;
    for (left, right) in pairs {
        all &= sends_product(compare, tableau, left, right);
    }
    let valid = is_valid(compare, tableau);
    let name = if valid {
        "valid_by_products"
    } else {
        "invalid_by_products"
    };
    compare.claim(name, valid == all, tableau);
}

/// X and Z on each of the first qubits.
fn generators(width: usize) -> Vec<Vec<u8>> {
    let letters = (0..width).flat_map(|qubit| [(qubit, 1), (qubit, 2)]);
    letters.map(|place| string(0, &[place])).collect()
}

fn every_two(strings: &[Vec<u8>]) -> Vec<(Vec<u8>, Vec<u8>)> {
    let pairs = strings
        .iter()
        .flat_map(|left| strings.iter().map(move |right| (left, right)));
    pairs
        .map(|(left, right)| (left.clone(), right.clone()))
        .collect()
}

/// Every record of width 1, with all strings of the letters on its qubit and of some phase.
fn width_one_by_letters(compare: &mut Comparison) {
    for record in width_one() {
        let random = &mut compare.random;
        let letters: Vec<Vec<u8>> = (0..4)
            .map(|letter| string(random.below(4) as u8, &[(0, letter)]))
            .collect();
        claim_products(compare, &record, &every_two(&letters));
    }
}

/// A valid tableau, one with a byte changed, and one of any bytes.
fn three_tableaux(compare: &mut Comparison, width: usize) -> [Vec<u8>; 3] {
    let random = &mut compare.random;
    let valid = valid_tableau(random, width, 6 * width);
    let other = damaged(random, &valid);
    [valid, other, random.any_tableau(width)]
}

/// The products of two generators decide it.
fn by_generators(compare: &mut Comparison, width: usize) {
    for tableau in three_tableaux(compare, width) {
        claim_products(compare, &tableau, &every_two(&generators(width)));
    }
}

/// Where a tableau is valid, strings of all 128 qubits, of any letters and phases, go so too.
fn by_strings(compare: &mut Comparison, width: usize) {
    let valid = valid_tableau(&mut compare.random, width, 8 * width);
    let mut pairs = Vec::new();
    for _ in 0..4 {
        let random = &mut compare.random;
        pairs.push((any_string(random, width), any_string(random, width)));
    }
    claim_products(compare, &valid, &pairs);
}

/// Two tableaux send X and Z of every qubit alike exactly where they are widened to the same bytes.
fn claim_alike(compare: &mut Comparison, left: &[u8], right: &[u8]) {
    let mut alike = true;
    for sent in generators(QUBITS) {
        alike &= image(compare, left, &sent) == image(compare, right, &sent);
    }
    let width = usize::from(left[0].max(right[0]));
    let same = widened(compare, left, width) == widened(compare, right, width);
    let name = if same {
        "alike_by_bytes"
    } else {
        "unlike_by_bytes"
    };
    compare.claim(name, alike == same, left);
}

/// Tableaux of two widths, valid and not: different ones, and one that is the other widened.
fn pairs_of_widths(compare: &mut Comparison, left: usize, right: usize) {
    for tableau in three_tableaux(compare, left) {
        let wide = widened(compare, &tableau, left.max(right));
        claim_alike(compare, &tableau, &wide);
        let changed = damaged(&mut compare.random, &wide);
        claim_alike(compare, &changed, &tableau);
        for other in three_tableaux(compare, right) {
            claim_alike(compare, &tableau, &other);
        }
    }
    claim_alike(compare, &identity(left), &identity(right));
}
