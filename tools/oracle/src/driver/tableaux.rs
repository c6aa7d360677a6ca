//! Tableau records.

use super::answer::{Answer, counted, written};
use super::line::Call;
use super::records::{
    QUBITS, STRING_LENGTH, below, one_qubit_number, one_qubit_record, read_string, read_tableau,
    row_offset, tableau_length, write_image, write_string, write_tableau,
};
use crate::PauliString;
use crate::clifford_rep::CliffordRep;

/// Which half of a tableau.
#[derive(Clone, Copy, PartialEq)]
enum Half {
    X,
    Z,
}

fn of_tableau(tableau: &CliffordRep) -> Option<Answer> {
    Some(written(write_tableau(tableau)?))
}

fn image_of(tableau: &CliffordRep, half: Half, slot: usize) -> &PauliString {
    match half {
        Half::X => tableau.x_image(slot),
        Half::Z => tableau.z_image(slot),
    }
}

/// The row's offset. The Rust hands out an image, so it is compared with the bytes there.
fn image(call: &Call, half: Half) -> Option<Answer> {
    let tableau = read_tableau(&call.b1)?;
    let width = tableau.num_qubits();
    let slot = below(call.n[0], width)?;
    let row = match half {
        Half::X => slot,
        Half::Z => width + slot,
    };
    let offset = row_offset(width, row);
    assert_eq!(
        write_image(image_of(&tableau, half, slot), width).as_deref(),
        Some(&call.b1[offset..row_offset(width, row + 1)])
    );
    Some(Answer::Value(offset as u64))
}

/// The Rust gives one error for a wide image (14) and a bad slot (15), both with the qubit;
/// its own `validate_width`, asked first as it does itself, tells which it is.
fn set_image(call: &Call, half: Half) -> Option<Answer> {
    let mut tableau = read_tableau(&call.d)?;
    let image = read_string(&call.b1)?;
    let slot = usize::try_from(call.n[0]).ok()?;
    let wide = image.validate_width(tableau.num_qubits()).is_err();
    let set = match half {
        Half::X => tableau.set_x_image(slot, image),
        Half::Z => tableau.set_z_image(slot, image),
    };
    match set {
        Ok(()) => of_tableau(&tableau),
        Err(error) => Some(Answer::Refused(
            if wide { 14 } else { 15 },
            error.qubit as u64,
        )),
    }
}

fn apply(call: &Call) -> Option<Answer> {
    let image = read_tableau(&call.b1)?.apply(&read_string(&call.b2)?);
    Some(written(write_string(&image)?))
}

/// `apply` of each string in turn.
fn send(call: &Call) -> Option<Answer> {
    let tableau = read_tableau(&call.b1)?;
    let images = call.b2.chunks(STRING_LENGTH).map(|string| {
        let image = tableau.apply(&read_string(string)?);
        write_string(&image)
    });
    Some(written(images.collect::<Option<Vec<_>>>()?.concat()))
}

fn compose(call: &Call) -> Option<Answer> {
    of_tableau(&read_tableau(&call.b1)?.compose(&read_tableau(&call.b2)?))
}

/// An image of the composed copy. The qubit is asked first: composing takes long.
fn composed_image(call: &Call, half: Half) -> Option<Answer> {
    let (left, right) = (read_tableau(&call.b1)?, read_tableau(&call.b2)?);
    let width = left.num_qubits().max(right.num_qubits());
    let qubit = below(call.n[0], width)?;
    let composed = left.compose(&right);
    assert_eq!(composed.num_qubits(), width);
    Some(written(write_string(image_of(&composed, half, qubit))?))
}

/// `compose` with each record of width 1 in turn, by their numbers.
fn compose_each(call: &Call) -> Option<Answer> {
    let left = read_tableau(&call.b1)?;
    let numbers = (0..=255u8).map(|number| {
        let right = read_tableau(&one_qubit_record(number))?;
        one_qubit_number(&write_tableau(&left.compose(&right))?)
    });
    Some(written(numbers.collect::<Option<Vec<u8>>>()?))
}

fn extended_to(call: &Call) -> Option<Answer> {
    of_tableau(&read_tableau(&call.b1)?.extended_to(below(call.n[0], QUBITS + 1)?))
}

fn support_qubits(call: &Call) -> Option<Answer> {
    let support = read_tableau(&call.b1)?.support_qubits();
    Some(counted(
        support.into_iter().map(|qubit| qubit as u8).collect(),
    ))
}

fn identity(call: &Call) -> Option<Answer> {
    let width = below(call.n[0], QUBITS + 1)?;
    let record = write_tableau(&CliffordRep::identity(width))?;
    assert_eq!(record.len(), tableau_length(width));
    Some(written(record))
}

/// Outer nothing: no name of this file. Inner nothing: outside the compared domain.
pub fn answer(call: &Call) -> Option<Option<Answer>> {
    let found = match call.name.as_str() {
        "identity" => identity(call),
        "x_image" => image(call, Half::X),
        "z_image" => image(call, Half::Z),
        "set_x_image" => set_image(call, Half::X),
        "set_z_image" => set_image(call, Half::Z),
        "apply" => apply(call),
        "send" => send(call),
        "compose" => compose(call),
        "composed_x_image" => composed_image(call, Half::X),
        "composed_z_image" => composed_image(call, Half::Z),
        "compose_each" => compose_each(call),
        "extended_to" => extended_to(call),
        "inverse" => read_tableau(&call.b1).and_then(|tableau| of_tableau(&tableau.inverse())),
        "is_valid" => {
            read_tableau(&call.b1).map(|tableau| Answer::Value(tableau.is_valid().into()))
        }
        "support_qubits" => support_qubits(call),
        "from_pauli_string" => {
            read_string(&call.b1).and_then(|string| of_tableau(&CliffordRep::from(string)))
        }
        "display" => {
            read_tableau(&call.b1).map(|tableau| counted(tableau.to_string().into_bytes()))
        }
        _ => return None,
    };
    Some(found)
}
