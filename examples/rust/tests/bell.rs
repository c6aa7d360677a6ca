use renetcleat::*;

const H: u8 = 4;
const CX: u8 = 24;
const BELL: &str =
    "CliffordRep(2 qubits):\n  X_0 -> +Z0\n  Z_0 -> +X0 X1\n  X_1 -> +X1\n  Z_1 -> +Z0 Z1\n";

fn refused(number: u64, detail: u64) -> Answer {
    refused_of(0, number, detail)
}

fn refused_of(width: u64, number: u64, detail: u64) -> Answer {
    Err(Refusal {
        number,
        detail,
        width,
    })
}

fn bell() -> [u8; tableau_length(2)] {
    let (mut h, mut cx) = ([0; tableau_length(1)], [0; tableau_length(2)]);
    let mut pair = [0; tableau_length(2)];
    on_qubit(H, 0, &mut h).unwrap();
    on_qubits(CX, 0, 1, &mut cx).unwrap();
    compose(&cx, &h, &mut pair).unwrap();
    pair
}

#[test]
fn a_bell_pair_is_shown() {
    let mut text = [0; 200];
    let length = display(&bell(), &mut text).unwrap() as usize;
    assert_eq!(std::str::from_utf8(&text[..length]), Ok(BELL));
}

#[test]
fn a_bell_pair_is_played_in_place() {
    let mut pair = [0; tableau_length(2)];
    identity(2, &mut pair).unwrap();
    assert_eq!(play(&mut pair, H, 0, 0), Ok(0));
    assert_eq!(play(&mut pair, CX, 0, 1), Ok(0));
    assert_eq!(pair, bell());
    assert_eq!(play(&mut pair, 38, 0, 1), refused(4, 0));
    assert_eq!(play(&mut pair, CX, 0, 2), refused(5, 2));
    assert_eq!(play(&mut pair, CX, 1, 1), refused(6, 1));
    assert_eq!(pair, bell());
}

#[test]
fn a_bell_pair_is_undone() {
    let (pair, mut back) = (bell(), [0; tableau_length(2)]);
    let (mut both, mut one) = (back, back);
    inverse(&pair, &mut back).unwrap();
    compose(&back, &pair, &mut both).unwrap();
    identity(2, &mut one).unwrap();
    assert_eq!(both, one);
    assert_eq!(is_valid(&back), Ok(1));
}

#[test]
fn a_row_is_previewed() {
    let (mut h, mut one) = ([0; tableau_length(1)], [0; tableau_length(2)]);
    on_qubit(H, 0, &mut h).unwrap();
    identity(2, &mut one).unwrap();
    let mut row = [0xee; STRING_LENGTH];
    assert_eq!(composed_z_image(&h, &one, 0, &mut row), Ok(0));
    assert_eq!(row, string("X0"));
    assert_eq!(composed_x_image(&h, &one, 1, &mut row), Ok(0));
    assert_eq!(row, string("X1"));
    // Z_1 of the pair, before CX is played.
    let mut cx = one;
    on_qubits(CX, 0, 1, &mut cx).unwrap();
    assert_eq!(composed_z_image(&cx, &h, 1, &mut row), Ok(0));
    assert_eq!(row, string("Z0 Z1"));
    // The qubit is asked before the room, and by the larger width.
    let refusal = composed_z_image(&h, &one, 2, &mut []);
    assert_eq!(refusal, refused_of(2, 15, 2));
    assert_eq!(composed_x_image(&one, &h, 1, &mut row[1..]), refused(7, 0));
    assert_eq!(row, string("Z0 Z1"));
}

#[test]
fn a_row_has_its_weight() {
    let (mut pair, mut s) = (bell(), [0; STRING_LENGTH]);
    let weights = |t: &[u8]| [0, 1, 2, 3].map(|row| t[weight_at(2, row)]);
    assert_eq!(weights(&pair), [1, 1, 2, 2]);
    // The image of Z_0 is X0 X1.
    let start = z_image(&pair, 0).unwrap() as usize;
    assert_eq!(pair[start..start + row_length(2)], [0, 2, 1, 1]);
    from_str(b"-Y0 Y1", &mut s).unwrap();
    assert_eq!(set_x_image(&mut pair, 1, &s), Ok(0));
    assert_eq!(weights(&pair), [1, 2, 2, 2]);
}

#[test]
fn a_false_weight_is_refused() {
    let mut pair = bell();
    pair[weight_at(2, 3)] = 1;
    let refusal = is_valid(&pair);
    assert_eq!(refusal, refused(24, weight_at(2, 3) as u64));
    let line = refusal.unwrap_err().to_string();
    assert_eq!(line, "24: a row weight is false, at offset 14");
    // It is asked before the slot, and after every phase and letter.
    assert_eq!(x_image(&pair, 7), refused(24, 14));
    pair[tableau_length(2) - 1] = 4;
    assert_eq!(is_valid(&pair), refused(3, 16));
}

#[test]
fn strings_are_read_multiplied_and_written() {
    let (mut s, mut t) = ([0; STRING_LENGTH], [0; STRING_LENGTH]);
    let (mut product, mut text) = ([0; STRING_LENGTH], [0; 20]);
    from_str(b"X0 Z1", &mut s).unwrap();
    from_str(b"ZX", &mut t).unwrap();
    assert_eq!(mul(&s, &t, &mut product), Ok(2));
    let length = to_sparse_str(&product, &mut text).unwrap() as usize;
    assert_eq!(&text[..length], b"+Y0 Y1");
}

#[test]
fn a_product_takes_places_as_far_as_the_last_letter() {
    let (mut s, mut t) = ([0; STRING_LENGTH], [0; STRING_LENGTH]);
    let mut product = [0xee; STRING_LENGTH];
    from_str(b"X3", &mut s).unwrap();
    from_str(b"Z9", &mut t).unwrap();
    assert_eq!(mul(&s, &t, &mut product), Ok(10));
    assert_eq!(product[10..], [&[2][..], &[0; 118]].concat());
    // The places are those of the two strings: the product of one with itself has no letter.
    assert_eq!(mul(&s, &s, &mut product), Ok(4));
    assert_eq!(product, [0; STRING_LENGTH]);
    with_phase_and_paulis(2, &[], &mut s).unwrap();
    assert_eq!(mul(&s, &s, &mut product), Ok(0));
    assert_eq!(product[0], 1);
}

#[test]
fn strings_anticommute_at_some_qubits() {
    let (mut s, mut t) = ([0; STRING_LENGTH], [0; STRING_LENGTH]);
    from_str(b"XZIXY", &mut s).unwrap();
    from_str(b"ZXXXX", &mut t).unwrap();
    assert_eq!(anticommuting_places(&s, &t), Ok(3));
    assert_eq!(commutes_with(&s, &t), Ok(false));
    t[5] = 3;
    assert_eq!(anticommuting_places(&t, &s), Ok(2));
    assert_eq!(commutes_with(&t, &s), Ok(true));
    t[128] = 4;
    assert_eq!(anticommuting_places(&s, &t), refused(3, 128));
    assert_eq!(commutes_with(&s, &t).unwrap_err().detail, 128);
}

#[test]
fn a_refusal_has_its_number_and_writes_nothing() {
    let mut dst = [0xaa; STRING_LENGTH];
    assert_eq!(from_str(b"X128", &mut dst), refused(13, 1));
    assert_eq!(from_str(b"X5 X5 X3 X3", &mut dst), refused(12, 3));
    assert_eq!(identity(129, &mut dst), refused(1, 0));
    assert_eq!(inverse(&[], &mut dst), refused(2, 0));
    assert_eq!(mul(&[], &[], &mut []), refused(2, 0));
    assert_eq!(dst, [0xaa; STRING_LENGTH]);
}

#[test]
fn a_refusal_is_shown_as_its_line() {
    let (mut pair, mut s) = (bell(), [0; STRING_LENGTH]);
    let shown = |answer: Answer| answer.unwrap_err().to_string();
    let bad = from_sparse_str(b"+I", &mut s);
    assert_eq!(shown(bad), "9: not a known letter, at offset 1");
    let short = inverse(&pair, &mut []);
    assert_eq!(shown(short), "7: the destination is too short");
    // The width that the line tells is that of the tableau.
    let advice = "pass a width greater than the maximum qubit index (max qubit + 1)";
    from_str(b"X2", &mut s).unwrap();
    let wide = set_x_image(&mut pair, 0, &s);
    assert_eq!(wide, refused_of(2, 14, 2));
    let line = format!("14: qubit 2 is outside num_qubits 2; {advice}");
    assert_eq!(shown(wide), line);
    let slot = z_image(&pair, 7);
    let line = format!("15: qubit 7 is outside num_qubits 2; {advice}");
    assert_eq!(shown(slot), line);
}

#[test]
fn any_three_numbers_have_a_line() {
    let mut line = [0xaa; REFUSAL_LINE_MOST];
    assert_eq!(refusal_line(29, 5, 5, &mut line), Ok(11));
    assert_eq!(&line[..12], b"29: unknown\xaa");
    let most = u64::MAX;
    assert_eq!(refusal_line(15, most, most, &mut line), Ok(140));
    assert_eq!(
        refusal_line(15, most, most, &mut line[..139]),
        refused(7, 0)
    );
}

fn string(text: &str) -> [u8; STRING_LENGTH] {
    let mut string = [0; STRING_LENGTH];
    from_str(text.as_bytes(), &mut string).unwrap();
    string
}

fn shown(string: &[u8]) -> String {
    let mut text = [0; 531];
    let length = to_sparse_str(string, &mut text).unwrap() as usize;
    String::from_utf8(text[..length].to_vec()).unwrap()
}

/// The product of two strings sent through a tableau, and the product of their images.
fn both_ways(t: &[u8], p: &str, q: &str) -> [String; 2] {
    let (p, q) = (string(p), string(q));
    let [mut product, mut sent, mut p_sent, mut q_sent, mut images] = [[0; STRING_LENGTH]; 5];
    mul(&p, &q, &mut product).unwrap();
    apply(t, &product, &mut sent).unwrap();
    apply(t, &p, &mut p_sent).unwrap();
    apply(t, &q, &mut q_sent).unwrap();
    mul(&p_sent, &q_sent, &mut images).unwrap();
    [shown(&sent), shown(&images)]
}

#[test]
fn a_valid_tableau_sends_products_to_products() {
    let strings = ["X0", "Z0", "X1", "Z1", "iY0 Z1", "-X0 Y7"];
    assert_eq!(is_valid(&bell()), Ok(1));
    for (p, q) in strings.iter().flat_map(|p| strings.map(|q| (p, q))) {
        let [sent, images] = both_ways(&bell(), p, q);
        assert_eq!(sent, images, "{p} and {q}");
    }
}

/// The table of docs/VALIDITY.md.
#[test]
fn a_product_shows_that_a_tableau_is_not_valid() {
    let mut t = [0; tableau_length(2)];
    let mut broken = |set: fn(&mut [u8], usize, &[u8]) -> Answer, slot, image, p, q| {
        identity(2, &mut t).unwrap();
        set(&mut t, slot, &string(image)).unwrap();
        assert_eq!(is_valid(&t), Ok(0));
        both_ways(&t, p, q)
    };
    assert_eq!(broken(set_x_image, 0, "iX0", "X0", "X0"), ["+I", "-I"]);
    assert_eq!(broken(set_z_image, 0, "X0", "Z0", "X0"), ["-I", "+I"]);
    let z0_x1 = broken(set_x_image, 1, "Z0 X1", "X1", "X0");
    assert_eq!(z0_x1, ["-iY0 X1", "+iY0 X1"]);
    let rising = broken(set_x_image, 1, "Z0 X1", "X0", "X1");
    assert_eq!(rising, ["-iY0 X1", "-iY0 X1"]);
}

#[test]
fn tableaux_that_send_strings_alike_are_widened_to_the_same_bytes() {
    let (mut one, mut two) = ([0; tableau_length(1)], [0; tableau_length(2)]);
    identity(1, &mut one).unwrap();
    identity(2, &mut two).unwrap();
    let mut wide = two.map(|byte| !byte);
    extended_to(&one, 2, &mut wide).unwrap();
    assert_eq!(wide, two);
}

#[test]
fn a_gate_is_named_by_its_own_tableau() {
    let mut t = [0; tableau_length(1)];
    for gate in 0..24 {
        on_qubit(gate, 0, &mut t).unwrap();
        assert_eq!(from_clifford_rep(&t), Ok(gate.into()));
    }
    let imaginary = [1, 2, 1, 1, 0, 1, 2];
    assert_eq!(is_valid(&imaginary), Ok(0));
    assert_eq!(from_clifford_rep(&imaginary), Ok(NO_GATE));
}

#[test]
fn no_gate_is_an_answer() {
    let mut one = [0; 1];
    identity(0, &mut one).unwrap();
    assert_eq!(from_clifford_rep(&one), Ok(NO_GATE));
}

#[cfg(feature = "lists")]
#[test]
fn a_list_is_run_and_reported() {
    let list = [0, 2, 0, 0, 1, 0, H, 0, 0, 0, 2, 0, CX, 0, 1, 0, 0, 0];
    let (mut dst, mut text) = ([0; tableau_length(2)], [0; 200]);
    assert_eq!(run(&list, &mut dst), Ok(2));
    assert_eq!(dst, bell());
    let length = report(&list, &mut text).unwrap() as usize;
    assert_eq!(std::str::from_utf8(&text[..length]), Ok(BELL));
    let length = report(&[], &mut text).unwrap() as usize;
    assert_eq!(&text[..length], b"refused 16 at 0\n");
}
