//! P1 to P12 of docs/SPEC.md, "Samples".

mod common;

use common::{a, assert_answer, barcode_of_line, g, memory_of_a, p4_code, with_bytes, z, P4};
use reference::{barcode, line, Date, Modulus, Session};

const BOX: &[u8] = b"01230067896";

#[test]
fn p1_modulo_10() {
    assert_eq!(Modulus::Ten.check_digit(BOX), Ok(3));
}

#[test]
fn p2_modulo_11() {
    assert_eq!(Modulus::Eleven.check_digit(BOX), Ok(0));
}

#[test]
fn p3_general_check_and_refusal() {
    // Place 4 is 1, the check.
    let code = b"82210000215048200974123220154098290108605940";
    let mut rest = code[..3].to_vec();
    rest.extend_from_slice(&code[4..]);
    assert_eq!(Modulus::Ten.check_digit(&rest), Ok(1));
    assert_answer(barcode::decode(code, &[]), 5, 3);
}

#[test]
fn p4_accepted() {
    let decoded = line::decode(P4, &[]).expect("accepted");
    assert_eq!(
        (decoded.segment, decoded.kind, decoded.value, decoded.issuer),
        (1, 7, 109, 3659)
    );
    assert_eq!(barcode::decode(&p4_code(), &[]), Ok(decoded));
}

#[test]
fn p5_swapped_value() {
    let mut typed = *P4;
    typed[12..24].copy_from_slice(b"019036599702");
    assert_eq!(
        line::decode(&typed, &[]).map(|decoded| decoded.value),
        Ok(190)
    );
}

#[test]
fn p6_last_box() {
    let mut typed = *P4;
    typed[47] = b'9';
    assert_answer(line::decode(&typed, &[]), 6, 48);
}

#[test]
fn p7_general_check() {
    let mut typed = *P4;
    typed[..12].copy_from_slice(b"817800000009");
    assert_answer(line::decode(&typed, &[]), 7, 4);
}

#[test]
fn p8_p9_accepted() {
    let p8 = b"818000000004000000100005000000000000000000000000";
    let p9 = b"818000000004000000100005000000000000000000000060";
    for typed in [p8, p9] {
        let decoded = line::decode(typed, &[]).expect("accepted");
        assert_eq!(
            (
                decoded.segment,
                decoded.kind,
                decoded.value,
                decoded.issuer,
                decoded.due
            ),
            (1, 8, 0, 10, None)
        );
    }
    assert_ne!(barcode_of_line(p8), barcode_of_line(p9));
}

#[test]
fn p10_leap_days() {
    assert!(Date::read(b"20000229").is_ok());
    assert_answer(Date::read(b"19000229"), 11, 1);
    assert_answer(Date::read(b"21000229"), 11, 1);
}

#[test]
fn p11_empty_file() {
    let mut session = Session::new();
    assert_answer(session.take(&a(), &[]), 0, 0);
    assert_answer(session.take(&z(2, 0), &[]), 0, 0);
    // Nothing but its bank, its agreement and its number is left.
    let remembering = Session {
        memory: memory_of_a(),
        ..Session::new()
    };
    assert_eq!(session, remembering);
}

#[test]
fn p12_past_32_bits() {
    let mut session = Session::new();
    let code = p4_code();
    for record in [a(), g(&code, 2_147_483_648), g(&code, 2_147_483_649)] {
        assert_answer(session.take(&record, &[]), 0, 0);
    }
    assert_answer(session.take(&z(4, 1), &[]), 14, 8);
    let written = with_bytes(z(4, 0), 8, b"00000004294967297");
    assert_answer(session.take(&written, &[]), 0, 0);
    assert_eq!(session.board().centavos, 4_294_967_297);
}
