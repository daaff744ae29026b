//! The inputs on which the fuzzer once found a difference, and the form of inputs.

use conformance::calls::Calls;
use conformance::{found, inputs};

#[test]
fn inputs_that_once_differed_are_equal() {
    for (path, input) in found::all().expect("readable files") {
        let mut calls = Calls::new();
        inputs::compare(&mut calls, &input);
        if let Err(difference) = calls.finish() {
            panic!("{}: {difference}", path.display());
        }
    }
}

#[test]
fn hexadecimal_digits_are_read_back() {
    let all: Vec<u8> = (0..=255).collect();
    assert_eq!(found::bytes(&(found::hex(&all) + "\n")), Some(all));
    for wrong in ["0", "0g", "+1"] {
        assert_eq!(found::bytes(wrong), None);
    }
}

/// Every kind makes calls, whatever bytes follow.
#[test]
fn any_bytes_are_an_input() {
    let mut calls = Calls::new();
    for kind in 0..inputs::Kind::ALL.len() as u8 {
        for (fill, length) in [(0, 0), (0, 9), (1, 40), (b'A', 300), (255, 5000)] {
            let mut input = vec![kind];
            input.resize(1 + length, fill);
            inputs::compare(&mut calls, &input);
        }
    }
    let counts = calls.finish().expect("equal outcomes");
    assert!(counts.inputs >= 65);
}
