//! What the proved library answers through the wrapper: each function, each refusal, the store afterwards. Each call
//! runs on a stack of the size that the wrapper names.

use bench::{with_stack, Answer};

const SAMPLE: &[u8] = include_bytes!("../../examples/sample.mlir");

/// An input divided by itself, and the quotients doubled.
const DIVIDE: &str = "func.func @m(%a: tensor<2xi8>) -> tensor<2xi8> {
  %b = \"stablehlo.divide\"(%a, %a) : (tensor<2xi8>, tensor<2xi8>) -> tensor<2xi8>
  %c = \"stablehlo.add\"(%b, %b) : (tensor<2xi8>, tensor<2xi8>) -> tensor<2xi8>
  \"func.return\"(%c) : (tensor<2xi8>) -> ()
}";

fn answer(refusal: u64, a: u64, b: u64) -> Answer {
    Answer { refusal, a, b }
}

fn read(text: &[u8]) -> Answer {
    with_stack(|| bench::read(text))
}

fn check(text: &[u8]) -> Answer {
    with_stack(|| bench::check(text))
}

fn evaluate(text: &[u8], inputs: &[u64], store: &mut [u64]) -> Answer {
    with_stack(|| bench::evaluate(text, inputs, store))
}

/// An old slot.
const OLD: u64 = 77;

#[test]
fn the_sample() {
    let mut store = [OLD; 7];
    assert_eq!(read(SAMPLE), answer(0, 0, 0));
    assert_eq!(check(SAMPLE), answer(0, 0, 0));
    assert_eq!(evaluate(SAMPLE, &[], &mut store), answer(0, 0, 0));
    assert_eq!(store, [1650, 1675, 1700, 1725, 255, 1725, OLD]);
}

#[test]
fn refusals_1_to_4_of_reading() {
    let long = vec![b' '; bench::TEXT_BYTES + 1];
    let rank = "func.func @m(%a: tensor<1x1x1x1x1x1x1xi8>) {}";
    let texts: [(&[u8], Answer); 5] = [
        (&long, answer(1, 65_537, 0)),
        (b"", answer(2, 0, 0)),
        (b"func.func @m() oops", answer(2, 15, 0)),
        (b"func.func @m(%a: tensor<f32>) {}", answer(3, 17, 0)),
        (rank.as_bytes(), answer(4, 17, 1)),
    ];
    for (text, wanted) in texts {
        assert_eq!(read(text), wanted);
        assert_eq!(check(text), wanted);
        assert_eq!(evaluate(text, &[], &mut []), wanted);
    }
}

/// A function of one op without results that reading passes and checking refuses; `§` marks the byte that A names.
fn refused(inputs: &str, op: &str, wanted: Answer) {
    let marked = format!("func.func @m({inputs}) {{\n{op}\n\"func.return\"() : () -> ()\n}}");
    let wanted = Answer { a: marked.find('§').unwrap_or(0) as u64, ..wanted };
    let text = marked.replace('§', "");
    let mut store = [OLD; 8];
    assert_eq!(read(text.as_bytes()), answer(0, 0, 0), "{text}");
    assert_eq!(check(text.as_bytes()), wanted, "{text}");
    assert_eq!(evaluate(text.as_bytes(), &[1], &mut store), wanted, "{text}");
    assert_eq!(store, [OLD; 8]);
}

#[test]
fn refusals_5_to_8_of_checking() {
    refused("%a: tensor<i8>", "%b = \"stablehlo.abs\"(§%c) : (tensor<i8>) -> tensor<i8>", answer(5, 0, 0));
    refused("%a: tensor<i8>", "§%a = \"stablehlo.abs\"(%a) : (tensor<i8>) -> tensor<i8>", answer(6, 0, 0));
    refused("%a: tensor<ui8>", "%b = \"stablehlo.abs\"(%a) : (tensor<ui8>) -> tensor<ui8>", answer(7, 0, 0));
    refused("%a: tensor<i8>", "%b = \"stablehlo.abs\"(%a) : (tensor<i8>) -> tensor<1xi8>", answer(8, 0, 1));
}

#[test]
fn refusals_9_to_12_of_evaluating() {
    let text = DIVIDE.as_bytes();
    assert_eq!(check(text), answer(0, 0, 0));
    for (inputs, length, wanted) in [
        (&[1, 1][..], 5, answer(9, 6, 0)),
        (&[], 0, answer(9, 6, 0)),
        (&[1], 6, answer(10, 2, 0)),
        (&[1, 1, 1], 7, answer(10, 2, 0)),
        (&[1, 128], 6, answer(11, 1, 0)),
    ] {
        let mut store = vec![OLD; length];
        assert_eq!(evaluate(text, inputs, &mut store), wanted);
        assert_eq!(store, vec![OLD; length]);
    }
    // Zeros from the refusing op's first slot to the last slot needed, and the old slot after it.
    let mut store = [OLD; 7];
    assert_eq!(evaluate(text, &[5, 0], &mut store), answer(12, 0, 1));
    assert_eq!(store, [5, 0, 0, 0, 0, 0, OLD]);
    let mut store = [OLD; 7];
    assert_eq!(evaluate(text, &[5, u64::MAX], &mut store), answer(0, 0, 0));
    assert_eq!(store, [5, u64::MAX, 1, 1, 2, 2, OLD]);
}

#[test]
fn answers_are_printed() {
    assert_eq!(check(SAMPLE).to_string(), "accepted");
    assert_eq!(check(b"func.func").to_string(), "refused 2 9 0");
}

/// Texts that nest as deep as one can, on the same stack.
#[test]
fn deep_texts() {
    let lists = "[".repeat(60_000);
    let bodies = "\"stablehlo.reduce\"() ({ ^b():\n".repeat(2_000);
    for text in [
        format!("func.func @m() {{ %c = \"stablehlo.constant\"() {{value = dense<{lists}"),
        format!("func.func @m() {{\n{bodies}"),
    ] {
        let wanted = answer(2, text.len() as u64, 0);
        assert_eq!(evaluate(text.as_bytes(), &[], &mut [0; bench::STORE_SLOTS]), wanted);
    }
}
