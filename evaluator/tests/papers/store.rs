//! 01 The store: every slot after every answer.

use crate::common::*;
use evaluator::Answer;

const MINUS_ONE: u64 = u64::MAX;

/// Four values: %a (3 slots), %q, %n, %t.
const FOUR: &str = "func.func @m(%a: tensor<3xi8>, %b: tensor<3xi8>) -> tensor<3xi8> {
  %n = \"stablehlo.negate\"(%a) : (tensor<3xi8>) -> tensor<3xi8>
  %q = \"stablehlo.divide\"(%a, %b) : (tensor<3xi8>, tensor<3xi8>) -> tensor<3xi8>
  %t = \"stablehlo.add\"(%n, %n) : (tensor<3xi8>, tensor<3xi8>) -> tensor<3xi8>
  \"func.return\"(%n) : (tensor<3xi8>) -> ()
}";

#[test]
fn inputs_first_then_each_result_in_text_order() {
    let (answer, store) = evaluated(FOUR, &[1, 6, MINUS_ONE, 1, 2, 1], 17);
    assert_eq!(answer, Answer::ACCEPTED);
    let minus = |n: u64| 0u64.wrapping_sub(n);
    let expected =
        [1, 6, MINUS_ONE, 1, 2, 1, MINUS_ONE, minus(6), 1, 1, 3, MINUS_ONE, minus(2), minus(12), 2, OLD, OLD];
    assert_eq!(store, expected);
}

#[test]
fn refusal_12_leaves_earlier_values_and_zeroes_the_rest() {
    let (answer, store) = evaluated(FOUR, &[1, 6, 3, 1, 0, 1], 17);
    assert_eq!(answer, Answer::new(12, 1, 1));
    let minus = |n: u64| 0u64.wrapping_sub(n);
    let expected = [1, 6, 3, 1, 0, 1, MINUS_ONE, minus(6), minus(3), 0, 0, 0, 0, 0, 0, OLD, OLD];
    assert_eq!(store, expected);
}

#[test]
fn refusals_1_to_11_leave_the_store_unchanged() {
    let bad_texts = [
        " ".repeat(70_000),
        "oops".to_string(),
        FOUR.replace("tensor<3xi8>) -> tensor<3xi8> {", "tensor<3xf32>) -> tensor<3xi8> {"),
        FOUR.replace("%a: tensor<3xi8>", "%a: tensor<5000xi8>"),
        FOUR.replace("(%a, %b) :", "(%a, %zz) :"),
        FOUR.replace("%q = ", "%a = "),
        FOUR.replace("divide", "abs"),
        FOUR.replace(
            "(%n, %n) : (tensor<3xi8>, tensor<3xi8>) -> tensor<3xi8>",
            "(%n, %n) : (tensor<3xi8>, tensor<3xi8>) -> tensor<2xi8>",
        ),
    ];
    for (text, refusal) in bad_texts.iter().zip(1..) {
        let (answer, store) = evaluated(text, &[1; 6], 17);
        assert_eq!(answer.refusal, refusal, "{text}");
        assert!(store.iter().all(|&slot| slot == OLD));
    }
    for (inputs, length, refusal) in [(vec![1; 6], 14, 9), (vec![1; 5], 17, 10), (vec![1, 1, 1, 1, 1, 999], 17, 11)] {
        let (answer, store) = evaluated(FOUR, &inputs, length);
        assert_eq!(answer.refusal, refusal);
        assert!(store.iter().all(|&slot| slot == OLD));
    }
}

#[test]
fn slots_are_64_bits_signed_ones_modulo_2_to_the_64() {
    let text = |element: &str, value: &str| {
        function("", &format!("%c = \"stablehlo.constant\"() {{value = dense<{value}> : tensor<{element}>}} : () -> tensor<{element}>"))
    };
    for (element, value, slot) in [
        ("i1", "true", 1),
        ("i1", "false", 0),
        ("i8", "-1", u64::MAX),
        ("i16", "-32768", 0u64.wrapping_sub(32768)),
        ("i32", "-2", u64::MAX - 1),
        ("i64", "-9223372036854775808", 1 << 63),
        ("ui8", "255", 255),
        ("ui64", "18446744073709551615", u64::MAX),
    ] {
        let (answer, store) = evaluated(&text(element, value), &[], 2);
        assert_eq!((answer, store), (Answer::ACCEPTED, vec![slot, OLD]));
    }
}

#[test]
fn an_accepted_program_without_values_changes_nothing() {
    let (answer, store) = evaluated(&function("", ""), &[], 3);
    assert_eq!((answer, store), (Answer::ACCEPTED, vec![OLD; 3]));
    let (answer, store) = evaluated(&function("", ""), &[], 0);
    assert_eq!((answer, store), (Answer::ACCEPTED, vec![]));
}

#[test]
fn a_constant_stretch_follows_the_text_not_the_old_store() {
    // Every op's stretch is written, also one whose values happen to be zero.
    let ops = "%c = \"stablehlo.constant\"() {value = dense<[0, 5]> : tensor<2xui8>} : () -> tensor<2xui8>
%x = \"stablehlo.xor\"(%c, %c) : (tensor<2xui8>, tensor<2xui8>) -> tensor<2xui8>";
    let (answer, store) = evaluated(&function("", ops), &[], 4);
    assert_eq!((answer, store), (Answer::ACCEPTED, vec![0, 5, 0, 0]));
}
