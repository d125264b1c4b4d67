//! 01 The twelve refusals: each number with its A and B.

use crate::common::*;
use evaluator::Answer;

#[test]
fn refusal_0_and_1() {
    accepted("func.func @m() -> tensor<i8> { %r = \"stablehlo.constant\"() {value = dense<1> : tensor<i8>} : () -> tensor<i8> \"func.return\"(%r) : (tensor<i8>) -> () }");
    let long = vec![0xFFu8; 65_537];
    assert_eq!(evaluator::check(&long), Answer::new(1, 65_537, 0));
}

#[test]
fn refusal_2_at_the_first_failing_token() {
    for text in [
        "§oops",
        "§module {}",
        "func.func §main() {\"func.return\"() : () -> ()}",
        "func.func @m§{\"func.return\"() : () -> ()}",
        "func.func @m(§tensor<i8>) {\"func.return\"() : () -> ()}",
        "func.func @m(%a§) {\"func.return\"() : () -> ()}",
        "func.func @m(%a: §%b) {\"func.return\"() : () -> ()}",
        "func.func @m(%a: tensor<i8>,§) {\"func.return\"() : () -> ()}",
        "func.func @m() -> §{\"func.return\"() : () -> ()}",
        "func.func @m() -> tensor<i8>, §{\"func.return\"() : () -> ()}",
        "func.func @m() {§}",
        "func.func @m() {%a §\"func.return\"() : () -> ()}",
        "func.func @m() {%a, §= \"func.return\"() : () -> ()}",
        "func.func @m() {%a = §%b}",
        "func.func @m() {\"func.return\" §: () -> ()}",
        "func.func @m() {\"func.return\"() §}",
        "func.func @m() {\"func.return\"() : §tensor<i8> -> ()}",
        "func.func @m() {\"func.return\"() : () §()}",
        "func.func @m() {\"func.return\"() : () -> §}",
        "func.func @m() {\"func.return\"() : () -> () §\"func.return\"() : () -> ()}",
        "func.func @m() {\"func.return\"() : () -> ()} §}",
        "func.func @m() {\"stablehlo.iota\"() {§} : () -> ()}",
        "func.func @m() {\"stablehlo.iota\"() {dimension §0 : i64} : () -> ()}",
        "func.func @m() {\"stablehlo.iota\"() {dimension = §foo} : () -> ()}",
        "func.func @m() {\"stablehlo.iota\"() {dimension = 0 : i64,§} : () -> ()}",
        "func.func @m() {\"stablehlo.iota\"() <§[]> : () -> ()}",
        "func.func @m() {\"stablehlo.iota\"() <{dimension = 0 : i64} §: () -> ()}",
        "func.func @m() {\"stablehlo.iota\"() ({§}) : () -> ()}",
        "func.func @m() {\"stablehlo.iota\"() ({^b() §\"stablehlo.return\"() : () -> ()}) : () -> ()}",
    ] {
        refused_at_mark(text, 2, 0);
    }
}

#[test]
fn refusal_2_at_the_end_names_the_length() {
    for text in
        ["", " ", "// comment", "func.func", "func.func @m() {", "func.func @m() {\"func.return\"() : () -> ()\n\n"]
    {
        answers(text, 2, text.len(), 0);
    }
}

#[test]
fn refusal_3_for_names_not_in_the_paper() {
    for text in [
        "func.func @m(%a: §tensor<f32>) {\"func.return\"() : () -> ()}",
        "func.func @m(%a: §tensor<?xi8>) {\"func.return\"() : () -> ()}",
        "func.func @m() {%r = §\"stablehlo.tanh\"() : () -> ()}",
        "func.func @m() {%r = \"stablehlo.iota\"() {§padding = 0 : i64} : () -> ()}",
        "func.func @m() {%r = \"stablehlo.compare\"() {comparison_direction = #stablehlo<§rng_algorithm DEFAULT>} : () -> ()}",
        "func.func @m() {%r = \"stablehlo.compare\"() {comparison_direction = #stablehlo<comparison_direction §XX>} : () -> ()}",
        "func.func @m() {%r = \"stablehlo.compare\"() {compare_type = #stablehlo<comparison_type §FLOAT>} : () -> ()}",
        "func.func @m() {%r = \"stablehlo.compare\"() {compare_type = #stablehlo<comparison_type §TOTALORDER>} : () -> ()}",
    ] {
        refused_at_mark(text, 3, 0);
    }
}

#[test]
fn refusal_3_for_every_op_of_000_that_is_not_in_01() {
    for op in [
        "after_all",
        "all_gather",
        "all_reduce",
        "all_to_all",
        "atan2",
        "batch_norm_grad",
        "bitcast_convert",
        "case",
        "cbrt",
        "ceil",
        "cholesky",
        "collective_permute",
        "complex",
        "convolution",
        "cosine",
        "custom_call",
        "dot_general",
        "dynamic_update_slice",
        "exponential",
        "fft",
        "floor",
        "gather",
        "get_tuple_element",
        "if",
        "imag",
        "infeed",
        "is_finite",
        "log",
        "logistic",
        "map",
        "optimization_barrier",
        "outfeed",
        "partition_id",
        "power",
        "real",
        "recv",
        "reduce_precision",
        "reduce_scatter",
        "reduce_window",
        "replica_id",
        "rng",
        "round_nearest_afz",
        "rsqrt",
        "scatter",
        "send",
        "sine",
        "sort",
        "sqrt",
        "tan",
        "tanh",
        "triangular_solve",
        "tuple",
        "uniform_quantize",
        "while",
    ] {
        refused_at_mark(&format!("func.func @m() {{ %r = §\"stablehlo.{op}\"() : () -> ()}}"), 3, 0);
    }
}

#[test]
fn refusal_5_at_the_name() {
    let text = |op: &str| function("%a: tensor<i8>", op);
    refused_at_mark(&text("%r = \"stablehlo.add\"(%a, §%b) : (tensor<i8>, tensor<i8>) -> tensor<i8>"), 5, 0);
    // An op's own result, and a later one, are not defined before.
    refused_at_mark(&text("%r = \"stablehlo.negate\"(§%r) : (tensor<i8>) -> tensor<i8>"), 5, 0);
    refused_at_mark(&text("%r = \"stablehlo.negate\"(§%s) : (tensor<i8>) -> tensor<i8>\n%s = \"stablehlo.negate\"(%a) : (tensor<i8>) -> tensor<i8>"), 5, 0);
    refused_at_mark("func.func @m() -> tensor<i8> {\"func.return\"(§%r) : (tensor<i8>) -> ()}", 5, 0);
}

#[test]
fn refusal_6_at_the_second_name() {
    refused_at_mark(&function("%a: tensor<i8>, §%a: tensor<i8>", ""), 6, 0);
    let negate = "%r = \"stablehlo.negate\"(%a) : (tensor<i8>) -> tensor<i8>\n";
    refused_at_mark(&function("%a: tensor<i8>", &format!("{negate}§{negate}")), 6, 0);
    refused_at_mark(&function("%r: tensor<i8>, %a: tensor<i8>", &format!("§{negate}")), 6, 0);
}

#[test]
fn refusals_7_and_8_name_the_op() {
    let good = "%g = \"stablehlo.negate\"(%a) : (tensor<i8>) -> tensor<i8>\n";
    let seven = "%r = \"stablehlo.negate\"() : () -> tensor<i8>\n";
    let eight = "%r = \"stablehlo.negate\"(%a) : (tensor<i8>) -> tensor<i16>\n";
    answers(&function("%a: tensor<i8>", seven), 7, 0, 0);
    answers(&function("%a: tensor<i8>", &format!("{good}{seven}")), 7, 1, 0);
    answers(&function("%a: tensor<i8>", eight), 8, 0, 1);
    answers(&function("%a: tensor<i8>", &format!("{good}{eight}")), 8, 1, 1);
    // "the return last": its number is the number of ops before it.
    answers(&format!("func.func @m(%a: tensor<i8>) -> tensor<i8> {{{good} \"func.return\"() : () -> ()}}"), 7, 1, 0);
}

const DIVIDE: &str = "func.func @m(%a: tensor<3xi8>, %b: tensor<3xi8>) -> tensor<3xi8> {
  %q = \"stablehlo.divide\"(%a, %b) : (tensor<3xi8>, tensor<3xi8>) -> tensor<3xi8>
  \"func.return\"(%q) : (tensor<3xi8>) -> ()
}";

#[test]
fn refusal_9_names_the_slots_needed() {
    assert_eq!(evaluated(DIVIDE, &[1; 6], 8).0, Answer::new(9, 9, 0));
    assert_eq!(evaluated(DIVIDE, &[1; 6], 0).0, Answer::new(9, 9, 0));
    assert_eq!(evaluated(DIVIDE, &[1; 6], 9).0, Answer::ACCEPTED);
}

#[test]
fn refusal_10_names_the_length_needed() {
    for count in [0, 5, 7] {
        assert_eq!(evaluated(DIVIDE, &vec![1; count], 9).0, Answer::new(10, 6, 0));
    }
}

#[test]
fn refusal_11_names_the_lowest_slot() {
    assert_eq!(evaluated(DIVIDE, &[1, 1, 1, 1, 200, 300], 9).0, Answer::new(11, 4, 0));
    assert_eq!(evaluated(DIVIDE, &[128, 1, 1, 1, 200, 300], 9).0, Answer::new(11, 0, 0));
}

#[test]
fn refusal_11_by_type() {
    let minus = |n: u64| 0u64.wrapping_sub(n);
    for (element, values, others) in [
        ("i1", vec![0, 1], vec![2, minus(1), 1 << 63]),
        ("i8", vec![0, 127, minus(128), minus(1)], vec![128, 255, minus(129), 1 << 63]),
        ("i16", vec![32767, minus(32768)], vec![32768, 65535, minus(32769)]),
        ("i32", vec![2147483647, minus(2147483648)], vec![2147483648, 4294967295, minus(2147483649)]),
        ("i64", vec![0, u64::MAX, 1 << 63], vec![]),
        ("ui8", vec![0, 255], vec![256, minus(1)]),
        ("ui16", vec![0, 65535], vec![65536, minus(1)]),
        ("ui32", vec![0, 4294967295], vec![4294967296, minus(1)]),
        ("ui64", vec![0, u64::MAX], vec![]),
    ] {
        let text = function(&format!("%a: tensor<2x{element}>"), "");
        for value in values {
            assert_eq!(evaluated(&text, &[0, value], 2).0, Answer::ACCEPTED, "{element} {value}");
        }
        for other in others {
            assert_eq!(evaluated(&text, &[0, other], 2).0, Answer::new(11, 1, 0), "{element} {other}");
        }
    }
}

#[test]
fn refusal_12_names_op_and_element() {
    assert_eq!(evaluated(DIVIDE, &[1, 2, 3, 1, 0, 0], 9).0, Answer::new(12, 0, 1));
    let remainder = DIVIDE.replace("divide", "remainder");
    assert_eq!(evaluated(&remainder, &[1, 2, 3, 1, 1, 0], 9).0, Answer::new(12, 0, 2));
    // The first op in text order, used or not.
    let two = DIVIDE.replace(
        "  \"func.return\"",
        "  %s = \"stablehlo.divide\"(%b, %a) : (tensor<3xi8>, tensor<3xi8>) -> tensor<3xi8>\n  \"func.return\"",
    );
    assert_eq!(evaluated(&two, &[0, 0, 3, 1, 1, 1], 12).0, Answer::new(12, 1, 0));
    assert_eq!(evaluated(&two, &[0, 0, 3, 1, 1, 0], 12).0, Answer::new(12, 0, 2));
}
