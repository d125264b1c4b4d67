//! 01 Readings to rule out: each test fails under the wrong reading.

use crate::common::*;

#[test]
fn a_start_index_is_not_read_as_signed() {
    // ui64 2^64 - 1 has all bits set in its slot; as a signed number it would clamp to 0.
    let op = "\"stablehlo.dynamic_slice\"(%a, %i) {slice_sizes = array<i64: 1>} : (tensor<3xi8>, tensor<ui64>) -> tensor<1xi8>";
    let values = [("a", "[1, 2, 3]", "tensor<3xi8>"), ("i", "18446744073709551615", "tensor<ui64>")];
    gives(&values, op, "[3]", "tensor<1xi8>");
}

#[test]
fn transpose_is_not_by_the_inverse_permutation() {
    // The permutation 1, 2, 0 is not its own inverse: result shape is dim(operand, permutation...).
    let op = "\"stablehlo.transpose\"(%a) {permutation = array<i64: 1, 2, 0>} : (tensor<1x2x3xi8>) -> tensor<2x3x1xi8>";
    gives(
        &[("a", "[[[1, 2, 3], [4, 5, 6]]]", "tensor<1x2x3xi8>")],
        op,
        "[[[1], [2], [3]], [[4], [5], [6]]]",
        "tensor<2x3x1xi8>",
    );
    // The same with equal sizes, where only the elements tell.
    let op = "\"stablehlo.transpose\"(%a) {permutation = array<i64: 1, 2, 0>} : (tensor<2x2x2xi8>) -> tensor<2x2x2xi8>";
    let values = [("a", "[[[0, 1], [2, 3]], [[4, 5], [6, 7]]]", "tensor<2x2x2xi8>")];
    gives(&values, op, "[[[0, 4], [1, 5]], [[2, 6], [3, 7]]]", "tensor<2x2x2xi8>");
}

#[test]
fn a_pad_sum_near_2_to_the_63_does_not_wrap() {
    let pad = |low: &str, high: &str, interior: &str, result: usize| {
        let op = format!(
            "%r = \"stablehlo.pad\"(%a, %p) {{edge_padding_low = array<i64: {low}>, edge_padding_high = array<i64: {high}>, \
             interior_padding = array<i64: {interior}>}} : (tensor<3xi8>, tensor<i8>) -> tensor<{result}xi8>"
        );
        function("%a: tensor<3xi8>, %p: tensor<i8>", &op)
    };
    // 3 + (2^63 - 1) + 0 + (2^63 - 1) = 2^64 + 1, which is 1 modulo 2^64.
    answers(&pad("9223372036854775807", "9223372036854775807", "0", 1), 8, 0, 4);
    // 3 + 0 + 2 x (2^63 - 1) + 0 = 2^64 + 1.
    answers(&pad("0", "0", "9223372036854775807", 1), 8, 0, 4);
    // 3 - 2^63 + 2 x (2^62 - 1) = 1 in whole numbers: accepted.
    accepted(&pad("-9223372036854775808", "0", "4611686018427387903", 1));
}

#[test]
fn a_reduction_over_no_elements_gives_its_start_value() {
    let values = [("a", "[]", "tensor<0xi32>"), ("s", "7", "tensor<i32>")];
    let op = format!(
        "\"stablehlo.reduce\"(%a, %s) {} {{dimensions = array<i64: 0>}} : (tensor<0xi32>, tensor<i32>) -> tensor<i32>",
        body("add", "i32")
    );
    gives(&values, &op, "7", "tensor<i32>");
}

#[test]
fn division_of_negatives_does_not_floor() {
    let t = "tensor<2xi8>";
    let values = [("a", "[-7, 7]", t), ("b", "[2, -2]", t)];
    gives(&values, &format!("\"stablehlo.divide\"(%a, %b) : ({t}, {t}) -> {t}"), "[-3, -3]", t);
    gives(&values, &format!("\"stablehlo.remainder\"(%a, %b) : ({t}, {t}) -> {t}"), "[-1, 1]", t);
}
