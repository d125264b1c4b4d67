//! 01 Table of examples, row by row.

use crate::common::*;

const I32_4: &str = "tensor<4xi32>";

#[test]
fn divide_and_remainder_of_17_by_3() {
    let values = [("a", "[17, -17, 17, -17]", I32_4), ("b", "[3, 3, -3, -3]", I32_4)];
    let op = |name| format!("\"stablehlo.{name}\"(%a, %b) : (tensor<4xi32>, tensor<4xi32>) -> tensor<4xi32>");
    gives(&values, &op("divide"), "[5, -5, -5, 5]", I32_4);
    gives(&values, &op("remainder"), "[2, -2, 2, -2]", I32_4);
}

#[test]
fn lowest_i8_by_minus_one() {
    let values = [("a", "-128", "tensor<i8>"), ("b", "-1", "tensor<i8>")];
    let op = |name| format!("\"stablehlo.{name}\"(%a, %b) : (tensor<i8>, tensor<i8>) -> tensor<i8>");
    gives(&values, &op("divide"), "-128", "tensor<i8>");
    gives(&values, &op("remainder"), "0", "tensor<i8>");
}

#[test]
fn abs_of_lowest_i8() {
    gives(&[("a", "-128", "tensor<i8>")], "\"stablehlo.abs\"(%a) : (tensor<i8>) -> tensor<i8>", "127", "tensor<i8>");
}

#[test]
fn add_wraps_and_is_or_on_i1() {
    let add = |t| format!("\"stablehlo.add\"(%a, %b) : ({t}, {t}) -> {t}");
    for (a, b, sum, t) in
        [("127", "1", "-128", "tensor<i8>"), ("255", "1", "0", "tensor<ui8>"), ("true", "true", "true", "tensor<i1>")]
    {
        gives(&[("a", a, t), ("b", b, t)], &add(t), sum, t);
    }
}

#[test]
fn and_of_two_by_two() {
    let t = "tensor<2x2xi32>";
    let values = [("a", "[[1, 2], [3, 4]]", t), ("b", "[[5, 6], [7, 8]]", t)];
    let op = "\"stablehlo.and\"(%a, %b) : (tensor<2x2xi32>, tensor<2x2xi32>) -> tensor<2x2xi32>";
    gives(&values, op, "[[1, 2], [3, 0]]", t);
}

#[test]
fn convert_wraps() {
    let op = "\"stablehlo.convert\"(%a) : (tensor<i32>) -> tensor<ui8>";
    gives(&[("a", "300", "tensor<i32>")], op, "44", "tensor<ui8>");
    let op = "\"stablehlo.convert\"(%a) : (tensor<ui8>) -> tensor<i8>";
    gives(&[("a", "200", "tensor<ui8>")], op, "-56", "tensor<i8>");
}

#[test]
fn right_shifts_of_lowest_i8() {
    let op = |name| format!("\"stablehlo.{name}\"(%a, %b) : (tensor<i8>, tensor<i8>) -> tensor<i8>");
    let by = |amount| [("a", "-128", "tensor<i8>"), ("b", amount, "tensor<i8>")];
    gives(&by("8"), &op("shift_right_arithmetic"), "-1", "tensor<i8>");
    gives(&by("7"), &op("shift_right_logical"), "1", "tensor<i8>");
}

#[test]
fn clamp_with_min_above_max() {
    let t = "tensor<i32>";
    let op = "\"stablehlo.clamp\"(%l, %x, %h) : (tensor<i32>, tensor<i32>, tensor<i32>) -> tensor<i32>";
    gives(&[("l", "5", t), ("x", "4", t), ("h", "3", t)], op, "3", t);
}

#[test]
fn slice_takes_elements_1_and_3() {
    let op = "\"stablehlo.slice\"(%a) {start_indices = array<i64: 1>, limit_indices = array<i64: 5>, \
              strides = array<i64: 2>} : (tensor<5xi32>) -> tensor<2xi32>";
    gives(&[("a", "[0, 1, 2, 3, 4]", "tensor<5xi32>")], op, "[1, 3]", "tensor<2xi32>");
}

#[test]
fn pad_crops_and_spreads() {
    let op = "\"stablehlo.pad\"(%a, %p) {edge_padding_low = array<i64: -1>, edge_padding_high = array<i64: 2>, \
              interior_padding = array<i64: 1>} : (tensor<3xi32>, tensor<i32>) -> tensor<6xi32>";
    let values = [("a", "[1, 2, 3]", "tensor<3xi32>"), ("p", "0", "tensor<i32>")];
    gives(&values, op, "[0, 2, 0, 3, 0, 0]", "tensor<6xi32>");
}

#[test]
fn dynamic_slice_reads_the_start_in_its_own_type() {
    for (start, index_type, result) in [("255", "ui8", "[1725]"), ("-1", "i8", "[1650]")] {
        let op = format!(
            "\"stablehlo.dynamic_slice\"(%a, %i) {{slice_sizes = array<i64: 1>}} : \
             (tensor<4xui16>, tensor<{index_type}>) -> tensor<1xui16>"
        );
        let scalar = format!("tensor<{index_type}>");
        let values = [("a", "[1650, 1675, 1700, 1725]", "tensor<4xui16>"), ("i", start, scalar.as_str())];
        gives(&values, &op, result, "tensor<1xui16>");
    }
}

#[test]
fn reduce_add_over_dimension_1() {
    let values = [("a", "[[1, 2, 3], [4, 5, 6]]", "tensor<2x3xi32>"), ("s", "0", "tensor<i32>")];
    let op = format!(
        "\"stablehlo.reduce\"(%a, %s) {} {{dimensions = array<i64: 1>}} : (tensor<2x3xi32>, tensor<i32>) -> tensor<2xi32>",
        body("add", "i32")
    );
    gives(&values, &op, "[6, 15]", "tensor<2xi32>");
}

#[test]
fn slice_start_3_limit_2_breaks_c3() {
    let op = "%r = \"stablehlo.slice\"(%a) {start_indices = array<i64: 3>, limit_indices = array<i64: 2>, \
              strides = array<i64: 1>} : (tensor<5xi32>) -> tensor<0xi32>";
    answers(&function("%a: tensor<5xi32>", op), 8, 0, 3);
}

#[test]
fn rank_6_accepted_7_refused() {
    accepted(&function("%a: tensor<1x1x1x1x1x1xi8>", ""));
    refused_at_mark(&function("%a: §tensor<1x1x1x1x1x1x1xi8>", ""), 4, 1);
}

#[test]
fn the_sample_program() {
    let sample = "func.func @main() -> tensor<1xui16> {
  %t = \"stablehlo.constant\"() {value = dense<[1650, 1675, 1700, 1725]> : tensor<4xui16>} : () -> tensor<4xui16>
  %i = \"stablehlo.constant\"() {value = dense<255> : tensor<ui8>} : () -> tensor<ui8>
  %r = \"stablehlo.dynamic_slice\"(%t, %i) {slice_sizes = array<i64: 1>} : (tensor<4xui16>, tensor<ui8>) -> tensor<1xui16>
  \"func.return\"(%r) : (tensor<1xui16>) -> ()
}
";
    prints(sample, "dense<[1725]> : tensor<1xui16>\n");
}

#[test]
fn a_text_with_inputs_is_refused_by_the_program() {
    // "(inputs that have elements: refusal 10)", A is the length needed.
    let text = "func.func @m(%a: tensor<3xi8>) -> tensor<3xi8> {\"func.return\"(%a) : (tensor<3xi8>) -> ()}";
    prints(text, "refused 10 3 0\n");
}
