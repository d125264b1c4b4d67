//! Every worked example of 000 for the 34 ops, as an integer program. Where 000's example is of
//! floats or complex numbers, the same values are taken as integers as far as they can be.

use crate::common::*;

/// One operand `%a`, one element-wise op.
#[track_caller]
fn unary(op: &str, a: &str, a_type: &str, result: &str, result_type: &str) {
    gives(&[("a", a, a_type)], &format!("\"stablehlo.{op}\"(%a) : ({a_type}) -> {result_type}"), result, result_type);
}

/// Two operands and a result of one type.
#[track_caller]
fn binary(op: &str, a: &str, b: &str, result: &str, t: &str) {
    gives(&[("a", a, t), ("b", b, t)], &format!("\"stablehlo.{op}\"(%a, %b) : ({t}, {t}) -> {t}"), result, t);
}

const SQUARE: &str = "tensor<2x2xi32>";
const BOOLEANS: &str = "tensor<2x2xi1>";

#[test]
fn abs() {
    unary("abs", "[-2, 0, 2]", "tensor<3xi32>", "[2, 0, 2]", "tensor<3xi32>");
}

#[test]
fn add() {
    binary("add", "[[1, 2], [3, 4]]", "[[5, 6], [7, 8]]", "[[6, 8], [10, 12]]", SQUARE);
}

#[test]
fn and() {
    binary("and", "[[1, 2], [3, 4]]", "[[5, 6], [7, 8]]", "[[1, 2], [3, 0]]", SQUARE);
}

#[test]
fn broadcast_in_dim() {
    let op = "\"stablehlo.broadcast_in_dim\"(%a) {broadcast_dimensions = array<i64: 2, 1>} : \
              (tensor<1x3xi32>) -> tensor<2x3x2xi32>";
    let result = "[[[1, 1], [2, 2], [3, 3]], [[1, 1], [2, 2], [3, 3]]]";
    gives(&[("a", "[[1, 2, 3]]", "tensor<1x3xi32>")], op, result, "tensor<2x3x2xi32>");
}

#[test]
fn clamp() {
    let t = "tensor<3xi32>";
    let values = [("l", "[5, 10, 15]", t), ("x", "[3, 13, 23]", t), ("h", "[10, 15, 20]", t)];
    let op = format!("\"stablehlo.clamp\"(%l, %x, %h) : ({t}, {t}, {t}) -> {t}");
    gives(&values, &op, "[5, 13, 20]", t);
}

#[test]
fn compare() {
    // 000 has [1.0, 3.0] against [1.1, 2.9] with FLOAT; times ten as integers.
    let values = [("a", "[10, 30]", "tensor<2xi32>"), ("b", "[11, 29]", "tensor<2xi32>")];
    let op = "\"stablehlo.compare\"(%a, %b) {comparison_direction = #stablehlo<comparison_direction LT>, \
              compare_type = #stablehlo<comparison_type SIGNED>} : (tensor<2xi32>, tensor<2xi32>) -> tensor<2xi1>";
    gives(&values, op, "[true, false]", "tensor<2xi1>");
}

#[test]
fn concatenate() {
    let values = [("a", "[[1, 2], [3, 4], [5, 6]]", "tensor<3x2xi64>"), ("b", "[[7, 8]]", "tensor<1x2xi64>")];
    let op = "\"stablehlo.concatenate\"(%a, %b) {dimension = 0 : i64} : (tensor<3x2xi64>, tensor<1x2xi64>) -> tensor<4x2xi64>";
    gives(&values, op, "[[1, 2], [3, 4], [5, 6], [7, 8]]", "tensor<4x2xi64>");
}

#[test]
fn constant() {
    let op = "\"stablehlo.constant\"() {value = dense<[[0, 1], [2, 3]]> : tensor<2x2xi32>} : () -> tensor<2x2xi32>";
    gives(&[], op, "[[0, 1], [2, 3]]", SQUARE);
}

#[test]
fn convert() {
    // 000 converts to complex; here to the nearest types of paper 01.
    unary("convert", "[-1, 0, 1]", "tensor<3xi64>", "[-1, 0, 1]", "tensor<3xi8>");
    unary("convert", "[-1, 0, 1]", "tensor<3xi64>", "[true, false, true]", "tensor<3xi1>");
}

#[test]
fn count_leading_zeros() {
    let t = "tensor<2x2xi64>";
    unary("count_leading_zeros", "[[0, 1], [128, -1]]", t, "[[64, 63], [56, 0]]", t);
}

#[test]
fn divide() {
    // 000 has 17.1 by 3.0; the quotient without its fraction.
    binary("divide", "[17, -17, 17, -17]", "[3, 3, -3, -3]", "[5, -5, -5, 5]", "tensor<4xi32>");
}

#[test]
fn dynamic_slice() {
    let values = [
        ("a", "[[0, 0, 1, 1], [0, 0, 1, 1], [0, 0, 0, 0], [0, 0, 0, 0]]", "tensor<4x4xi32>"),
        ("i", "-1", "tensor<i64>"),
        ("j", "3", "tensor<i64>"),
    ];
    let op = "\"stablehlo.dynamic_slice\"(%a, %i, %j) {slice_sizes = array<i64: 2, 2>} : \
              (tensor<4x4xi32>, tensor<i64>, tensor<i64>) -> tensor<2x2xi32>";
    gives(&values, op, "[[1, 1], [1, 1]]", SQUARE);
}

#[test]
fn iota() {
    let op = |d| format!("\"stablehlo.iota\"() {{iota_dimension = {d} : i64}} : () -> tensor<4x5xi32>");
    let rows = "[[0, 0, 0, 0, 0], [1, 1, 1, 1, 1], [2, 2, 2, 2, 2], [3, 3, 3, 3, 3]]";
    let columns = "[[0, 1, 2, 3, 4], [0, 1, 2, 3, 4], [0, 1, 2, 3, 4], [0, 1, 2, 3, 4]]";
    gives(&[], &op(0), rows, "tensor<4x5xi32>");
    gives(&[], &op(1), columns, "tensor<4x5xi32>");
}

#[test]
fn maximum() {
    binary("maximum", "[[1, 2], [7, 8]]", "[[5, 6], [3, 4]]", "[[5, 6], [7, 8]]", SQUARE);
}

#[test]
fn minimum() {
    binary("minimum", "[[1, 2], [7, 8]]", "[[5, 6], [3, 4]]", "[[1, 2], [3, 4]]", SQUARE);
}

#[test]
fn multiply() {
    binary("multiply", "[[1, 2], [3, 4]]", "[[5, 6], [7, 8]]", "[[5, 12], [21, 32]]", SQUARE);
}

#[test]
fn negate() {
    unary("negate", "[0, -2]", "tensor<2xi32>", "[0, 2]", "tensor<2xi32>");
}

#[test]
fn not() {
    unary("not", "[[1, 2], [3, 4]]", SQUARE, "[[-2, -3], [-4, -5]]", SQUARE);
    unary("not", "[true, false]", "tensor<2xi1>", "[false, true]", "tensor<2xi1>");
}

#[test]
fn or() {
    binary("or", "[[1, 2], [3, 4]]", "[[5, 6], [7, 8]]", "[[5, 6], [7, 12]]", SQUARE);
    let (a, b) = ("[[false, false], [true, true]]", "[[false, true], [false, true]]");
    binary("or", a, b, "[[false, true], [true, true]]", BOOLEANS);
}

#[test]
fn pad() {
    let values = [("a", "[[1, 2, 3], [4, 5, 6]]", "tensor<2x3xi32>"), ("p", "0", "tensor<i32>")];
    let op = "\"stablehlo.pad\"(%a, %p) {edge_padding_low = array<i64: 0, 1>, edge_padding_high = array<i64: 2, 1>, \
              interior_padding = array<i64: 1, 2>} : (tensor<2x3xi32>, tensor<i32>) -> tensor<5x9xi32>";
    let result = "[[0, 1, 0, 0, 2, 0, 0, 3, 0], [0, 0, 0, 0, 0, 0, 0, 0, 0], [0, 4, 0, 0, 5, 0, 0, 6, 0], \
                  [0, 0, 0, 0, 0, 0, 0, 0, 0], [0, 0, 0, 0, 0, 0, 0, 0, 0]]";
    gives(&values, op, result, "tensor<5x9xi32>");
}

#[test]
fn popcnt() {
    unary("popcnt", "[0, 1, 2, 127]", "tensor<4xi64>", "[0, 1, 1, 7]", "tensor<4xi64>");
}

#[test]
fn reduce() {
    let values = [("a", "[[0, 1, 2, 3, 4, 5]]", "tensor<1x6xi64>"), ("s", "0", "tensor<i64>")];
    let op = "\"stablehlo.reduce\"(%a, %s) ({
      ^bb0(%arg0: tensor<i64>, %arg1: tensor<i64>):
        %0 = \"stablehlo.add\"(%arg0, %arg1) : (tensor<i64>, tensor<i64>) -> tensor<i64>
        \"stablehlo.return\"(%0) : (tensor<i64>) -> ()
    }) {
      dimensions = array<i64: 1>
    } : (tensor<1x6xi64>, tensor<i64>) -> tensor<1xi64>";
    gives(&values, op, "[15]", "tensor<1xi64>");
}

#[test]
fn remainder() {
    binary("remainder", "[17, -17, 17, -17]", "[3, 3, -3, -3]", "[2, -2, 2, -2]", "tensor<4xi64>");
}

#[test]
fn reshape() {
    unary("reshape", "[[1, 2, 3], [4, 5, 6]]", "tensor<2x3xi32>", "[[1, 2], [3, 4], [5, 6]]", "tensor<3x2xi32>");
}

#[test]
fn reverse() {
    let op = "\"stablehlo.reverse\"(%a) {dimensions = array<i64: 1>} : (tensor<3x2xi32>) -> tensor<3x2xi32>";
    gives(&[("a", "[[1, 2], [3, 4], [5, 6]]", "tensor<3x2xi32>")], op, "[[2, 1], [4, 3], [6, 5]]", "tensor<3x2xi32>");
}

#[test]
fn select() {
    let values = [
        ("p", "[[false, true], [true, false]]", BOOLEANS),
        ("a", "[[1, 2], [3, 4]]", SQUARE),
        ("b", "[[5, 6], [7, 8]]", SQUARE),
    ];
    let op = format!("\"stablehlo.select\"(%p, %a, %b) : ({BOOLEANS}, {SQUARE}, {SQUARE}) -> {SQUARE}");
    gives(&values, &op, "[[5, 2], [3, 8]]", SQUARE);
}

#[test]
fn shift_left() {
    binary("shift_left", "[-1, 0, 1]", "[1, 2, 3]", "[-2, 0, 8]", "tensor<3xi64>");
}

#[test]
fn shift_right_arithmetic() {
    binary("shift_right_arithmetic", "[-1, 0, 8]", "[1, 2, 3]", "[-1, 0, 1]", "tensor<3xi64>");
}

#[test]
fn shift_right_logical() {
    binary("shift_right_logical", "[-1, 0, 8]", "[1, 2, 3]", "[9223372036854775807, 0, 1]", "tensor<3xi64>");
}

#[test]
fn sign() {
    // 000's example is of floats: -1.0, -0.0, 0.0, 1.0.
    unary("sign", "[-1, 0, 0, 1, -7, 9]", "tensor<6xi64>", "[-1, 0, 0, 1, -1, 1]", "tensor<6xi64>");
}

#[test]
fn slice() {
    let op = "\"stablehlo.slice\"(%a) {start_indices = array<i64: 1, 2>, limit_indices = array<i64: 3, 4>, \
              strides = array<i64: 1, 1>} : (tensor<3x4xi64>) -> tensor<2x2xi64>";
    let values = [("a", "[[0, 0, 0, 0], [0, 0, 1, 1], [0, 0, 1, 1]]", "tensor<3x4xi64>")];
    gives(&values, op, "[[1, 1], [1, 1]]", "tensor<2x2xi64>");
}

#[test]
fn subtract() {
    // 000 writes the one result type in parentheses.
    let values = [("a", "[[6, 8], [10, 12]]", SQUARE), ("b", "[[5, 6], [7, 8]]", SQUARE)];
    let op = format!("\"stablehlo.subtract\"(%a, %b) : ({SQUARE}, {SQUARE}) -> ({SQUARE})");
    gives(&values, &op, "[[1, 2], [3, 4]]", SQUARE);
}

#[test]
fn transpose() {
    let op =
        "\"stablehlo.transpose\"(%a) {permutation = array<i64: 2, 1, 0>} : (tensor<2x3x2xi32>) -> tensor<2x3x2xi32>";
    let values = [("a", "[[[1,2], [3,4], [5,6]], [[7,8], [9,10], [11,12]]]", "tensor<2x3x2xi32>")];
    gives(&values, op, "[[[1, 7], [3, 9], [5, 11]], [[2, 8], [4, 10], [6, 12]]]", "tensor<2x3x2xi32>");
}

#[test]
fn xor() {
    binary("xor", "[[1, 2], [3, 4]]", "[[5, 6], [7, 8]]", "[[4, 4], [4, 12]]", SQUARE);
    let (a, b) = ("[[false, false], [true, true]]", "[[false, true], [false, true]]");
    binary("xor", a, b, "[[false, true], [true, false]]", BOOLEANS);
}
