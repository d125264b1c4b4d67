//! Refusal 8: every (op, C) pair that can occur, with its number and place.
//!
//! Each row has a broken op and the same op repaired: the broken one answers 8 at op 1 with its C
//! number, the repaired one is accepted, so the row's fault is the only one.

use crate::common::*;
use std::collections::BTreeSet;

struct Row {
    op: &'static str,
    c: usize,
    inputs: &'static str,
    broken: String,
    repaired: String,
}

fn row(op: &'static str, c: usize, inputs: &'static str, broken: &str, repaired: &str) -> Row {
    let text = |rest: &str| format!("%r = \"stablehlo.{op}\"{rest}");
    Row { op, c, inputs, broken: text(broken), repaired: text(repaired) }
}

/// The op of a row is op 1 of its function.
fn second_op(inputs: &str, op: &str) -> String {
    let first = "%first = \"stablehlo.constant\"() {value = dense<0> : tensor<i8>} : () -> tensor<i8>";
    function(inputs, &format!("{first}\n{op}"))
}

const SAME_TYPE_BINARY: [&str; 13] = [
    "add",
    "and",
    "divide",
    "maximum",
    "minimum",
    "multiply",
    "or",
    "remainder",
    "shift_left",
    "shift_right_arithmetic",
    "shift_right_logical",
    "subtract",
    "xor",
];
const SAME_TYPE_UNARY: [&str; 5] = ["count_leading_zeros", "negate", "not", "popcnt", "sign"];

fn same_type_rows() -> Vec<Row> {
    let mut rows = Vec::new();
    let inputs = "%a: tensor<2xi8>, %b: tensor<2xi8>, %c: tensor<2xi16>, %d: tensor<3xi8>";
    let good = "(%a, %b) : (tensor<2xi8>, tensor<2xi8>) -> tensor<2xi8>";
    for op in SAME_TYPE_BINARY {
        // The right operand, the left operand, the result; by element type and by shape.
        for broken in [
            "(%a, %c) : (tensor<2xi8>, tensor<2xi16>) -> tensor<2xi8>",
            "(%d, %a) : (tensor<3xi8>, tensor<2xi8>) -> tensor<2xi8>",
            "(%a, %b) : (tensor<2xi8>, tensor<2xi8>) -> tensor<2xi16>",
            "(%a, %b) : (tensor<2xi8>, tensor<2xi8>) -> tensor<1x2xi8>",
        ] {
            rows.push(row(op, 1, inputs, broken, good));
        }
    }
    let good = "(%a) : (tensor<2xi8>) -> tensor<2xi8>";
    for op in SAME_TYPE_UNARY {
        for broken in ["(%a) : (tensor<2xi8>) -> tensor<2xi16>", "(%a) : (tensor<2xi8>) -> tensor<3xi8>"] {
            rows.push(row(op, 1, inputs, broken, good));
        }
    }
    rows
}

fn element_rows() -> Vec<Row> {
    let two = "%a: tensor<2xi8>, %b: tensor<2xi8>, %c: tensor<2xi16>, %d: tensor<3xi8>, %p: tensor<2xi1>, \
               %q: tensor<3xi1>, %u: tensor<2xui8>";
    let abs = "(%a) : (tensor<2xi8>) -> tensor<2xi8>";
    let clamp = "(%a, %a, %b) : (tensor<2xi8>, tensor<2xi8>, tensor<2xi8>) -> tensor<2xi8>";
    let direction = "comparison_direction = #stablehlo<comparison_direction EQ>";
    let compare = format!("(%a, %b) {{{direction}}} : (tensor<2xi8>, tensor<2xi8>) -> tensor<2xi1>");
    let typed = |choice: &str, a: &str, t: &str| {
        format!(
            "(%{a}, %{a}) {{{direction}, compare_type = #stablehlo<comparison_type {choice}>}} : \
             (tensor<2x{t}>, tensor<2x{t}>) -> tensor<2xi1>"
        )
    };
    let select = "(%p, %a, %b) : (tensor<2xi1>, tensor<2xi8>, tensor<2xi8>) -> tensor<2xi8>";
    vec![
        row("abs", 1, two, "(%a) : (tensor<2xi8>) -> tensor<2x1xi8>", abs),
        row("abs", 2, two, "(%a) : (tensor<2xi8>) -> tensor<2xi16>", abs),
        row("convert", 1, two, "(%a) : (tensor<2xi8>) -> tensor<3xi16>", "(%a) : (tensor<2xi8>) -> tensor<2xi16>"),
        row("clamp", 1, two, "(%d, %a, %b) : (tensor<3xi8>, tensor<2xi8>, tensor<2xi8>) -> tensor<2xi8>", clamp),
        row("clamp", 2, two, "(%a, %a, %d) : (tensor<2xi8>, tensor<2xi8>, tensor<3xi8>) -> tensor<2xi8>", clamp),
        row("clamp", 3, two, "(%c, %a, %b) : (tensor<2xi16>, tensor<2xi8>, tensor<2xi8>) -> tensor<2xi8>", clamp),
        row("clamp", 3, two, "(%a, %a, %c) : (tensor<2xi8>, tensor<2xi8>, tensor<2xi16>) -> tensor<2xi8>", clamp),
        row("clamp", 4, two, "(%a, %a, %b) : (tensor<2xi8>, tensor<2xi8>, tensor<2xi8>) -> tensor<2xi16>", clamp),
        row("clamp", 4, two, "(%a, %a, %b) : (tensor<2xi8>, tensor<2xi8>, tensor<2xi8>) -> tensor<3xi8>", clamp),
        row(
            "compare",
            1,
            two,
            &format!("(%a, %c) {{{direction}}} : (tensor<2xi8>, tensor<2xi16>) -> tensor<2xi1>"),
            &compare,
        ),
        row(
            "compare",
            2,
            two,
            &format!("(%a, %d) {{{direction}}} : (tensor<2xi8>, tensor<3xi8>) -> tensor<2xi1>"),
            &compare,
        ),
        row(
            "compare",
            2,
            two,
            &format!("(%a, %b) {{{direction}}} : (tensor<2xi8>, tensor<2xi8>) -> tensor<3xi1>"),
            &compare,
        ),
        row("compare", 3, two, &typed("UNSIGNED", "a", "i8"), &typed("SIGNED", "a", "i8")),
        row("compare", 3, two, &typed("SIGNED", "u", "ui8"), &typed("UNSIGNED", "u", "ui8")),
        row("compare", 3, two, &typed("SIGNED", "p", "i1"), &typed("UNSIGNED", "p", "i1")),
        row("select", 1, two, "(%q, %a, %b) : (tensor<3xi1>, tensor<2xi8>, tensor<2xi8>) -> tensor<2xi8>", select),
        row("select", 2, two, "(%p, %a, %c) : (tensor<2xi1>, tensor<2xi8>, tensor<2xi16>) -> tensor<2xi8>", select),
        row("select", 2, two, "(%p, %a, %b) : (tensor<2xi1>, tensor<2xi8>, tensor<2xi8>) -> tensor<3xi8>", select),
    ]
}

fn constant_rows() -> Vec<Row> {
    let good = "() {value = dense<1> : tensor<2xi8>} : () -> tensor<2xi8>";
    let iota = |d: &str, t: &str| format!("() {{iota_dimension = {d} : i64}} : () -> {t}");
    vec![
        row("constant", 1, "", "() {value = dense<1> : tensor<2xi8>} : () -> tensor<2xi16>", good),
        row("constant", 1, "", "() {value = dense<1> : tensor<2xi8>} : () -> tensor<1x2xi8>", good),
        row("iota", 1, "", &iota("2", "tensor<2x3xi8>"), &iota("1", "tensor<2x3xi8>")),
        row("iota", 1, "", &iota("-1", "tensor<2x3xi8>"), &iota("0", "tensor<2x3xi8>")),
        row("iota", 1, "", &iota("0", "tensor<i8>"), &iota("0", "tensor<1xi8>")),
    ]
}

fn shape_rows() -> Vec<Row> {
    let inputs = "%a: tensor<2x3xi8>, %n: tensor<0xi8>, %v: tensor<4xi8>";
    let broadcast =
        |list: &str, t: &str| format!("(%a) {{broadcast_dimensions = array<i64{list}>}} : (tensor<2x3xi8>) -> {t}");
    let good_broadcast = broadcast(": 1, 0", "tensor<3x2xi8>");
    let reshape = |t: &str| format!("(%a) : (tensor<2x3xi8>) -> {t}");
    let transpose = |list: &str, t: &str| format!("(%a) {{permutation = array<i64{list}>}} : (tensor<2x3xi8>) -> {t}");
    let good_transpose = transpose(": 1, 0", "tensor<3x2xi8>");
    let reverse = |list: &str, t: &str| format!("(%a) {{dimensions = array<i64{list}>}} : (tensor<2x3xi8>) -> {t}");
    let good_reverse = reverse(": 1, 0", "tensor<2x3xi8>");
    vec![
        row("broadcast_in_dim", 1, inputs, &broadcast(": 1, 0", "tensor<3x2xi16>"), &good_broadcast),
        row("broadcast_in_dim", 2, inputs, &broadcast(": 1", "tensor<3x2xi8>"), &good_broadcast),
        row("broadcast_in_dim", 2, inputs, &broadcast("", "tensor<3x2xi8>"), &good_broadcast),
        row("broadcast_in_dim", 3, inputs, &broadcast(": 2, 0", "tensor<3x2xi8>"), &good_broadcast),
        row("broadcast_in_dim", 3, inputs, &broadcast(": 1, -1", "tensor<3x2xi8>"), &good_broadcast),
        row("broadcast_in_dim", 4, inputs, &broadcast(": 1, 1", "tensor<3x2xi8>"), &good_broadcast),
        row("broadcast_in_dim", 5, inputs, &broadcast(": 0, 1", "tensor<3x2xi8>"), &good_broadcast),
        row("reshape", 1, inputs, &reshape("tensor<6xi16>"), &reshape("tensor<6xi8>")),
        row("reshape", 2, inputs, &reshape("tensor<5xi8>"), &reshape("tensor<3x2xi8>")),
        row("transpose", 1, inputs, &transpose(": 1, 0", "tensor<3x2xui8>"), &good_transpose),
        row("transpose", 2, inputs, &transpose(": 1, 1", "tensor<3x2xi8>"), &good_transpose),
        row("transpose", 2, inputs, &transpose(": 1, 2", "tensor<3x2xi8>"), &good_transpose),
        row("transpose", 2, inputs, &transpose(": -1, 0", "tensor<3x2xi8>"), &good_transpose),
        row("transpose", 2, inputs, &transpose(": 1, 0, 2", "tensor<3x2xi8>"), &good_transpose),
        row("transpose", 3, inputs, &transpose(": 1, 0", "tensor<2x3xi8>"), &good_transpose),
        row("reverse", 1, inputs, &reverse(": 1", "tensor<3x2xi8>"), &good_reverse),
        row("reverse", 1, inputs, &reverse(": 1", "tensor<2x3xi16>"), &good_reverse),
        row("reverse", 2, inputs, &reverse(": 1, 1", "tensor<2x3xi8>"), &good_reverse),
        row("reverse", 3, inputs, &reverse(": 2", "tensor<2x3xi8>"), &good_reverse),
        row("reverse", 3, inputs, &reverse(": -1", "tensor<2x3xi8>"), &good_reverse),
    ]
}

fn concatenate_rows() -> Vec<Row> {
    let inputs = "%a: tensor<2x3xi8>, %b: tensor<2x1xi8>, %w: tensor<2x3xi16>, %t: tensor<3x3xi8>, %v: tensor<2xi8>";
    let of = |operands: &str, types: &str, d: &str, t: &str| {
        format!("({operands}) {{dimension = {d} : i64}} : ({types}) -> {t}")
    };
    let ab = |d: &str, t: &str| of("%a, %b", "tensor<2x3xi8>, tensor<2x1xi8>", d, t);
    let good = ab("1", "tensor<2x4xi8>");
    vec![
        row("concatenate", 1, inputs, &of("%a, %w", "tensor<2x3xi8>, tensor<2x3xi16>", "1", "tensor<2x6xi8>"), &good),
        row("concatenate", 2, inputs, &of("%a, %t", "tensor<2x3xi8>, tensor<3x3xi8>", "1", "tensor<2x6xi8>"), &good),
        row("concatenate", 2, inputs, &of("%a, %v", "tensor<2x3xi8>, tensor<2xi8>", "0", "tensor<4x3xi8>"), &good),
        // A dimension that doesn't exist is named by C2 already (OP-72).
        row("concatenate", 2, inputs, &of("%a", "tensor<2x3xi8>", "2", "tensor<2x3xi8>"), &good),
        row("concatenate", 2, inputs, &of("%a", "tensor<2x3xi8>", "-1", "tensor<2x3xi8>"), &good),
        row("concatenate", 3, inputs, &of("", "", "0", "tensor<2xi8>"), &good),
        row("concatenate", 5, inputs, &ab("1", "tensor<2x4xi16>"), &good),
        row("concatenate", 6, inputs, &ab("1", "tensor<2x5xi8>"), &good),
        row("concatenate", 6, inputs, &ab("1", "tensor<4x2xi8>"), &good),
        row("concatenate", 6, inputs, &ab("1", "tensor<8xi8>"), &good),
    ]
}

fn slice_rows() -> Vec<Row> {
    let inputs = "%a: tensor<5x2xi8>";
    let slice = |start: &str, limit: &str, strides: &str, t: &str| {
        format!(
            "(%a) {{start_indices = array<i64: {start}>, limit_indices = array<i64: {limit}>, \
             strides = array<i64: {strides}>}} : (tensor<5x2xi8>) -> {t}"
        )
    };
    let good = slice("1, 0", "5, 2", "2, 1", "tensor<2x2xi8>");
    let bad = |c, start, limit, strides, t| row("slice", c, inputs, &slice(start, limit, strides, t), &good);
    vec![
        bad(1, "1, 0", "5, 2", "2, 1", "tensor<2x2xui8>"),
        bad(2, "1", "5, 2", "2, 1", "tensor<2x2xi8>"),
        bad(2, "1, 0", "5", "2, 1", "tensor<2x2xi8>"),
        bad(2, "1, 0", "5, 2", "2, 1, 1", "tensor<2x2xi8>"),
        bad(3, "-1, 0", "5, 2", "2, 1", "tensor<3x2xi8>"),
        bad(3, "1, 2", "5, 1", "2, 1", "tensor<2x0xi8>"),
        bad(3, "1, 0", "6, 2", "2, 1", "tensor<3x2xi8>"),
        bad(4, "1, 0", "5, 2", "0, 1", "tensor<2x2xi8>"),
        bad(4, "1, 0", "5, 2", "2, -1", "tensor<2x2xi8>"),
        bad(5, "1, 0", "5, 2", "2, 1", "tensor<3x2xi8>"),
        bad(5, "0, 0", "5, 2", "2, 1", "tensor<2x2xi8>"),
        bad(5, "1, 0", "5, 2", "2, 1", "tensor<4xi8>"),
    ]
}

fn dynamic_slice_rows() -> Vec<Row> {
    let inputs = "%a: tensor<5x2xi8>, %i: tensor<i32>, %j: tensor<i32>, %k: tensor<ui32>";
    let of = |starts: &str, types: &str, sizes: &str, t: &str| {
        format!("(%a{starts}) {{slice_sizes = array<i64{sizes}>}} : (tensor<5x2xi8>{types}) -> {t}")
    };
    let ij = |sizes: &str, t: &str| of(", %i, %j", ", tensor<i32>, tensor<i32>", sizes, t);
    let good = ij(": 3, 2", "tensor<3x2xi8>");
    vec![
        row("dynamic_slice", 1, inputs, &ij(": 3, 2", "tensor<3x2xi16>"), &good),
        row("dynamic_slice", 2, inputs, &of(", %i", ", tensor<i32>", ": 3, 2", "tensor<3x2xi8>"), &good),
        row("dynamic_slice", 2, inputs, &of("", "", "", "tensor<3x2xi8>"), &good),
        row("dynamic_slice", 2, inputs, &ij(": 3", "tensor<3x2xi8>"), &good),
        row(
            "dynamic_slice",
            3,
            inputs,
            &of(", %i, %k", ", tensor<i32>, tensor<ui32>", ": 3, 2", "tensor<3x2xi8>"),
            &good,
        ),
        row("dynamic_slice", 4, inputs, &ij(": 6, 2", "tensor<6x2xi8>"), &good),
        row("dynamic_slice", 4, inputs, &ij(": 3, -1", "tensor<3x2xi8>"), &good),
        row("dynamic_slice", 5, inputs, &ij(": 3, 2", "tensor<3x1xi8>"), &good),
    ]
}

fn pad_rows() -> Vec<Row> {
    let inputs = "%a: tensor<3x2xi8>, %p: tensor<i8>, %q: tensor<i16>";
    let of = |p: &str, pt: &str, low: &str, high: &str, interior: &str, t: &str| {
        format!(
            "(%a, %{p}) {{edge_padding_low = array<i64: {low}>, edge_padding_high = array<i64: {high}>, \
             interior_padding = array<i64: {interior}>}} : (tensor<3x2xi8>, tensor<{pt}>) -> {t}"
        )
    };
    let pad = |low: &str, high: &str, interior: &str, t: &str| of("p", "i8", low, high, interior, t);
    let good = pad("1, -1", "0, 1", "2, 0", "tensor<8x2xi8>");
    vec![
        row("pad", 1, inputs, &of("q", "i16", "1, -1", "0, 1", "2, 0", "tensor<8x2xi8>"), &good),
        row("pad", 1, inputs, &pad("1, -1", "0, 1", "2, 0", "tensor<8x2xi16>"), &good),
        row("pad", 2, inputs, &pad("1", "0, 1", "2, 0", "tensor<8x2xi8>"), &good),
        row("pad", 2, inputs, &pad("1, -1", "0, 1, 0", "2, 0", "tensor<8x2xi8>"), &good),
        row("pad", 2, inputs, &pad("1, -1", "0, 1", "2", "tensor<8x2xi8>"), &good),
        row("pad", 3, inputs, &pad("1, -1", "0, 1", "2, -1", "tensor<8x2xi8>"), &good),
        row("pad", 4, inputs, &pad("1, -1", "0, 1", "2, 0", "tensor<8x3xi8>"), &good),
        row("pad", 4, inputs, &pad("1, -1", "0, 1", "2, 0", "tensor<16xi8>"), &good),
        // 2 - 3 + 0 is below 0 and no result's size (OP-82).
        row("pad", 4, inputs, &pad("1, -3", "0, 0", "2, 0", "tensor<8x0xi8>"), &good),
    ]
}

fn reduce_rows() -> Vec<Row> {
    let inputs = "%a: tensor<2x3xi8>, %s: tensor<i8>, %w: tensor<i16>";
    let of = |s: &str, st: &str, body: &str, dimensions: &str, t: &str| {
        format!("(%a, %{s}) {body} {{dimensions = array<i64{dimensions}>}} : (tensor<2x3xi8>, tensor<{st}>) -> {t}")
    };
    let (i8_body, i16_body) = (body("add", "i8"), body("add", "i16"));
    let reduce = |dimensions: &str, t: &str| of("s", "i8", &i8_body, dimensions, t);
    let good = reduce(": 1", "tensor<2xi8>");
    let rank1 = body("add", "1xi8");
    vec![
        row("reduce", 2, inputs, &of("w", "i16", &i8_body, ": 1", "tensor<2xi8>"), &good),
        // A start that differs breaks C2 even if it is of the body's type (OP-78).
        row("reduce", 2, inputs, &of("w", "i16", &i16_body, ": 1", "tensor<2xi8>"), &good),
        row("reduce", 4, inputs, &reduce(": 2", "tensor<2xi8>"), &good),
        row("reduce", 4, inputs, &reduce(": -1", "tensor<2xi8>"), &good),
        row("reduce", 5, inputs, &reduce(": 1, 1", "tensor<2xi8>"), &good),
        row("reduce", 6, inputs, &of("s", "i8", &i16_body, ": 1", "tensor<2xi8>"), &good),
        row("reduce", 6, inputs, &of("s", "i8", &rank1, ": 1", "tensor<2xi8>"), &good),
        row("reduce", 7, inputs, &reduce(": 1", "tensor<3xi8>"), &good),
        row("reduce", 7, inputs, &reduce("", "tensor<2xi8>"), &good),
        row("reduce", 8, inputs, &reduce(": 1", "tensor<2xi16>"), &good),
    ]
}

fn all_rows() -> Vec<Row> {
    let mut rows = same_type_rows();
    rows.extend(element_rows());
    rows.extend(constant_rows());
    rows.extend(shape_rows());
    rows.extend(concatenate_rows());
    rows.extend(slice_rows());
    rows.extend(dynamic_slice_rows());
    rows.extend(pad_rows());
    rows.extend(reduce_rows());
    rows
}

#[test]
fn each_broken_constraint_answers_its_number_at_its_op() {
    for row in all_rows() {
        answers(&second_op(row.inputs, &row.broken), 8, 1, row.c);
    }
}

#[test]
fn each_repaired_op_is_accepted() {
    for row in all_rows() {
        accepted(&second_op(row.inputs, &row.repaired));
    }
}

#[test]
fn the_rows_cover_every_pair_that_can_occur() {
    // The numbers of 000, without those on quantized types (OP-71), reduce's C1 and C3 (OP-75) and
    // concatenate's C4 (OP-72).
    let mut expected: BTreeSet<(&str, usize)> = BTreeSet::new();
    for op in SAME_TYPE_BINARY.into_iter().chain(SAME_TYPE_UNARY) {
        expected.insert((op, 1));
    }
    let others: [(&str, &[usize]); 16] = [
        ("abs", &[1, 2]),
        ("broadcast_in_dim", &[1, 2, 3, 4, 5]),
        ("clamp", &[1, 2, 3, 4]),
        ("compare", &[1, 2, 3]),
        ("concatenate", &[1, 2, 3, 5, 6]),
        ("constant", &[1]),
        ("convert", &[1]),
        ("dynamic_slice", &[1, 2, 3, 4, 5]),
        ("iota", &[1]),
        ("pad", &[1, 2, 3, 4]),
        ("reduce", &[2, 4, 5, 6, 7, 8]),
        ("reshape", &[1, 2]),
        ("reverse", &[1, 2, 3]),
        ("select", &[1, 2]),
        ("slice", &[1, 2, 3, 4, 5]),
        ("transpose", &[1, 2, 3]),
    ];
    for (op, numbers) in others {
        expected.extend(numbers.iter().map(|&c| (op, c)));
    }
    let tested: BTreeSet<(&str, usize)> = all_rows().iter().map(|row| (row.op, row.c)).collect();
    assert_eq!(tested, expected);
    let ops: BTreeSet<&str> = expected.iter().map(|(op, _)| *op).collect();
    assert_eq!(ops.len(), 34);
}
