//! 01 Shape by shape and Reductions, beyond the examples of the papers; results worked out by hand.

use crate::common::*;

#[test]
fn compare_in_all_directions() {
    let compare = |a: &str, b: &str, t: &str, direction: &str, result: &str| {
        let op = format!(
            "\"stablehlo.compare\"(%a, %b) {{comparison_direction = #stablehlo<comparison_direction {direction}>}} : \
             ({t}, {t}) -> tensor<3xi1>"
        );
        gives(&[("a", a, t), ("b", b, t)], &op, result, "tensor<3xi1>");
    };
    for (direction, result) in [
        ("EQ", "[false, true, false]"),
        ("NE", "[true, false, true]"),
        ("GE", "[false, true, true]"),
        ("GT", "[false, false, true]"),
        ("LE", "[true, true, false]"),
        ("LT", "[true, false, false]"),
    ] {
        compare("[-1, 5, 7]", "[1, 5, -7]", "tensor<3xi8>", direction, result);
        // Unsigned values above the signed range are above the others.
        compare("[1, 5, 18446744073709551615]", "[200, 5, 0]", "tensor<3xui64>", direction, result);
        // "on `i1` false is below true".
        compare("[false, true, true]", "[true, true, false]", "tensor<3xi1>", direction, result);
    }
}

#[test]
fn select_and_clamp_with_rank_0() {
    let v = "tensor<2xi8>";
    for (pred, result) in [("true", "[1, 2]"), ("false", "[3, 4]")] {
        let values = [("p", pred, "tensor<i1>"), ("a", "[1, 2]", v), ("b", "[3, 4]", v)];
        gives(&values, &format!("\"stablehlo.select\"(%p, %a, %b) : (tensor<i1>, {v}, {v}) -> {v}"), result, v);
    }
    let values = [("l", "-1", "tensor<i8>"), ("x", "[-9, 9]", v), ("h", "4", "tensor<i8>")];
    let op = format!("\"stablehlo.clamp\"(%l, %x, %h) : (tensor<i8>, {v}, tensor<i8>) -> {v}");
    gives(&values, &op, "[-1, 4]", v);
}

#[test]
fn iota_wraps() {
    let last_of = |element: &str, result: &str| {
        let ops = format!(
            "%i = \"stablehlo.iota\"() {{iota_dimension = 0 : i64}} : () -> tensor<300x{element}>\n\
             %r = \"stablehlo.slice\"(%i) {{start_indices = array<i64: 127>, limit_indices = array<i64: 300>, \
             strides = array<i64: 129>}} : (tensor<300x{element}>) -> tensor<2x{element}>"
        );
        let t = format!("tensor<2x{element}>");
        prints(&returning(&ops, &t), &format!("dense<{result}> : {t}\n"));
    };
    last_of("i8", "[127, 0]");
    last_of("ui8", "[127, 0]");
    last_of("i16", "[127, 256]");
}

#[test]
fn slice_in_two_dimensions_with_strides() {
    let op = "\"stablehlo.slice\"(%a) {start_indices = array<i64: 0, 1>, limit_indices = array<i64: 3, 4>, \
              strides = array<i64: 2, 2>} : (tensor<3x4xi8>) -> tensor<2x2xi8>";
    let values = [("a", "[[0, 1, 2, 3], [4, 5, 6, 7], [8, 9, 10, 11]]", "tensor<3x4xi8>")];
    gives(&values, op, "[[1, 3], [9, 11]]", "tensor<2x2xi8>");
}

#[test]
fn dynamic_slice_clamps_each_start_by_itself() {
    let a = ("a", "[[0, 1, 2, 3], [4, 5, 6, 7], [8, 9, 10, 11]]", "tensor<3x4xi8>");
    for (i, j, result) in [
        ("0", "0", "[[0, 1, 2], [4, 5, 6]]"),
        ("1", "1", "[[5, 6, 7], [9, 10, 11]]"),
        ("2", "-5", "[[4, 5, 6], [8, 9, 10]]"),
        ("-128", "127", "[[1, 2, 3], [5, 6, 7]]"),
    ] {
        let values = [a, ("i", i, "tensor<i8>"), ("j", j, "tensor<i8>")];
        let op = "\"stablehlo.dynamic_slice\"(%a, %i, %j) {slice_sizes = array<i64: 2, 3>} : \
                  (tensor<3x4xi8>, tensor<i8>, tensor<i8>) -> tensor<2x3xi8>";
        gives(&values, op, result, "tensor<2x3xi8>");
    }
}

#[test]
fn concatenate_along_the_last_dimension() {
    let values = [
        ("a", "[[1], [2]]", "tensor<2x1xi8>"),
        ("b", "[[3, 4], [5, 6]]", "tensor<2x2xi8>"),
        ("e", "[[], []]", "tensor<2x0xi8>"),
    ];
    let op = "\"stablehlo.concatenate\"(%b, %e, %a) {dimension = 1 : i64} : \
              (tensor<2x2xi8>, tensor<2x0xi8>, tensor<2x1xi8>) -> tensor<2x3xi8>";
    gives(&values, op, "[[3, 4, 1], [5, 6, 2]]", "tensor<2x3xi8>");
}

#[test]
fn reverse_of_two_dimensions() {
    let op = "\"stablehlo.reverse\"(%a) {dimensions = array<i64: 2, 0>} : (tensor<2x1x3xi8>) -> tensor<2x1x3xi8>";
    let values = [("a", "[[[1, 2, 3]], [[4, 5, 6]]]", "tensor<2x1x3xi8>")];
    gives(&values, op, "[[[6, 5, 4]], [[3, 2, 1]]]", "tensor<2x1x3xi8>");
}

#[test]
fn broadcast_of_a_scalar_and_of_single_sizes() {
    let op = "\"stablehlo.broadcast_in_dim\"(%a) {broadcast_dimensions = array<i64>} : (tensor<i8>) -> tensor<2x2xi8>";
    gives(&[("a", "7", "tensor<i8>")], op, "[[7, 7], [7, 7]]", "tensor<2x2xi8>");
    let op = "\"stablehlo.broadcast_in_dim\"(%a) {broadcast_dimensions = array<i64: 0, 1>} : \
              (tensor<2x1xi8>) -> tensor<2x3xi8>";
    gives(&[("a", "[[1], [2]]", "tensor<2x1xi8>")], op, "[[1, 1, 1], [2, 2, 2]]", "tensor<2x3xi8>");
}

/// A pad in one dimension.
#[track_caller]
fn pad(a: &str, size: usize, edges: (i64, i64, i64), result: &str, result_size: usize) {
    let (low, high, interior) = edges;
    let t = format!("tensor<{size}xi8>");
    let op = format!(
        "\"stablehlo.pad\"(%a, %p) {{edge_padding_low = array<i64: {low}>, edge_padding_high = array<i64: {high}>, \
         interior_padding = array<i64: {interior}>}} : ({t}, tensor<i8>) -> tensor<{result_size}xi8>"
    );
    let values = [("a", a, t.as_str()), ("p", "0", "tensor<i8>")];
    gives(&values, &op, result, &format!("tensor<{result_size}xi8>"));
}

#[test]
fn pad_sizes() {
    // operand + low + max(operand - 1, 0) x interior + high.
    pad("[]", 0, (1, 1, 5), "[0, 0]", 2);
    pad("[7]", 1, (1, 1, 5), "[0, 7, 0]", 3);
    pad("[7, 8]", 2, (0, 0, 2), "[7, 0, 0, 8]", 4);
    pad("[7, 8, 9]", 3, (-2, -2, 1), "[8]", 1);
    pad("[7, 8, 9]", 3, (-1, -1, 1), "[0, 8, 0]", 3);
    pad("[7, 8, 9]", 3, (0, -4, 1), "[7]", 1);
}

#[test]
fn pad_in_two_dimensions() {
    let op = "\"stablehlo.pad\"(%a, %p) {edge_padding_low = array<i64: -1, 1>, edge_padding_high = array<i64: 1, 0>, \
              interior_padding = array<i64: 0, 1>} : (tensor<2x2xi8>, tensor<i8>) -> tensor<2x4xi8>";
    let values = [("a", "[[1, 2], [3, 4]]", "tensor<2x2xi8>"), ("p", "9", "tensor<i8>")];
    gives(&values, op, "[[9, 3, 9, 4], [9, 9, 9, 9]]", "tensor<2x4xi8>");
}

/// A reduction of `tensor<2x3x2xi8>` with elements 1 to 12.
#[track_caller]
fn reduce_cube(dimensions: &str, result: &str, t: &str) {
    let a = "[[[1, 2], [3, 4], [5, 6]], [[7, 8], [9, 10], [11, 12]]]";
    let op = format!(
        "\"stablehlo.reduce\"(%a, %s) {} {{dimensions = array<i64{dimensions}>}} : (tensor<2x3x2xi8>, tensor<i8>) -> {t}",
        body("add", "i8")
    );
    gives(&[("a", a, "tensor<2x3x2xi8>"), ("s", "0", "tensor<i8>")], &op, result, t);
}

#[test]
fn reduce_over_each_choice_of_dimensions() {
    reduce_cube(": 0", "[[8, 10], [12, 14], [16, 18]]", "tensor<3x2xi8>");
    reduce_cube(": 1", "[[9, 12], [27, 30]]", "tensor<2x2xi8>");
    reduce_cube(": 2", "[[3, 7, 11], [15, 19, 23]]", "tensor<2x3xi8>");
    reduce_cube(": 0, 2", "[18, 26, 34]", "tensor<3xi8>");
    reduce_cube(": 2, 0", "[18, 26, 34]", "tensor<3xi8>");
    reduce_cube(": 2, 1, 0", "78", "tensor<i8>");
    let same = "[[[1, 2], [3, 4], [5, 6]], [[7, 8], [9, 10], [11, 12]]]";
    reduce_cube("", same, "tensor<2x3x2xi8>");
}

#[test]
fn reduce_by_each_op() {
    let reduce = |op: &str, element: &str, a: &str, start: &str, result: &str| {
        let (vector, scalar) = (format!("tensor<3x{element}>"), format!("tensor<{element}>"));
        let text = format!(
            "\"stablehlo.reduce\"(%a, %s) {} {{dimensions = array<i64: 0>}} : ({vector}, {scalar}) -> {scalar}",
            body(op, element)
        );
        gives(&[("a", a, &vector), ("s", start, &scalar)], &text, result, &scalar);
    };
    // The start value takes part once.
    reduce("add", "i8", "[100, 20, 10]", "1", "-125");
    reduce("multiply", "i8", "[2, 3, -4]", "5", "-120");
    reduce("maximum", "i8", "[-5, -3, -4]", "-4", "-3");
    reduce("maximum", "i8", "[-5, -3, -4]", "0", "0");
    reduce("minimum", "ui8", "[200, 100, 255]", "255", "100");
    reduce("and", "i8", "[-1, 14, 7]", "-1", "6");
    reduce("or", "i8", "[1, 2, 4]", "-128", "-121");
    reduce("xor", "i8", "[1, 3, 7]", "-1", "-6");
    for (op, result) in [
        ("add", "true"),
        ("multiply", "false"),
        ("maximum", "true"),
        ("minimum", "false"),
        ("and", "false"),
        ("or", "true"),
        ("xor", "false"),
    ] {
        reduce(op, "i1", "[true, false, false]", "true", result);
    }
}

#[test]
fn tensors_without_elements_pass_through() {
    let e = "tensor<0x3xi8>";
    gives(&[("a", "[]", e)], &format!("\"stablehlo.negate\"(%a) : ({e}) -> {e}"), "[]", e);
    // No element, so no zero divisor.
    gives(&[("a", "[]", e)], &format!("\"stablehlo.divide\"(%a, %a) : ({e}, {e}) -> {e}"), "[]", e);
    let op = "\"stablehlo.transpose\"(%a) {permutation = array<i64: 1, 0>} : (tensor<0x3xi8>) -> tensor<3x0xi8>";
    gives(&[("a", "[]", e)], op, "[[], [], []]", "tensor<3x0xi8>");
    let op = format!(
        "\"stablehlo.reduce\"(%a, %s) {} {{dimensions = array<i64: 1>}} : (tensor<0x3xi8>, tensor<i8>) -> tensor<0xi8>",
        body("add", "i8")
    );
    gives(&[("a", "[]", e), ("s", "5", "tensor<i8>")], &op, "[]", "tensor<0xi8>");
}
