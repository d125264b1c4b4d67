//! Refusal 7: every reason that 01 lists. Each broken op has a repaired one beside it.

use crate::common::*;

/// `broken` is op 1 of its function and answers 7 there; `repaired` in its place is accepted.
#[track_caller]
fn typing(inputs: &str, broken: &str, repaired: &str) {
    let first = "%first = \"stablehlo.constant\"() {value = dense<0> : tensor<i8>} : () -> tensor<i8>";
    answers(&function(inputs, &format!("{first}\n{broken}")), 7, 1, 0);
    accepted(&function(inputs, &format!("{first}\n{repaired}")));
}

const TWO: &str = "%a: tensor<2xi8>, %b: tensor<2xi8>, %s: tensor<i8>, %p: tensor<2xi1>, %u: tensor<2xui8>";
const ADD: &str = "%r = \"stablehlo.add\"(%a, %b) : (tensor<2xi8>, tensor<2xi8>) -> tensor<2xi8>";

#[test]
fn wrong_number_of_operands() {
    typing(TWO, "%r = \"stablehlo.add\"(%a) : (tensor<2xi8>) -> tensor<2xi8>", ADD);
    typing(TWO, "%r = \"stablehlo.add\"() : () -> tensor<2xi8>", ADD);
    typing(TWO, "%r = \"stablehlo.add\"(%a, %b, %a) : (tensor<2xi8>, tensor<2xi8>, tensor<2xi8>) -> tensor<2xi8>", ADD);
    typing(TWO, "%r = \"stablehlo.abs\"(%a, %b) : (tensor<2xi8>, tensor<2xi8>) -> tensor<2xi8>", ADD);
    typing(
        TWO,
        "%r = \"stablehlo.constant\"(%a) {value = dense<1> : tensor<i8>} : (tensor<2xi8>) -> tensor<i8>",
        "%r = \"stablehlo.constant\"() {value = dense<1> : tensor<i8>} : () -> tensor<i8>",
    );
}

#[test]
fn dynamic_slice_takes_from_one_operand() {
    typing(
        "%a: tensor<i8>",
        "%r = \"stablehlo.dynamic_slice\"() {slice_sizes = array<i64>} : () -> tensor<i8>",
        "%r = \"stablehlo.dynamic_slice\"(%a) {slice_sizes = array<i64>} : (tensor<i8>) -> tensor<i8>",
    );
}

#[test]
fn every_op_with_a_fixed_operand_count_refuses_one_more() {
    use evaluator::optable::{AttributeKind, Mnemonic, Operands};
    for mnemonic in Mnemonic::ops() {
        let row = mnemonic.row();
        let Operands::Exactly(count) = row.operands else { continue };
        let names = vec!["%s"; count + 1].join(", ");
        let types = vec!["tensor<i8>"; count + 1].join(", ");
        let value = |kind: &AttributeKind| match kind {
            AttributeKind::List => "array<i64>",
            AttributeKind::Number => "0 : i64",
            AttributeKind::Dense => "dense<0> : tensor<i8>",
            AttributeKind::Direction => "#stablehlo<comparison_direction EQ>",
            AttributeKind::OptionalType => "#stablehlo<comparison_type SIGNED>",
        };
        let attributes: Vec<String> =
            row.attributes.iter().map(|(name, kind)| format!("{} = {}", name.name(), value(kind))).collect();
        let attributes = if attributes.is_empty() { String::new() } else { format!("{{{}}}", attributes.join(", ")) };
        let body = if row.bodies == 1 { body("add", "i8") } else { String::new() };
        let op = format!("%r = \"{}\"({names}) {body} {attributes} : ({types}) -> tensor<i8>", row.name);
        answers(&function("%s: tensor<i8>", &op), 7, 0, 0);
    }
}

#[test]
fn wrong_number_of_results() {
    typing(TWO, "\"stablehlo.add\"(%a, %b) : (tensor<2xi8>, tensor<2xi8>) -> tensor<2xi8>", ADD);
    typing(TWO, "%r = \"stablehlo.add\"(%a, %b) : (tensor<2xi8>, tensor<2xi8>) -> ()", ADD);
    typing(TWO, "%r, %q = \"stablehlo.add\"(%a, %b) : (tensor<2xi8>, tensor<2xi8>) -> tensor<2xi8>", ADD);
    typing(TWO, "%r = \"stablehlo.add\"(%a, %b) : (tensor<2xi8>, tensor<2xi8>) -> (tensor<2xi8>, tensor<2xi8>)", ADD);
    typing(TWO, "\"stablehlo.add\"(%a, %b) : (tensor<2xi8>, tensor<2xi8>) -> ()", ADD);
}

#[test]
fn wrong_number_of_results_of_a_return() {
    answers("func.func @m() {\"func.return\"() : () -> tensor<i8>}", 7, 0, 0);
    answers("func.func @m() {%r = \"func.return\"() : () -> ()}", 7, 0, 0);
    accepted("func.func @m() {\"func.return\"() : () -> ()}");
}

#[test]
fn wrong_number_of_bodies() {
    let with = |bodies: &str| {
        format!(
            "%r = \"stablehlo.reduce\"(%a, %s) {bodies} {{dimensions = array<i64: 0>}} : \
             (tensor<2xi8>, tensor<i8>) -> tensor<i8>"
        )
    };
    let one = body("add", "i8");
    let inner = &one[1..one.len() - 1];
    typing(TWO, &with(""), &with(&one));
    typing(TWO, &with(&format!("({inner}, {inner})")), &with(&one));
    let add = format!("%r = \"stablehlo.add\"(%a, %b) {one} : (tensor<2xi8>, tensor<2xi8>) -> tensor<2xi8>");
    typing(TWO, &add, ADD);
}

#[test]
fn a_written_operand_type_that_is_not_the_defined_one() {
    typing(TWO, "%r = \"stablehlo.add\"(%a, %b) : (tensor<2xi8>, tensor<2xi16>) -> tensor<2xi8>", ADD);
    typing(TWO, "%r = \"stablehlo.add\"(%a, %b) : (tensor<3xi8>, tensor<2xi8>) -> tensor<2xi8>", ADD);
    typing(TWO, "%r = \"stablehlo.add\"(%a, %b) : (tensor<2xi8>) -> tensor<2xi8>", ADD);
    typing(TWO, "%r = \"stablehlo.add\"(%a, %b) : (tensor<2xi8>, tensor<2xi8>, tensor<2xi8>) -> tensor<2xi8>", ADD);
    typing(TWO, "%r = \"stablehlo.add\"(%a, %b) : (tensor<2xui8>, tensor<2xi8>) -> tensor<2xi8>", ADD);
}

#[test]
fn si8_is_i8() {
    accepted(&function(TWO, "%r = \"stablehlo.add\"(%a, %b) : (tensor<2xsi8>, tensor<2xi8>) -> tensor<2xsi8>"));
}

#[test]
fn an_attribute_missing_doubled_or_foreign() {
    let iota = |attributes: &str| format!("%r = \"stablehlo.iota\"() {attributes} : () -> tensor<2xi8>");
    let good = iota("{iota_dimension = 0 : i64}");
    typing(TWO, &iota(""), &good);
    typing(TWO, &iota("{iota_dimension = 0 : i64, iota_dimension = 0 : i64}"), &good);
    typing(TWO, &iota("{iota_dimension = 0 : i64, dimension = 0 : i64}"), &good);
    typing(
        TWO,
        "%r = \"stablehlo.add\"(%a, %b) {dimension = 0 : i64} : (tensor<2xi8>, tensor<2xi8>) -> tensor<2xi8>",
        ADD,
    );
    accepted(&function(TWO, &iota("<{iota_dimension = 0 : i64}>")));
}

#[test]
fn every_attribute_but_compare_type_must_be_there() {
    let slice =
        |attributes: &str| format!("%r = \"stablehlo.slice\"(%a) {{{attributes}}} : (tensor<2xi8>) -> tensor<2xi8>");
    let (start, limit, strides) =
        ("start_indices = array<i64: 0>", "limit_indices = array<i64: 2>", "strides = array<i64: 1>");
    let good = slice(&[strides, start, limit].join(", "));
    typing(TWO, &slice(&[start, limit].join(", ")), &good);
    typing(TWO, &slice(&[start, strides].join(", ")), &good);
    typing(TWO, &slice(&[limit, strides].join(", ")), &good);
    let pad = |attributes: &str| {
        format!("%r = \"stablehlo.pad\"(%a, %s) {{{attributes}}} : (tensor<2xi8>, tensor<i8>) -> tensor<2xi8>")
    };
    let (low, high, interior) =
        ("edge_padding_low = array<i64: 0>", "edge_padding_high = array<i64: 0>", "interior_padding = array<i64: 0>");
    let good = pad(&[low, high, interior].join(", "));
    typing(TWO, &pad(&[low, high].join(", ")), &good);
    typing(TWO, &pad(&[low, interior].join(", ")), &good);
    typing(TWO, &pad(&[high, interior].join(", ")), &good);
    let compare = |attributes: &str| {
        format!("%r = \"stablehlo.compare\"(%a, %b) {attributes} : (tensor<2xi8>, tensor<2xi8>) -> tensor<2xi1>")
    };
    let direction = "comparison_direction = #stablehlo<comparison_direction EQ>";
    let compare_type = "compare_type = #stablehlo<comparison_type SIGNED>";
    let good = compare(&format!("{{{direction}}}"));
    typing(TWO, &compare(""), &good);
    typing(TWO, &compare(&format!("{{{compare_type}}}")), &good);
    typing(TWO, &compare(&format!("{{{direction}, {compare_type}, {compare_type}}}")), &good);
}

#[test]
fn an_attribute_of_the_wrong_kind() {
    let iota = |value: &str| format!("%r = \"stablehlo.iota\"() {{iota_dimension = {value}}} : () -> tensor<2xi8>");
    let good = iota("0 : i64");
    for value in ["array<i64: 0>", "array<i64>", "dense<0> : tensor<i64>", "#stablehlo<comparison_direction EQ>"] {
        typing(TWO, &iota(value), &good);
    }
    let reverse = |value: &str| {
        format!("%r = \"stablehlo.reverse\"(%a) {{dimensions = {value}}} : (tensor<2xi8>) -> tensor<2xi8>")
    };
    let good = reverse("array<i64: 0>");
    for value in ["0 : i64", "dense<[0]> : tensor<1xi64>", "#stablehlo<comparison_type SIGNED>"] {
        typing(TWO, &reverse(value), &good);
    }
    let constant = |value: &str| format!("%r = \"stablehlo.constant\"() {{value = {value}}} : () -> tensor<i64>");
    let good = constant("dense<0> : tensor<i64>");
    for value in ["0 : i64", "array<i64: 0>", "#stablehlo<comparison_type SIGNED>"] {
        typing(TWO, &constant(value), &good);
    }
    let compare = |value: &str| {
        format!("%r = \"stablehlo.compare\"(%a, %b) {{{value}}} : (tensor<2xi8>, tensor<2xi8>) -> tensor<2xi1>")
    };
    let good = compare("comparison_direction = #stablehlo<comparison_direction EQ>");
    for value in [
        "comparison_direction = 0 : i64",
        "comparison_direction = #stablehlo<comparison_direction SIGNED>",
        "comparison_direction = #stablehlo<comparison_type SIGNED>",
        "comparison_direction = #stablehlo<comparison_type EQ>",
        "comparison_direction = #stablehlo<comparison_direction EQ>, compare_type = #stablehlo<comparison_direction EQ>",
        "comparison_direction = #stablehlo<comparison_direction EQ>, compare_type = #stablehlo<comparison_type LT>",
        "comparison_direction = #stablehlo<comparison_direction EQ>, compare_type = #stablehlo<comparison_direction SIGNED>",
    ] {
        typing(TWO, &compare(value), &good);
    }
}

/// A constant of this dense value and type.
fn constant(value: &str, t: &str) -> String {
    format!("%r = \"stablehlo.constant\"() {{value = dense<{value}> : {t}}} : () -> {t}")
}

#[test]
fn a_dense_value_of_other_sizes() {
    let square = "tensor<2x2xi8>";
    let good = constant("[[1, 2], [3, 4]]", square);
    for value in [
        "[1, 2, 3, 4]",
        "[[1, 2], [3]]",
        "[[1, 2], [3, 4, 5]]",
        "[[1, 2]]",
        "[[1, 2], [3, 4], [5, 6]]",
        "[[[1, 2], [3, 4]]]",
        "[[1, 2], 3]",
        "[[[1], 2], [3, 4]]",
        "[]",
        "[[], []]",
    ] {
        typing("", &constant(value, square), &good);
    }
    typing("", &constant("[1]", "tensor<i8>"), &constant("1", "tensor<i8>"));
    typing("", &constant("[]", "tensor<i8>"), &constant("1", "tensor<i8>"));
    typing("", &constant("[]", "tensor<2x0xi8>"), &constant("[[], []]", "tensor<2x0xi8>"));
    typing("", &constant("[[]]", "tensor<2x0xi8>"), &constant("[[], []]", "tensor<2x0xi8>"));
    typing("", &constant("[[], []]", "tensor<0x2xi8>"), &constant("[]", "tensor<0x2xi8>"));
    typing("", &constant("[[], 1]", "tensor<2x0xi8>"), &constant("1", "tensor<2x0xi8>"));
}

#[test]
fn a_dense_value_of_other_kind() {
    typing("", &constant("true", "tensor<2xi8>"), &constant("1", "tensor<2xi8>"));
    typing("", &constant("[1, false]", "tensor<2xi8>"), &constant("[1, 0]", "tensor<2xi8>"));
    typing("", &constant("1", "tensor<i1>"), &constant("true", "tensor<i1>"));
    typing("", &constant("[true, 0]", "tensor<2xi1>"), &constant("[true, false]", "tensor<2xi1>"));
}

#[test]
fn a_dense_value_of_other_range() {
    for (element, lowest, highest, below, above) in [
        ("i8", "-128", "127", "-129", "128"),
        ("i16", "-32768", "32767", "-32769", "32768"),
        ("i32", "-2147483648", "2147483647", "-2147483649", "2147483648"),
        ("i64", "-9223372036854775808", "9223372036854775807", "-9223372036854775809", "9223372036854775808"),
        ("ui8", "0", "255", "-1", "256"),
        ("ui16", "0", "65535", "-1", "65536"),
        ("ui32", "0", "4294967295", "-1", "4294967296"),
        ("ui64", "0", "18446744073709551615", "-1", "18446744073709551616"),
    ] {
        let t = format!("tensor<2x{element}>");
        for (outside, edge) in [(below, lowest), (above, highest)] {
            typing("", &constant(outside, &t), &constant(edge, &t));
            typing("", &constant(&format!("[0, {outside}]"), &t), &constant(&format!("[0, {edge}]"), &t));
        }
        let endless = "9".repeat(200);
        typing("", &constant(&endless, &t), &constant(highest, &t));
        typing("", &constant(&format!("-{endless}"), &t), &constant(lowest, &t));
    }
}

#[test]
fn element_types_that_the_tables_do_not_take() {
    let unary = |op: &str, v: &str, t: &str| format!("%r = \"stablehlo.{op}\"(%{v}) : ({t}) -> {t}");
    for op in ["abs", "sign"] {
        typing(TWO, &unary(op, "u", "tensor<2xui8>"), &unary(op, "a", "tensor<2xi8>"));
        typing(TWO, &unary(op, "p", "tensor<2xi1>"), &unary(op, "a", "tensor<2xi8>"));
    }
    for op in ["negate", "count_leading_zeros", "popcnt"] {
        typing(TWO, &unary(op, "p", "tensor<2xi1>"), &unary(op, "u", "tensor<2xui8>"));
    }
    let binary = |op: &str, v: &str, t: &str| format!("%r = \"stablehlo.{op}\"(%{v}, %{v}) : ({t}, {t}) -> {t}");
    for op in ["subtract", "divide", "remainder", "shift_left", "shift_right_arithmetic", "shift_right_logical"] {
        typing(TWO, &binary(op, "p", "tensor<2xi1>"), &binary(op, "u", "tensor<2xui8>"));
    }
    for op in ["add", "multiply", "maximum", "minimum", "and", "or", "xor"] {
        accepted(&function(TWO, &binary(op, "p", "tensor<2xi1>")));
    }
    let iota = |t: &str| format!("%r = \"stablehlo.iota\"() {{iota_dimension = 0 : i64}} : () -> {t}");
    typing(TWO, &iota("tensor<2xi1>"), &iota("tensor<2xui64>"));
    let compare = |t: &str| {
        format!(
            "%r = \"stablehlo.compare\"(%a, %b) {{comparison_direction = #stablehlo<comparison_direction EQ>}} : \
             (tensor<2xi8>, tensor<2xi8>) -> {t}"
        )
    };
    typing(TWO, &compare("tensor<2xui8>"), &compare("tensor<2xi1>"));
    let select = |v: &str, t: &str| {
        format!("%r = \"stablehlo.select\"(%{v}, %a, %b) : ({t}, tensor<2xi8>, tensor<2xi8>) -> tensor<2xi8>")
    };
    typing(TWO, &select("u", "tensor<2xui8>"), &select("p", "tensor<2xi1>"));
    let dynamic = |t: &str, v: &str| {
        format!("%r = \"stablehlo.dynamic_slice\"(%a, %{v}) {{slice_sizes = array<i64: 1>}} : (tensor<2xi8>, {t}) -> tensor<1xi8>")
    };
    let inputs = "%a: tensor<2xi8>, %i: tensor<i1>, %j: tensor<ui64>";
    typing(inputs, &dynamic("tensor<i1>", "i"), &dynamic("tensor<ui64>", "j"));
}

#[test]
fn ranks_that_the_tables_do_not_take() {
    let inputs = "%a: tensor<2xi8>, %s: tensor<i8>, %v: tensor<1xi8>";
    let pad = |v: &str, t: &str| {
        format!(
            "%r = \"stablehlo.pad\"(%a, %{v}) {{edge_padding_low = array<i64: 0>, edge_padding_high = array<i64: 0>, \
             interior_padding = array<i64: 0>}} : (tensor<2xi8>, {t}) -> tensor<2xi8>"
        )
    };
    typing(inputs, &pad("v", "tensor<1xi8>"), &pad("s", "tensor<i8>"));
    let dynamic = |v: &str, t: &str| {
        format!("%r = \"stablehlo.dynamic_slice\"(%a, %{v}) {{slice_sizes = array<i64: 1>}} : (tensor<2xi8>, {t}) -> tensor<1xi8>")
    };
    typing(inputs, &dynamic("v", "tensor<1xi8>"), &dynamic("s", "tensor<i8>"));
    let reduce = |v: &str, t: &str| {
        format!(
            "%r = \"stablehlo.reduce\"(%a, %{v}) {} {{dimensions = array<i64: 0>}} : (tensor<2xi8>, {t}) -> tensor<i8>",
            body("add", "i8")
        )
    };
    typing(inputs, &reduce("v", "tensor<1xi8>"), &reduce("s", "tensor<i8>"));
}

/// A reduction with this body, written without its parentheses.
fn reduction(body: &str) -> String {
    format!(
        "%r = \"stablehlo.reduce\"(%a, %s) ({{{body}}}) {{dimensions = array<i64: 0>}} : (tensor<2xi8>, tensor<i8>) -> tensor<i8>"
    )
}

const RETURN_Z: &str = "\"stablehlo.return\"(%z) : (tensor<i8>) -> ()";
const ADD_Z: &str = "%z = \"stablehlo.add\"(%x, %y) : (tensor<i8>, tensor<i8>) -> tensor<i8>";
const ARGUMENTS: &str = "^b(%x: tensor<i8>, %y: tensor<i8>):";

#[test]
fn the_seven_body_ops_either_way_round() {
    for op in ["add", "multiply", "maximum", "minimum", "and", "or", "xor"] {
        for operands in ["%x, %y", "%y, %x"] {
            let body = format!(
                "{ARGUMENTS} %z = \"stablehlo.{op}\"({operands}) : (tensor<i8>, tensor<i8>) -> tensor<i8> {RETURN_Z}"
            );
            accepted(&function(TWO, &reduction(&body)));
        }
    }
}

#[test]
fn a_body_not_of_the_form() {
    let good = reduction(&format!("{ARGUMENTS} {ADD_Z} {RETURN_Z}"));
    let bad = |body: &str| typing(TWO, &reduction(body), &good);
    for op in ["subtract", "divide", "remainder", "shift_left"] {
        bad(&format!(
            "{ARGUMENTS} %z = \"stablehlo.{op}\"(%x, %y) : (tensor<i8>, tensor<i8>) -> tensor<i8> {RETURN_Z}"
        ));
    }
    // Not on both, each once.
    bad(&format!("{ARGUMENTS} %z = \"stablehlo.add\"(%x, %x) : (tensor<i8>, tensor<i8>) -> tensor<i8> {RETURN_Z}"));
    bad(&format!("{ARGUMENTS} %z = \"stablehlo.add\"(%x, %s) : (tensor<i8>, tensor<i8>) -> tensor<i8> {RETURN_Z}"));
    // Not one op.
    bad(&format!("{ARGUMENTS} \"stablehlo.return\"(%x) : (tensor<i8>) -> ()"));
    bad(&format!(
        "{ARGUMENTS} {ADD_Z} %w = \"stablehlo.add\"(%x, %y) : (tensor<i8>, tensor<i8>) -> tensor<i8> {RETURN_Z}"
    ));
    // Not two arguments.
    bad(&format!("^b(%x: tensor<i8>, %y: tensor<i8>, %w: tensor<i8>): {ADD_Z} {RETURN_Z}"));
    bad("^b(%x: tensor<i8>): \"stablehlo.return\"(%x) : (tensor<i8>) -> ()");
    // Not returning it.
    bad(&format!("{ARGUMENTS} {ADD_Z} \"stablehlo.return\"(%x) : (tensor<i8>) -> ()"));
    bad(&format!("{ARGUMENTS} {ADD_Z} \"stablehlo.return\"() : () -> ()"));
    bad(&format!("{ARGUMENTS} {ADD_Z} \"stablehlo.return\"(%z, %z) : (tensor<i8>, tensor<i8>) -> ()"));
}

#[test]
fn a_body_faulty_inside() {
    let good = reduction(&format!("{ARGUMENTS} {ADD_Z} {RETURN_Z}"));
    let bad = |body: &str| typing(TWO, &reduction(body), &good);
    // Kind 7 inside: operand types, results, attributes, bodies; of the op and of the return.
    bad(&format!("{ARGUMENTS} %z = \"stablehlo.add\"(%x, %y) : (tensor<i16>, tensor<i8>) -> tensor<i8> {RETURN_Z}"));
    bad(&format!("{ARGUMENTS} %z = \"stablehlo.add\"(%x, %y) : (tensor<i8>) -> tensor<i8> {RETURN_Z}"));
    bad(&format!("{ARGUMENTS} %z, %w = \"stablehlo.add\"(%x, %y) : (tensor<i8>, tensor<i8>) -> tensor<i8> {RETURN_Z}"));
    bad(&format!("{ARGUMENTS} %z = \"stablehlo.add\"(%x, %y) {{dimension = 0 : i64}} : (tensor<i8>, tensor<i8>) -> tensor<i8> {RETURN_Z}"));
    let inner = "({^c(): \"stablehlo.return\"() : () -> ()})";
    bad(&format!(
        "{ARGUMENTS} %z = \"stablehlo.add\"(%x, %y) {inner} : (tensor<i8>, tensor<i8>) -> tensor<i8> {RETURN_Z}"
    ));
    bad(&format!("{ARGUMENTS} {ADD_Z} \"stablehlo.return\"(%z) : (tensor<i16>) -> ()"));
    bad(&format!("{ARGUMENTS} {ADD_Z} \"stablehlo.return\"(%z) : (tensor<i8>) -> tensor<i8>"));
    bad(&format!("{ARGUMENTS} {ADD_Z} %w = \"stablehlo.return\"(%z) : (tensor<i8>) -> ()"));
    bad(&format!("{ARGUMENTS} {ADD_Z} \"stablehlo.return\"(%z) {{dimension = 0 : i64}} : (tensor<i8>) -> ()"));
    bad(&format!("{ARGUMENTS} {ADD_Z} \"stablehlo.return\"(%z) {inner} : (tensor<i8>) -> ()"));
    // Kind 8 inside: C1 of add.
    bad(&format!("{ARGUMENTS} %z = \"stablehlo.add\"(%x, %y) : (tensor<i8>, tensor<i8>) -> tensor<i16> \"stablehlo.return\"(%z) : (tensor<i16>) -> ()"));
    bad("^b(%x: tensor<i8>, %y: tensor<i16>): %z = \"stablehlo.add\"(%x, %y) : (tensor<i8>, tensor<i16>) -> tensor<i8> \"stablehlo.return\"(%z) : (tensor<i8>) -> ()");
}

#[test]
fn return_types_that_are_not_the_headers() {
    let with = |outputs: &str, operands: &str, types: &str| {
        format!("func.func @m(%a: tensor<2xi8>, %b: tensor<i8>) {outputs} {{\"func.return\"({operands}) : ({types}) -> ()}}")
    };
    accepted(&with("-> tensor<2xi8>, tensor<i8>", "%a, %b", "tensor<2xi8>, tensor<i8>"));
    accepted(&with("-> tensor<2xsi8>", "%a", "tensor<2xi8>"));
    answers(&with("-> tensor<i8>, tensor<2xi8>", "%a, %b", "tensor<2xi8>, tensor<i8>"), 7, 0, 0);
    answers(&with("-> tensor<2xi8>", "%a, %b", "tensor<2xi8>, tensor<i8>"), 7, 0, 0);
    answers(&with("-> tensor<2xi8>, tensor<i8>", "%a", "tensor<2xi8>"), 7, 0, 0);
    answers(&with("", "%a", "tensor<2xi8>"), 7, 0, 0);
    answers(&with("-> tensor<2xi8>", "%a", "tensor<2xi16>"), 7, 0, 0);
    answers(&with("-> tensor<2xi16>", "%a", "tensor<2xi16>"), 7, 0, 0);
}
