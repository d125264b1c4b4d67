//! The order of precedence where two faults meet (01 The twelve refusals, below the table).

use crate::common::*;
use evaluator::Answer;

#[test]
fn refusal_1_before_everything() {
    let mut text = b"\xFF".to_vec();
    text.resize(65_537, b'[');
    assert_eq!(evaluator::check(&text), Answer::new(1, 65_537, 0));
}

#[test]
fn the_earliest_byte_of_2_3_4() {
    // 3 before a later 2 and 4; 4 before a later 2 and 3; 2 before later 3 and 4.
    refused_at_mark("func.func @m(%a: §tensor<4xf32>) oops tensor<5000xi8>", 3, 0);
    refused_at_mark("func.func @m(%a: §tensor<5000xi8>) oops tensor<4xf32>", 4, 2);
    refused_at_mark("func.func @m(%a: tensor<4xi8>) §oops tensor<4xf32> tensor<5000xi8>", 2, 0);
    // A 2 at the end is the latest.
    refused_at_mark("func.func @m(%a: §tensor<4xf32>)", 3, 0);
    refused_at_mark("func.func @m(%a: §tensor<5000xi8>)", 4, 2);
}

#[test]
fn at_one_byte_2_before_3() {
    // Unknown names where no such name may stand.
    refused_at_mark("func.func @m(§\"mhlo.add\")", 2, 0);
    refused_at_mark("func.func @m(%a §tensor<f32>)", 2, 0);
    refused_at_mark("func.func @m() §padding", 2, 0);
}

#[test]
fn at_one_byte_2_before_4() {
    refused_at_mark("func.func @m(%a §tensor<5000xi8>)", 2, 0);
    refused_at_mark(&format!("func.func @m() §%{}", "n".repeat(40)), 2, 0);
    refused_at_mark("func.func @m() {\"stablehlo.iota\"() {dimension = array<i64: 1 §99999999999999999999>}}", 2, 0);
}

#[test]
fn at_one_byte_3_before_4() {
    refused_at_mark(&function("%a: §tensor<5000xf32>", ""), 3, 0);
    refused_at_mark(&function("%a: §tensor<?x1x1x1x1x1x1xi8>", ""), 3, 0);
    let ops: String = (0..256)
        .map(|k| format!("%v{k} = \"stablehlo.iota\"() {{iota_dimension = 0 : i64}} : () -> tensor<1xi8>\n"))
        .collect();
    refused_at_mark(&function("", &format!("{ops} %w = §\"stablehlo.tanh\"() : () -> ()")), 3, 0);
}

#[test]
fn two_sizes_at_one_token_the_lower_number() {
    // 1 and 2; 2 and 3; 2 and 5; 3 and 5 at a type.
    refused_at_mark(&function("%a: §tensor<5000x1x1x1x1x1x1xi8>", ""), 4, 1);
    refused_at_mark(&function("%a: tensor<4096xi8>, %b: tensor<4096xi8>, %c: §tensor<5000xi8>", ""), 4, 2);
    let nine = |last: &str| "tensor<i8>, ".repeat(8) + last;
    refused_at_mark(&function("", &format!("\"stablehlo.abs\"() : ({}) -> ()", nine("§tensor<5000xi8>"))), 4, 2);
    refused_at_mark(
        &function("", &format!("\"stablehlo.abs\"() : ({}) -> ()", nine("§tensor<1x1x1x1x1x1x1xi8>"))),
        4,
        1,
    );
    let full = "%a: tensor<4096xi8>, %b: tensor<4088xi8>";
    refused_at_mark(&function(full, &format!("\"stablehlo.abs\"() : () -> ({})", nine("§tensor<1xi8>"))), 4, 3);
    refused_at_mark(&function(full, &format!("\"stablehlo.abs\"() : () -> ({})", nine("§tensor<0xi8>"))), 4, 5);
    // 5 and 8 at a name.
    let names: String = (0..8).map(|k| format!("%v{k}: tensor<i8>, ")).collect();
    refused_at_mark(&function(&format!("{names}§%{}: tensor<i8>", "n".repeat(32)), ""), 4, 5);
    // 6 and 7 at a number.
    let list = "\"stablehlo.reverse\"() {dimensions = array<i64: 0, 0, 0, 0, 0, 0, §9223372036854775808>} : () -> ()";
    refused_at_mark(&function("", list), 4, 6);
}

const I8: &str = "%a: tensor<i8>, %b: tensor<i8>";
const GOOD: &str = "%g = \"stablehlo.add\"(%a, %b) : (tensor<i8>, tensor<i8>) -> tensor<i8>\n";
const SEVEN: &str = "%s = \"stablehlo.add\"(%a) : (tensor<i8>) -> tensor<i8>\n";
const EIGHT: &str = "%e = \"stablehlo.add\"(%a, %b) : (tensor<i8>, tensor<i8>) -> tensor<i16>\n";

#[test]
fn refusals_2_to_4_before_5_to_8() {
    // Faults of names, typing and constraints in op 0; the last token fails.
    for op in ["%r = \"stablehlo.negate\"(%zz) : (tensor<i8>) -> tensor<i8>\n", SEVEN, EIGHT] {
        refused_at_mark(&format!("{}§;", function(I8, op)), 2, 0);
        refused_at_mark(&function(I8, &format!("{op} %q = §\"stablehlo.tanh\"() : () -> ()")), 3, 0);
        refused_at_mark(&function(I8, &format!("{op} %q = \"stablehlo.abs\"() : () -> §tensor<5000xi8>")), 4, 2);
    }
    refused_at_mark(&format!("{}§;", function("%a: tensor<i8>, %a: tensor<i8>", "")), 2, 0);
}

#[test]
fn duplicate_inputs_before_every_op() {
    for op in ["%r = \"stablehlo.negate\"(%zz) : (tensor<i8>) -> tensor<i8>\n", SEVEN, EIGHT] {
        refused_at_mark(&function("%a: tensor<i8>, §%a: tensor<i8>, %b: tensor<i8>", op), 6, 0);
    }
}

#[test]
fn op_by_op() {
    // 7 and 8 of an earlier op before 5 and 6 of a later one.
    let five = "%f = \"stablehlo.negate\"(%zz) : (tensor<i8>) -> tensor<i8>\n";
    let six = "%a = \"stablehlo.negate\"(%b) : (tensor<i8>) -> tensor<i8>\n";
    for later in [five, six] {
        answers(&function(I8, &format!("{GOOD}{SEVEN}{later}")), 7, 1, 0);
        answers(&function(I8, &format!("{GOOD}{EIGHT}{later}")), 8, 1, 1);
    }
    answers(&function(I8, &format!("{EIGHT}{SEVEN}")), 8, 0, 1);
    answers(&function(I8, &format!("{SEVEN}{EIGHT}")), 7, 0, 0);
    refused_at_mark(
        &function(I8, &format!("%f = \"stablehlo.negate\"(§%zz) : (tensor<i8>) -> tensor<i8>\n{SEVEN}")),
        5,
        0,
    );
    // A fault of an op before a fault of the return.
    let text = format!("func.func @m({I8}) -> tensor<i16> {{{EIGHT} \"func.return\"(%zz) : (tensor<i16>) -> ()}}");
    answers(&text, 8, 0, 1);
}

/// Inputs of just 8,192 elements, and ops that write no result type: they add none, so reading passes the text
/// and each op's own fault answers.
#[test]
fn at_the_limit_of_elements_the_first_fault_answers() {
    let full = "%a: tensor<4096xi8>, %b: tensor<4096xi8>";
    let none = "\"stablehlo.add\"() : () -> ()\n";
    refused_at_mark(&function(full, "\"stablehlo.add\"(§%z) : (tensor<i8>) -> ()"), 5, 0);
    refused_at_mark(&function(full, "§%a = \"stablehlo.add\"() : () -> ()"), 6, 0);
    refused_at_mark(&function(full, "%r, §%r = \"stablehlo.add\"() : () -> ()"), 6, 0);
    answers(&function(full, none), 7, 0, 0);
    answers(
        &function(full, &format!("%r = \"stablehlo.not\"(%a) : (tensor<4096xi8>) -> tensor<0xi8>\n{none}")),
        8,
        0,
        1,
    );
    refused_at_mark(&function("%a: tensor<4096xi8>, §%a: tensor<4096xi8>", none), 6, 0);
    refused_at_mark(&function(full, &format!("{none}\"stablehlo.add\"() : () -> §tensor<1xi8>")), 4, 3);
    let body = "({^b(%x: tensor<i8>): \"stablehlo.return\"(§%z) : (tensor<i8>) -> ()})";
    refused_at_mark(&function(full, &format!("\"stablehlo.reduce\"() {body} : () -> ()")), 5, 0);
}

/// The same at 256 ops, which are counted whatever they write.
#[test]
fn at_the_limit_of_ops_the_first_fault_answers() {
    let none = |count: usize| "\"stablehlo.add\"() : () -> ()\n".repeat(count);
    refused_at_mark(&function("", &format!("\"stablehlo.add\"(§%z) : (tensor<i8>) -> ()\n{}", none(255))), 5, 0);
    answers(&function("", &none(256)), 7, 0, 0);
    refused_at_mark(&function("", &format!("{}§{}", none(256), none(1))), 4, 4);
    refused_at_mark(&function("", &format!("{}%r = §{}", none(256), none(1))), 4, 4);
}

/// A return's results are judged as those of an op: names first, then their number.
#[test]
fn the_results_of_a_return() {
    refused_at_mark("func.func @m(%a: tensor<i8>) {§%a = \"func.return\"() : () -> ()}", 6, 0);
    refused_at_mark("func.func @m() {%r, §%r = \"func.return\"() : () -> ()}", 6, 0);
    answers("func.func @m() {%r = \"func.return\"() : () -> ()}", 7, 0, 0);
    answers("func.func @m() {\"func.return\"() : () -> tensor<i8>}", 7, 0, 0);
}

#[test]
fn in_an_op_names_before_7_before_8() {
    // A wrong number of operands, one of them undefined.
    refused_at_mark(&function(I8, "%r = \"stablehlo.negate\"(%a, §%zz) : (tensor<i8>) -> tensor<i8>"), 5, 0);
    refused_at_mark(&function(I8, "§%a = \"stablehlo.negate\"(%a, %b) : (tensor<i8>) -> tensor<i8>"), 6, 0);
    refused_at_mark(&function(I8, "§%a = \"stablehlo.negate\"(%b) : (tensor<i8>) -> tensor<i16>"), 6, 0);
    // C1 broken and an operand type that is not the defined one.
    answers(&function(I8, "%r = \"stablehlo.add\"(%a, %b) : (tensor<i16>, tensor<i8>) -> tensor<i8>"), 7, 0, 0);
    // In the return too.
    refused_at_mark("func.func @m() -> tensor<i8> {\"func.return\"(§%zz) : () -> tensor<i8>}", 5, 0);
}

/// A reduction with result `%r` of `%a`, `%s`; `body` is what stands in its braces.
fn reduction(result: &str, operands: &str, body: &str) -> String {
    format!("{result} = \"stablehlo.reduce\"({operands}) ({{{body}}}) {{dimensions = array<i64: 0>}} : (tensor<2xi8>, tensor<i8>) -> tensor<i8>")
}

#[test]
fn names_as_operands_body_result() {
    let inputs = "%a: tensor<2xi8>, %s: tensor<i8>";
    let good = "^b(%x: tensor<i8>, %y: tensor<i8>): %z = \"stablehlo.add\"(%x, %y) : (tensor<i8>, tensor<i8>) -> tensor<i8> \"stablehlo.return\"(%z) : (tensor<i8>) -> ()";
    accepted(&function(inputs, &reduction("%r", "%a, %s", good)));
    // The operand (5) before the body (5) before the result (6), although the result stands first.
    let in_body = |mark: &str| good.replace("(%x, %y)", &format!("(%x, {mark}%zz)"));
    refused_at_mark(&function(inputs, &reduction("%a", "%a, §%q", &in_body(""))), 5, 0);
    refused_at_mark(&function(inputs, &reduction("%a", "%a, %s", &in_body("§"))), 5, 0);
    refused_at_mark(&function(inputs, &reduction("§%a", "%a, %s", good)), 6, 0);
    // Inside the body: arguments, then op by op, then the return.
    let twice = |mark: &str| good.replace("%y: tensor", &format!("{mark}%x: tensor"));
    refused_at_mark(&function(inputs, &reduction("%r", "%a, %s", &twice("§").replace("(%x, %y)", "(%x, %zz)"))), 6, 0);
    let last = good.replace("return\"(%z)", "return\"(%ww)");
    refused_at_mark(&function(inputs, &reduction("%r", "%a, %s", &last.replace("(%x, %y)", "(%x, §%zz)"))), 5, 0);
    refused_at_mark(&function(inputs, &reduction("%r", "%a, %s", &last.replace("%ww", "§%ww"))), 5, 0);
    // In a body op, operands before its result.
    let both = good.replace("%z = ", "%x = ").replace("(%x, %y)", "(%x, §%zz)");
    refused_at_mark(&function(inputs, &reduction("%r", "%a, %s", &both)), 5, 0);
}

#[test]
fn the_lowest_constraint_first() {
    // All of slice's C1 to C5 broken, then each repaired in turn.
    let slice = |t: &str, start: &str, limit: &str, stride: &str, result: &str| {
        let lists = format!(
            "start_indices = array<i64: {start}>, limit_indices = array<i64: {limit}>, strides = array<i64: {stride}>"
        );
        function(
            "%a: tensor<5xi8>",
            &format!("%r = \"stablehlo.slice\"(%a) {{{lists}}} : (tensor<5xi8>) -> tensor<{result}x{t}>"),
        )
    };
    answers(&slice("i16", "3", "2", "0, 0", "9"), 8, 0, 1);
    answers(&slice("i8", "3", "2", "0, 0", "9"), 8, 0, 2);
    answers(&slice("i8", "3", "2", "0", "9"), 8, 0, 3);
    answers(&slice("i8", "2", "3", "0", "9"), 8, 0, 4);
    answers(&slice("i8", "2", "3", "1", "9"), 8, 0, 5);
    accepted(&slice("i8", "2", "3", "1", "1"));
}

const DIVIDE: &str = "func.func @m(%a: tensor<2xi8>) { %q = \"stablehlo.divide\"(%a, %a) : (tensor<2xi8>, tensor<2xi8>) -> tensor<2xi8> \"func.return\"() : () -> () }";

#[test]
fn refusals_9_10_11_12_in_this_order() {
    assert_eq!(evaluated(DIVIDE, &[999], 3).0, Answer::new(9, 4, 0));
    assert_eq!(evaluated(DIVIDE, &[999], 4).0, Answer::new(10, 2, 0));
    assert_eq!(evaluated(DIVIDE, &[0, 999], 4).0, Answer::new(11, 1, 0));
    assert_eq!(evaluated(DIVIDE, &[1, 0], 4).0, Answer::new(12, 0, 1));
}

#[test]
fn refusals_1_to_8_before_9_to_12() {
    let text = function(
        "%a: tensor<2xi8>",
        "%q = \"stablehlo.divide\"(%a, %a) : (tensor<2xi8>, tensor<2xi8>) -> tensor<3xi8>",
    );
    assert_eq!(evaluated(&text, &[999], 0).0, Answer::new(8, 0, 1));
    assert_eq!(evaluated(&format!("{text} oops"), &[], 0).0, Answer::new(2, text.len() + 1, 0));
}
