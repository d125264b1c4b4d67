//! 01 Sizes: each at its limit and one beyond, with the token that passes it.

use crate::common::*;

#[test]
fn text_of_65536_bytes() {
    let text = function("", "");
    let padded = |length: usize| text.clone() + &" ".repeat(length - text.len());
    accepted(&padded(65_536));
    answers(&padded(65_537), 1, 65_537, 0);
    answers(&padded(100_000), 1, 100_000, 0);
}

#[test]
fn size_1_rank_6() {
    // In every place where a type stands (OP-50).
    let (six, seven) = ("tensor<1x1x1x1x1x1xi8>", "§tensor<1x1x1x1x1x1x1xi8>");
    let places: [&dyn Fn(&str) -> String; 7] = [
        &|t| format!("func.func @m(%a: {t}) {{\"func.return\"() : () -> ()}}"),
        &|t| format!("func.func @m() -> {t} {{\"func.return\"() : () -> ()}}"),
        &|t| function("", &format!("\"stablehlo.abs\"() : ({t}) -> ()")),
        &|t| function("", &format!("\"stablehlo.abs\"() : () -> {t}")),
        &|t| function("", &format!("\"stablehlo.abs\"() : () -> ({t})")),
        &|t| function("", &format!("\"stablehlo.constant\"() {{value = dense<0> : {t}}} : () -> ()")),
        &|t| {
            function(
                "",
                &format!("\"stablehlo.abs\"() ({{^b(%x: {t}): \"stablehlo.return\"() : () -> ()}}) : () -> ()"),
            )
        },
    ];
    for place in places {
        assert_eq!(evaluator::check(place(six).as_bytes()).refusal % 7, 0, "0 or 7: {}", place(six));
        refused_at_mark(&place(seven), 4, 1);
    }
}

#[test]
fn size_2_each_dimension_4096() {
    accepted(&function("%a: tensor<4096xi8>", ""));
    refused_at_mark(&function("%a: §tensor<4097xi8>", ""), 4, 2);
    accepted(&function("%a: tensor<0x4096xi8>", ""));
    refused_at_mark(&function("%a: §tensor<0x4097xi8>", ""), 4, 2);
    let endless = "9".repeat(300);
    refused_at_mark(&function(&format!("%a: §tensor<{endless}xi8>"), ""), 4, 2);
    accepted(&function(&format!("%a: tensor<{}4096xi8>", "0".repeat(300)), ""));
}

#[test]
fn size_2_product_4096_with_0_as_1() {
    accepted(&function("%a: tensor<64x64xi8>", ""));
    refused_at_mark(&function("%a: §tensor<64x65xi8>", ""), 4, 2);
    accepted(&function("%a: tensor<0x64x64xi8>", ""));
    refused_at_mark(&function("%a: §tensor<0x64x65xi8>", ""), 4, 2);
    refused_at_mark(&function("%a: §tensor<2x0x2049xi8>", ""), 4, 2);
    accepted(&function("%a: tensor<2x0x2048x0xi8>", ""));
    refused_at_mark(&function("%a: §tensor<4096x4096x4096x4096x4096x4096xi8>", ""), 4, 2);
}

#[test]
fn size_3_inputs_and_results_8192_elements() {
    let iota =
        |name: &str, t: &str| format!("%{name} = \"stablehlo.iota\"() {{iota_dimension = 0 : i64}} : () -> {t}\n");
    accepted(&function("%a: tensor<4096xi8>, %b: tensor<4096xi8>", ""));
    accepted(&function("%a: tensor<4096xi8>", &iota("b", "tensor<4096xi8>")));
    refused_at_mark(&function("%a: tensor<4096xi8>, %b: tensor<4096xi8>, %c: §tensor<i8>", ""), 4, 3);
    refused_at_mark(&function("%a: tensor<4096xi8>, %b: tensor<4096xi8>", &iota("c", "§tensor<1xi8>")), 4, 3);
    refused_at_mark(&function("%a: tensor<4096xi8>, %b: tensor<4095xi8>", &iota("c", "§tensor<2xi8>")), 4, 3);
    // A tensor without elements passes nothing.
    accepted(&function("%a: tensor<4096xi8>, %b: tensor<4096xi8>", &iota("c", "tensor<0xi8>")));
}

#[test]
fn size_3_does_not_count_bodies_outputs_or_written_operand_types() {
    let inputs = "%a: tensor<4096xi8>, %b: tensor<4095xi8>";
    let reduce = format!(
        "%r = \"stablehlo.reduce\"(%a, %s) {} {{dimensions = array<i64: 0>}} : (tensor<4096xi8>, tensor<i8>) -> tensor<i8>",
        body("add", "4096xi8")
    );
    // 1 + 4,096 + 4,094 + 1 = 8,192; the body's values are not counted, and C6 answers.
    answers(&function("%s: tensor<i8>, %a: tensor<4096xi8>, %b: tensor<4094xi8>", &reduce), 8, 0, 6);
    let text = format!("func.func @m({inputs}) -> tensor<4096xi8>, tensor<4095xi8> {{\"func.return\"(%a, %b) : (tensor<4096xi8>, tensor<4095xi8>) -> ()}}");
    accepted(&text);
}

/// This many iota ops of one element.
fn ops(count: usize) -> String {
    (0..count)
        .map(|k| format!("%v{k} = \"stablehlo.iota\"() {{iota_dimension = 0 : i64}} : () -> tensor<1xi8>\n"))
        .collect()
}

#[test]
fn size_4_256_ops() {
    accepted(&function("", &ops(256)));
    let beyond = ops(256) + "%w = §\"stablehlo.iota\"() {iota_dimension = 0 : i64} : () -> tensor<1xi8>";
    refused_at_mark(&function("", &beyond), 4, 4);
}

#[test]
fn size_4_does_not_count_body_ops() {
    // 255 ops and a reduction whose body has one op: 256.
    let reduce = |start: &str| {
        format!(
            "%r = \"stablehlo.reduce\"(%v0, %s) {} {{dimensions = array<i64: 0>}} : (tensor<1xi8>, tensor<i8>) -> {start}tensor<i8>\n",
            body("add", "i8")
        )
    };
    accepted(&function("%s: tensor<i8>", &(ops(255) + &reduce(""))));
    // A body of 300 ops does not pass size 4; it is not of the form.
    let inner: String = (0..300)
        .map(|k| format!("%w{k} = \"stablehlo.add\"(%x, %y) : (tensor<i8>, tensor<i8>) -> tensor<i8>\n"))
        .collect();
    let long = format!(
        "%r = \"stablehlo.reduce\"(%v0, %s) ({{^b(%x: tensor<i8>, %y: tensor<i8>): {inner} \"stablehlo.return\"(%w0) : (tensor<i8>) -> ()}}) \
         {{dimensions = array<i64: 0>}} : (tensor<1xi8>, tensor<i8>) -> tensor<i8>\n"
    );
    answers(&function("%s: tensor<i8>", &(ops(1) + &long)), 7, 1, 0);
}

/// `count` items separated by commas, the last with a mark.
fn list(count: usize, item: impl Fn(usize) -> String, mark_last: bool) -> String {
    let mark = |k: usize| if mark_last && k + 1 == count { "§" } else { "" };
    (0..count).map(|k| mark(k).to_string() + &item(k)).collect::<Vec<_>>().join(", ")
}

#[test]
fn size_5_eight_inputs() {
    let inputs = |count, mark| list(count, |k| format!("%i{k}: tensor<i8>"), mark);
    accepted(&function(&inputs(8, false), ""));
    refused_at_mark(&function(&inputs(9, true), ""), 4, 5);
}

#[test]
fn size_5_eight_operands() {
    let concatenate = |names: String, types: String| {
        let op = format!("%r = \"stablehlo.concatenate\"({names}) {{dimension = 0 : i64}} : ({types}) -> tensor<8xi8>");
        function("%a: tensor<1xi8>", &op)
    };
    let names = |count, mark| list(count, |_| "%a".to_string(), mark);
    let types = |count, mark| list(count, |_| "tensor<1xi8>".to_string(), mark);
    accepted(&concatenate(names(8, false), types(8, false)));
    refused_at_mark(&concatenate(names(9, true), types(9, false)), 4, 5);
    // A written ninth operand type (OP-44).
    refused_at_mark(&concatenate(names(8, false), types(9, true)), 4, 5);
}

#[test]
fn size_5_eight_results() {
    let outputs = |count, mark| list(count, |_| "tensor<i8>".to_string(), mark);
    let names = |count, mark| list(count, |_| "%a".to_string(), mark);
    let returned = |outs: String, names: String, types: String| {
        format!("func.func @m(%a: tensor<i8>) -> {outs} {{\"func.return\"({names}) : ({types}) -> ()}}")
    };
    accepted(&returned(outputs(8, false), names(8, false), outputs(8, false)));
    refused_at_mark(&returned(outputs(9, true), names(8, false), outputs(8, false)), 4, 5);
    refused_at_mark(&returned(outputs(8, false), names(9, true), outputs(8, false)), 4, 5);
    let op = |names: String, types: String| function("", &format!("{names} = \"stablehlo.abs\"() : () -> ({types})"));
    let results = |count, mark| list(count, |k| format!("%r{k}"), mark);
    answers(&op(results(8, false), outputs(8, false)), 7, 0, 0);
    refused_at_mark(&op(results(9, true), outputs(8, false)), 4, 5);
    refused_at_mark(&op(results(8, false), outputs(9, true)), 4, 5);
}

#[test]
fn size_6_six_numbers() {
    let reverse = |numbers: &str| {
        let t = "tensor<1x1x1x1x1x1xi8>";
        function(
            &format!("%a: {t}"),
            &format!("%r = \"stablehlo.reverse\"(%a) {{dimensions = array<i64: {numbers}>}} : ({t}) -> {t}"),
        )
    };
    accepted(&reverse("0, 1, 2, 3, 4, 5"));
    refused_at_mark(&reverse("0, 1, 2, 3, 4, 5, §6"), 4, 6);
    refused_at_mark(&reverse("0, 1, 2, 3, 4, 5, §6, 7"), 4, 6);
}

#[test]
fn size_7_signed_64_bits() {
    let slice = |stride: &str| {
        let lists =
            format!("start_indices = array<i64: 0>, limit_indices = array<i64: 1>, strides = array<i64: {stride}>");
        function(
            "%a: tensor<1xi8>",
            &format!("%r = \"stablehlo.slice\"(%a) {{{lists}}} : (tensor<1xi8>) -> tensor<1xi8>"),
        )
    };
    accepted(&slice("9223372036854775807"));
    refused_at_mark(&slice("§9223372036854775808"), 4, 7);
    answers(&slice("-9223372036854775808"), 8, 0, 4);
    refused_at_mark(&slice("§-9223372036854775809"), 4, 7);
    let iota = |d: &str| {
        function("", &format!("%r = \"stablehlo.iota\"() {{iota_dimension = {d} : i64}} : () -> tensor<1xi8>"))
    };
    answers(&iota("9223372036854775807"), 8, 0, 1);
    refused_at_mark(&iota("§9223372036854775808"), 4, 7);
    refused_at_mark(&iota(&format!("§{}", "7".repeat(1000))), 4, 7);
    accepted(&iota(&format!("+{}", "0".repeat(1000))));
}

#[test]
fn size_7_does_not_bind_dense_numbers() {
    let op = "%r = \"stablehlo.constant\"() {value = dense<18446744073709551615> : tensor<ui64>} : () -> tensor<ui64>";
    accepted(&function("", op));
    let op = "%r = \"stablehlo.constant\"() {value = dense<18446744073709551616> : tensor<ui64>} : () -> tensor<ui64>";
    answers(&function("", op), 7, 0, 0);
}

#[test]
fn size_8_names_of_32_characters() {
    let long = |count: usize| "n".repeat(count);
    // Value names where they are defined and used, the function's name, labels.
    accepted(&function(&format!("%{}: tensor<i8>", long(31)), ""));
    refused_at_mark(&function(&format!("§%{}: tensor<i8>", long(32)), ""), 4, 8);
    let negate = |name: &str| {
        function("%a: tensor<i8>", &format!("{name} = \"stablehlo.negate\"(%a) : (tensor<i8>) -> tensor<i8>"))
    };
    accepted(&negate(&format!("%{}", "1".repeat(31))));
    refused_at_mark(&negate(&format!("§%{}", "1".repeat(32))), 4, 8);
    let operand = |name: &str| {
        function("%a: tensor<i8>", &format!("%r = \"stablehlo.negate\"({name}) : (tensor<i8>) -> tensor<i8>"))
    };
    refused_at_mark(&operand(&format!("§%{}", long(31))), 5, 0);
    refused_at_mark(&operand(&format!("§%{}", long(32))), 4, 8);
    let named = |name: &str| format!("func.func {name}() {{\"func.return\"() : () -> ()}}");
    accepted(&named(&format!("@{}", long(31))));
    refused_at_mark(&named(&format!("§@{}", long(32))), 4, 8);
    let labelled = |label: &str| {
        let body = body("add", "i8").replace("^bb0", label);
        let op = format!("%r = \"stablehlo.reduce\"(%a, %s) {body} {{dimensions = array<i64: 0>}} : (tensor<2xi8>, tensor<i8>) -> tensor<i8>");
        function("%a: tensor<2xi8>, %s: tensor<i8>", &op)
    };
    accepted(&labelled(&format!("^{}", long(31))));
    refused_at_mark(&labelled(&format!("§^{}", long(32))), 4, 8);
}
