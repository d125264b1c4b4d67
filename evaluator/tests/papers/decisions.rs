//! The open points of paper 01, each by its number; docs/DECISIONS.md has the reasons.

use crate::common::*;
use evaluator::Answer;

const RETURN: &str = "\"func.return\"() : () -> ()";

/// A function whose only op is an iota with this attribute text.
fn attributes(text: &str) -> String {
    function("", &format!("\"stablehlo.iota\"() {text} : () -> ()"))
}

/// A function with one constant.
fn constant(value: &str, t: &str) -> String {
    function("", &format!("%c = \"stablehlo.constant\"() {{value = dense<{value}> : {t}}} : () -> {t}"))
}

#[test]
fn op_00b_viable_prefix() {
    // The first token that fits nowhere, not the start of the construct that is wrong.
    refused_at_mark(&attributes("{dimension = 0 : §f32}"), 2, 0);
    refused_at_mark(&attributes("{dimension = 1§.5 : f32}"), 2, 0);
    refused_at_mark(&attributes("{dimension = array<i64: 1§: 2>}"), 2, 0);
}

#[test]
fn op_00c_earliest_of_2_3_4() {
    refused_at_mark("func.func @m(%a: §tensor<4xf32>) oops", 3, 0);
}

#[test]
fn op_01_digits_then_letters_are_two_tokens() {
    refused_at_mark("func.func @m(%0§a: tensor<i8>) {", 2, 0);
    refused_at_mark(
        &function("", "\"stablehlo.abs\"() ({^0§a(): \"stablehlo.return\"() : () -> ()}) : () -> ()"),
        2,
        0,
    );
    refused_at_mark("func.func §@0() {", 2, 0);
    accepted(&function("%0: tensor<i8>, %a0: tensor<i8>", ""));
}

#[test]
fn op_02_a_word_has_no_dot_dash_or_dollar() {
    refused_at_mark(&attributes("{§mhlo.sharding = 0 : i64}"), 3, 0);
    refused_at_mark(&attributes("{dimension§.x = 0 : i64}"), 2, 0);
    refused_at_mark(&attributes("{dimension§-x = 0 : i64}"), 2, 0);
    refused_at_mark(&attributes("{dimension§$x = 0 : i64}"), 2, 0);
    accepted(&format!("func.func @_a_1(%_b_2: tensor<i8>) {{{RETURN}}}"));
}

#[test]
fn op_03_longest_match_splits() {
    refused_at_mark("func.func§x @m() {", 2, 0);
    refused_at_mark(&attributes("{dimension = #stablehlo§x<comparison_type SIGNED>}"), 2, 0);
    refused_at_mark("§func . func @m() {", 2, 0);
    refused_at_mark("§funcx.func @m() {", 2, 0);
    answers(&attributes("{dimension = #stablehlo <comparison_type SIGNED>}"), 7, 0, 0);
}

#[test]
fn op_04_a_comment_ends_at_lf_only() {
    refused_at_mark("func.func @m() { // a \r \"func.return\"() : () -> ()}§", 2, 0);
    accepted("func.func @m() { // a \n \"func.return\"() : () -> ()}");
    accepted("func.func @m() { // a \r\n \"func.return\"() : () -> ()}");
    accepted(&format!("{} // to the end of the text", function("", "")));
    refused_at_mark("func.func @m() §/ / a \n", 2, 0);
}

#[test]
fn op_05_no_hexadecimal() {
    refused_at_mark(&constant("0§x10", "tensor<i8>"), 2, 0);
    refused_at_mark(&attributes("{dimension = 0§x10 : i64}"), 2, 0);
}

/// "Left out: floats, complex numbers": a literal of `dense` is a number without `.`, `true` or `false`, so a
/// float fails at its `.` or exponent, whatever its type, and a complex number at its `(`.
#[test]
fn float_and_complex_literals_in_dense() {
    for t in ["tensor<i8>", "tensor<f32>", "tensor<complex<f32>>"] {
        for value in ["1§.5", "-1§.5", "+0§.0", "1§e5", "§.5", "§(1, 2)", "§(1.5, 2.5)", "§inf", "§nan", "0§x7F"]
        {
            refused_at_mark(&constant(value, t), 2, 0);
        }
    }
    for value in ["[1, 2§.0]", "[§(1.0, 2.0), (3.0, 4.0)]", "[[1§.5]]"] {
        refused_at_mark(&constant(value, "tensor<2xf64>"), 2, 0);
    }
    // The literal fits: then the type is the first unknown name.
    refused_at_mark(&constant("1", "tensor<f32>").replacen("tensor", "§tensor", 1), 3, 0);
}

#[test]
fn op_06_signs_and_leading_zeros() {
    let t = "tensor<3xui8>";
    gives(
        &[],
        "\"stablehlo.constant\"() {value = dense<[+5, 007, -0]> : tensor<3xui8>} : () -> tensor<3xui8>",
        "[5, 7, 0]",
        t,
    );
    accepted(&function("%a: tensor<02xi8>, %b: tensor<0x10xi8>", ""));
    let slice = |numbers: &str| {
        let lists =
            format!("start_indices = array<i64: {numbers}>, limit_indices = array<i64: +02>, strides = array<i64: 01>");
        function(
            "%a: tensor<2xi8>",
            &format!("%r = \"stablehlo.slice\"(%a) {{{lists}}} : (tensor<2xi8>) -> tensor<2xi8>"),
        )
    };
    accepted(&slice("-00"));
}

#[test]
fn op_07_a_sign_alone_is_a_mark() {
    for value in ["§-", "§+", "§- 5", "§+ 5", "§--5", "§+-5"] {
        refused_at_mark(&constant(value, "tensor<i8>"), 2, 0);
    }
}

#[test]
fn op_08_other_bytes_are_no_white_space() {
    for byte in [0x0Bu8, 0x0C, 0x00, 0x7F, 0x80, 0xA0, 0xFF] {
        let mut text = b"func.func @m() ".to_vec();
        text.push(byte);
        text.extend(b" {\"func.return\"() : () -> ()}");
        assert_eq!(evaluator::check(&text), Answer::new(2, 15, 0), "byte {byte}");
    }
    // A byte order mark; anything goes inside a comment.
    assert_eq!(evaluator::check(b"\xEF\xBB\xBFfunc.func @m() {\"func.return\"() : () -> ()}"), Answer::new(2, 0, 0));
    assert_eq!(
        evaluator::check(b"// \x00\xFF\xEF\xBB\xBF\x0B\nfunc.func @m() {\"func.return\"() : () -> ()}"),
        Answer::ACCEPTED
    );
}

#[test]
fn op_09_a_quoted_name_is_one_token() {
    for name in [
        "§\"add\"",
        "§\"a.b.c\"",
        "§\"a b\"",
        "§\"stablehlo.add",
        "§\"\"",
        "§\"stablehlo .add\"",
        "§\"stablehlo.\\61dd\"",
        "§\"stablehlo.1\"",
    ] {
        refused_at_mark(&format!("func.func @m() {{ {name} () : () -> () {RETURN}}}"), 2, 0);
    }
}

#[test]
fn op_10_white_space_inside_a_tensor_type() {
    for t in [
        "§tensor<4 x i32>",
        "§tensor <4xi32>",
        "§tensor< 4xi32>",
        "§tensor<4xi32 >",
        "§tensor<4x\ni32>",
        "§tensor<4x//\ni32>",
    ] {
        refused_at_mark(&function(&format!("%a: {t}"), ""), 2, 0);
    }
    let spaced = "%c = \"stablehlo.constant\" ( ) < { value = dense < 5 > : tensor<i8> } > : ( ) -> ( tensor<i8> )
%d = \"stablehlo.reverse\" ( %c ) { dimensions = array < i64 > } : ( tensor<i8> ) -> tensor<i8>
%e = \"stablehlo.reduce\"(%d, %c) ( { ^ b(): \"stablehlo.return\"() : () -> () } )";
    refused_at_mark(&function("", &spaced.replace("^ b", "§^ b")), 2, 0);
    let accepted_part = spaced.split("\n%e").next().unwrap();
    accepted(&function("", accepted_part));
    let body = body("add", "i8").replace("({", "( {").replace("})", "} )");
    let reduce = format!("%r = \"stablehlo.reduce\"(%a, %s) {body} {{dimensions = array < i64 : 0 >}} : (tensor<2xi8>, tensor<i8>) -> tensor<i8>");
    accepted(&function("%a: tensor<2xi8>, %s: tensor<i8>", &reduce));
    refused_at_mark("func.func @m() §- > tensor<i8> {", 2, 0);
}

#[test]
fn op_11_odd_elements_in_tensor_types() {
    for t in ["§tensor<xi32>", "§tensor<4xx>", "§tensor<i32x4>", "§tensor<4xx4xi8>", "§tensor<?xx>", "§tensor<tensor>"]
    {
        refused_at_mark(&function(&format!("%a: {t}"), ""), 3, 0);
    }
    for t in [
        "§tensor<4x4>",
        "§tensor<4i8>",
        "§tensor<>",
        "§tensor<-1xi8>",
        "§tensor<*xi8>",
        "§tensor<4>",
        "§tensor<?>",
        "§tensor<?i8>",
        "§tensor<??xi8>",
        "§tensor<4x>",
        "§tensor<i8",
        "§tensor<i8,i8>",
        "§tensor<4xi8, #e>",
        "§tensor",
    ] {
        refused_at_mark(&function(&format!("%a: {t}"), ""), 2, 0);
    }
}

#[test]
fn op_12_tokens_may_touch() {
    accepted("func.func@m(){\"func.return\"():()->()}");
    accepted("func.func@m(%a:tensor<i8>)->tensor<i8>{%b=\"stablehlo.negate\"(%a):(tensor<i8>)->tensor<i8>\"func.return\"(%b):(tensor<i8>)->()}");
}

#[test]
fn op_13_a_function_without_arrow() {
    accepted(&format!("func.func @m() {{{RETURN}}}"));
}

#[test]
fn op_14_no_parentheses_around_outputs() {
    refused_at_mark("func.func @m() -> §(tensor<i8>) {", 2, 0);
    refused_at_mark("func.func @m() -> §() {", 2, 0);
}

#[test]
fn op_15_outputs_split_by_single_commas() {
    refused_at_mark("func.func @m() -> tensor<i8>, §, tensor<i8> {", 2, 0);
    answers(&format!("func.func @m() -> tensor<i8>, tensor<i8> {{{RETURN}}}"), 7, 0, 0);
}

#[test]
fn op_16_any_function_name() {
    for name in ["@main", "@m", "@_", "@x9"] {
        accepted(&format!("func.func {name}() {{{RETURN}}}"));
    }
}

#[test]
fn op_17_exactly_one_function() {
    answers("", 2, 0, 0);
    answers("// nothing\n", 2, 11, 0);
    let one = function("", "");
    refused_at_mark(&format!("{one}§{one}"), 2, 0);
    refused_at_mark(&format!("{one}§;"), 2, 0);
}

#[test]
fn op_18_duplicate_inputs_at_the_second_name() {
    refused_at_mark(&function("%a: tensor<i8>, %b: tensor<i8>, §%a: tensor<i8>, %b: tensor<i8>", ""), 6, 0);
}

#[test]
fn op_19_outputs_do_not_count_for_size_3() {
    let outputs = "tensor<4096xi8>, tensor<4096xi8>, tensor<4096xi8>";
    let text =
        format!("func.func @m(%a: tensor<4096xi8>) -> {outputs} {{\"func.return\"(%a, %a, %a) : ({outputs}) -> ()}}");
    accepted(&text);
    refused_at_mark("func.func @m() -> §tensor<4097xi8> {", 4, 2);
    refused_at_mark("func.func @m() -> §tensor<1x1x1x1x1x1x1xi8> {", 4, 1);
}

#[test]
fn op_20_no_argument_attributes() {
    refused_at_mark("func.func @m(%a: tensor<i8> §{x = 0 : i64}) {", 2, 0);
}

#[test]
fn op_20b_no_modules_visibility_or_short_forms() {
    refused_at_mark("§module {}", 2, 0);
    refused_at_mark("func.func §private @f() {", 2, 0);
    refused_at_mark("func.func @m() { §return }", 2, 0);
    refused_at_mark("func.func @m(%a: tensor<i8>) { %0 = §stablehlo.add %a, %a : tensor<i8> }", 2, 0);
}

#[test]
fn op_21_complex_and_quantized_elements() {
    for t in [
        "complex<f32>",
        "2xcomplex<f64>",
        "complex<foo>",
        "2x!quant.uniform<i8:f32,0.1>",
        "!quant.uniform<i8:f32,0.1:-30>",
        "?x!quant.uniform<i8<-128:127>:f32:1,{0.1:-30,2}>",
        "!quant.uniform<ui4<+0:15>:bf16:0,{1.:0,1e5:1,-1.5E-3:+2}>",
    ] {
        refused_at_mark(&function(&format!("%a: §tensor<{t}>"), ""), 3, 0);
        refused_at_mark(
            &function("", &format!("%c = \"stablehlo.constant\"() {{value = dense<0> : §tensor<{t}>}} : () -> ()")),
            3,
            0,
        );
    }
    for t in [
        "complex<>",
        "complex<f32",
        "complex<4xf32>",
        "complex<complex<f32>>",
        "complex <f32>",
        "complex<f32>x4",
        "!quant.uniform<i8:f32>",
        "!quant.uniform<i8:f32,>",
        "!quant.uniform<i8:f32,{}>",
        "!quant.uniform<i8:f32,{0.1,}>",
        "!quant.uniform<i8:f32, 0.1>",
        // As 000 prints it (uniform_quantize): a tensor type is one token, and no token has a blank inside.
        "2x!quant.uniform<i8:f32:0, {0.1:-30,0.5:-20}>",
        "!quant.uniform<i8<0>:f32,0.1>",
        "!quant.uniform<i8:f32:x,0.1>",
        "!quant.uniform<i8:f32,.5>",
        "!quant.uniform<i8:f32,1e>",
        "!quant.uniform<i8:f32,0x10>",
        "!quant.any<i8:f32,0.1>",
        "!quant.uniform",
    ] {
        refused_at_mark(&function(&format!("%a: §tensor<{t}>"), ""), 2, 0);
    }
}

#[test]
fn op_22_token_and_tuple_where_a_value_type_stands() {
    for (word, refusal) in [
        ("token", 3),
        ("tuple", 3),
        ("tuple<tensor<i8>>", 3),
        ("i32", 2),
        ("foo", 2),
        ("tensor", 2),
        ("dense", 2),
        ("none", 2),
    ] {
        refused_at_mark(&function(&format!("%a: §{word}"), ""), refusal, 0);
        refused_at_mark(&format!("func.func @m() -> §{word} {{{RETURN}}}"), refusal, 0);
        refused_at_mark(&format!("func.func @m() -> tensor<i8>, §{word} {{{RETURN}}}"), refusal, 0);
        for signature in ["(§W) -> ()", "(tensor<i8>, §W) -> ()", "() -> §W", "() -> (§W)", "() -> (tensor<i8>, §W)"]
        {
            let op = format!("\"stablehlo.abs\"() : {}", signature.replace('W', word));
            refused_at_mark(&function("", &op), refusal, 0);
        }
        refused_at_mark(&function("", &format!("\"stablehlo.abs\"() ({{^b(%x: §{word})")), refusal, 0);
        refused_at_mark(
            &function("", &format!("\"stablehlo.constant\"() {{value = dense<0> : §{word}}} : () -> ()")),
            2,
            0,
        );
    }
    refused_at_mark(&function("%a: §!stablehlo.token", ""), 2, 0);
}

#[test]
fn op_23_unknown_element_names_alike() {
    for name in ["f32", "i4", "si1", "ui1", "index", "I8", "foo", "si2", "ui2", "bf16", "i128", "i08", "tf32"] {
        refused_at_mark(&function(&format!("%a: §tensor<2x{name}>"), ""), 3, 0);
    }
}

#[test]
fn op_24_unknown_dialects() {
    for name in ["mhlo.add", "func.call", "stablehlo.Add", "stablehlo.func", "func.func", "a.b"] {
        refused_at_mark(&function("", &format!("%r = §\"{name}\"() : () -> ()")), 3, 0);
    }
}

#[test]
fn op_25_known_attributes_elsewhere_are_foreign() {
    for name in [
        "value",
        "iota_dimension",
        "broadcast_dimensions",
        "permutation",
        "start_indices",
        "limit_indices",
        "strides",
        "dimension",
        "edge_padding_low",
        "edge_padding_high",
        "interior_padding",
        "dimensions",
        "slice_sizes",
        "comparison_direction",
        "compare_type",
    ] {
        let op = format!("%r = \"stablehlo.negate\"(%a) {{{name} = 0 : i64}} : (tensor<i8>) -> tensor<i8>");
        answers(&function("%a: tensor<i8>", &op), 7, 0, 0);
    }
    for name in ["padding", "lhs", "Value", "window_dimensions", "i64", "array", "dense"] {
        refused_at_mark(&attributes(&format!("{{§{name} = 0 : i64}}")), 3, 0);
    }
}

#[test]
fn op_26_the_kind_of_a_choice_is_a_name_too() {
    refused_at_mark(&attributes("{dimension = #stablehlo<§precision HIGH>}"), 3, 0);
    refused_at_mark(&attributes("{dimension = #stablehlo<§precision>}"), 3, 0);
    refused_at_mark(&attributes("{dimension = #stablehlo<§LT LT>}"), 3, 0);
}

#[test]
fn op_27_a_choice_of_the_other_enumeration_is_7() {
    let compare = |value: &str| {
        let op = format!("%r = \"stablehlo.compare\"(%a, %a) {{comparison_direction = #stablehlo<{value}>}} : (tensor<i8>, tensor<i8>) -> tensor<i1>");
        function("%a: tensor<i8>", &op)
    };
    answers(&compare("comparison_direction SIGNED"), 7, 0, 0);
    answers(&compare("comparison_type SIGNED"), 7, 0, 0);
    answers(&compare("comparison_type EQ"), 7, 0, 0);
    accepted(&compare("comparison_direction EQ"));
}

#[test]
fn op_28_comparison_type_and_compare_type() {
    refused_at_mark(&attributes("{§comparison_type = #stablehlo<comparison_type SIGNED>}"), 3, 0);
    refused_at_mark(&attributes("{compare_type = #stablehlo<§compare_type SIGNED>}"), 3, 0);
}

#[test]
fn op_29_braces_are_never_empty() {
    refused_at_mark(&attributes("{§}"), 2, 0);
    refused_at_mark(&attributes("<{§}>"), 2, 0);
}

#[test]
fn op_30_no_other_forms_of_attribute_values() {
    for value in ["§true", "§false", "§\"a.b\"", "1§.5 : f32", "§tensor<i8>", "§[]", "§unit", "§@m", "§%a"] {
        refused_at_mark(&attributes(&format!("{{dimension = {value}}}")), 2, 0);
    }
}

#[test]
fn op_31_an_unknown_attribute_answers_before_its_value() {
    for rest in ["= true", "= \"a\"", "", "0"] {
        refused_at_mark(&attributes(&format!("{{§foo {rest}}}")), 3, 0);
    }
}

#[test]
fn op_32_the_byte_inside_a_type_is_the_tokens_first() {
    refused_at_mark(&function("%a: §tensor<2x?x3xi8>", ""), 3, 0);
    refused_at_mark(&function("%a: §tensor<?x1x1x1x1x1x1xf32>", ""), 3, 0);
}

#[test]
fn op_33_operand_names_as_attributes() {
    for name in ["operand", "init_values", "body", "inputs", "padding_value", "pred"] {
        refused_at_mark(&attributes(&format!("{{§{name} = 0 : i64}}")), 3, 0);
    }
    let op = "%r = \"stablehlo.dynamic_slice\"(%a) {slice_sizes = array<i64>, start_indices = array<i64>} : (tensor<i8>) -> tensor<i8>";
    answers(&function("%a: tensor<i8>", op), 7, 0, 0);
}

#[test]
fn op_33b_question_mark_float_and_totalorder() {
    refused_at_mark(&attributes("{dimensions = array<i64: §?>}"), 2, 0);
    for kind in ["comparison_type", "comparison_direction"] {
        for choice in ["FLOAT", "TOTALORDER"] {
            refused_at_mark(&attributes(&format!("{{dimension = #stablehlo<{kind} §{choice}>}}")), 3, 0);
        }
    }
    refused_at_mark(&constant("§FLOAT", "tensor<i8>"), 2, 0);
}

#[test]
fn op_33c_the_unknown_name_stands_before_the_failing_token() {
    refused_at_mark(&attributes("{dimension = #stablehlo<§FOO>}"), 3, 0);
    refused_at_mark(&attributes("{§foo}"), 3, 0);
    refused_at_mark(&attributes("{dimension§}"), 2, 0);
    refused_at_mark(&attributes("{dimension = #stablehlo<comparison_type§>}"), 2, 0);
}

#[test]
fn op_34_dense_is_never_empty() {
    refused_at_mark(&constant("§", "tensor<0xi8>"), 2, 0);
}

#[test]
fn op_35_commas_in_dense_values() {
    for value in ["1§, 2", "[§,]", "[1, §]", "[1,§, 2]", "[[1] §[2]]", "[1 §2]", "[]§, []", "[1]§]"] {
        refused_at_mark(&constant(value, "tensor<2xi8>"), 2, 0);
    }
}

#[test]
fn op_36_mixed_nesting_is_in_the_grammar() {
    answers(&constant("[1, [2]]", "tensor<2xi8>"), 7, 0, 0);
    answers(&constant("[[[[[[[[1]]]]]]]]", "tensor<1xi8>"), 7, 0, 0);
}

#[test]
fn op_37_kind_and_range_of_literals() {
    answers(&constant("1", "tensor<i1>"), 7, 0, 0);
    answers(&constant("true", "tensor<i8>"), 7, 0, 0);
    answers(&constant("255", "tensor<i8>"), 7, 0, 0);
    accepted(&constant("255", "tensor<ui8>"));
}

#[test]
fn op_38_several_bodies_and_none_in_parentheses() {
    let one = "{^b(): \"stablehlo.return\"() : () -> ()}";
    answers(&function("", &format!("\"stablehlo.abs\"() ({one}, {one}) : () -> ()")), 7, 0, 0);
    refused_at_mark(&function("", "\"stablehlo.abs\"() (§) : () -> ()"), 2, 0);
    refused_at_mark(&function("", &format!("\"stablehlo.abs\"() ({one},§) : () -> ()")), 2, 0);
    refused_at_mark(&function("", &format!("\"stablehlo.abs\"() ({one}) §({one}) : () -> ()")), 2, 0);
}

#[test]
fn op_39_bodies_inside_bodies() {
    let inner = "({^c(): \"stablehlo.return\"() : () -> ()})";
    let outer = format!(
        "({{^b(): \"stablehlo.abs\"() {inner} {{dimension = 0 : i64}} : () -> () \"stablehlo.return\"() : () -> ()}})"
    );
    answers(&function("", &format!("\"stablehlo.abs\"() {outer} : () -> ()")), 7, 0, 0);
}

#[test]
fn op_40_label_and_parentheses_are_needed() {
    let with = |start: &str| {
        function("", &format!("\"stablehlo.abs\"() ({{ {start} \"stablehlo.return\"() : () -> ()}}) : () -> ()"))
    };
    refused_at_mark(&with("").replace("\"stablehlo.return", "§\"stablehlo.return"), 2, 0);
    refused_at_mark(&with("^bb0§:"), 2, 0);
    refused_at_mark(&with("^bb0() ").replace("\"stablehlo.return", "§\"stablehlo.return"), 2, 0);
    answers(&with("^b():"), 7, 0, 0);
    answers(&with("^00():"), 7, 0, 0);
}

#[test]
fn op_41_either_return_elsewhere() {
    // The other place's return, at its quoted name, also behind a result name.
    refused_at_mark("func.func @m() {§\"stablehlo.return\"() : () -> ()}", 2, 0);
    refused_at_mark("func.func @m() {%r = §\"stablehlo.return\"() : () -> ()}", 2, 0);
    refused_at_mark("func.func @m() {\"stablehlo.abs\"() ({^b(): §\"func.return\"() : () -> ()}) : () -> ()}", 2, 0);
    // Something after a return; a closing brace before any return.
    refused_at_mark("func.func @m() {\"func.return\"() : () -> () §%r = \"stablehlo.abs\"() : () -> ()}", 2, 0);
    refused_at_mark("func.func @m() {\"func.return\"() : () -> () §\"func.return\"() : () -> ()}", 2, 0);
    refused_at_mark("func.func @m() {\"stablehlo.abs\"() ({^b(): \"stablehlo.return\"() : () -> () §\"stablehlo.abs\"() : () -> ()}) : () -> ()}", 2, 0);
    refused_at_mark("func.func @m() {§}", 2, 0);
    refused_at_mark("func.func @m() {\"stablehlo.abs\"() : () -> () §}", 2, 0);
    refused_at_mark("func.func @m() {\"stablehlo.abs\"() ({^b(): §}) : () -> ()}", 2, 0);
}

#[test]
fn op_42_results_of_a_return_and_ops_without_results() {
    answers("func.func @m() {%x = \"func.return\"() : () -> ()}", 7, 0, 0);
    answers("func.func @m() {\"func.return\"() : () -> tensor<i8>}", 7, 0, 0);
    answers("func.func @m() {\"func.return\"() : () -> (tensor<i8>)}", 7, 0, 0);
    let inputs = "%a: tensor<i8>";
    answers(&function(inputs, "\"stablehlo.negate\"(%a) : (tensor<i8>) -> tensor<i8>"), 7, 0, 0);
    answers(&function(inputs, "%r = \"stablehlo.negate\"(%a) : (tensor<i8>) -> ()"), 7, 0, 0);
}

#[test]
fn op_42b_places_of_attributes_and_results() {
    refused_at_mark(&function("", "%r§:2 = \"stablehlo.abs\"() : () -> ()"), 2, 0);
    refused_at_mark(&function("", "%r = \"stablehlo.abs\"() : () -> tensor<i8>§, tensor<i8>"), 2, 0);
    let body = "({^b(): \"stablehlo.return\"() : () -> ()})";
    let attribute = "{dimension = 0 : i64}";
    refused_at_mark(&function("", &format!("\"stablehlo.abs\"() {attribute} §{body} : () -> ()")), 2, 0);
    refused_at_mark(&function("", &format!("\"stablehlo.abs\"() {body} §<{attribute}> : () -> ()")), 2, 0);
    refused_at_mark(&function("", &format!("\"stablehlo.abs\"() <{attribute}> {body} §{attribute} : () -> ()")), 2, 0);
    refused_at_mark(&function("", &format!("\"stablehlo.abs\"() <{attribute}> §{attribute} : () -> ()")), 2, 0);
    refused_at_mark(&function("", &format!("\"stablehlo.abs\"() <{attribute}> §<{attribute}> : () -> ()")), 2, 0);
    answers(&function("", &format!("\"stablehlo.abs\"() <{attribute}> {body} : () -> ()")), 7, 0, 0);
    answers(&function("", &format!("\"stablehlo.abs\"() {body} {attribute} : () -> ()")), 7, 0, 0);
}

#[test]
fn op_42c_i64_in_both() {
    for value in [
        "array<i64:§>",
        "array<§si64>",
        "array<§i32: 1>",
        "array<i64 §1>",
        "0 : §si64",
        "0 : §i32",
        "0 : §tensor<i64>",
        "array<§>",
        "array<i64: 1, §>",
    ] {
        refused_at_mark(&attributes(&format!("{{dimension = {value}}}")), 2, 0);
    }
    refused_at_mark(&attributes("{dimension = 0 §}"), 2, 0);
    refused_at_mark(&attributes("{dimension = 0 §, dimension = 0 : i64}"), 2, 0);
}

#[test]
fn op_43_the_ninth_input_at_its_name() {
    let eight: String = (0..8).map(|k| format!("%i{k}: tensor<i8>, ")).collect();
    refused_at_mark(&function(&format!("{eight}§%x: tensor<f32>"), ""), 4, 5);
}

#[test]
fn op_44_nine_types_in_a_signature() {
    let nine = "tensor<i8>, ".repeat(8) + "§tensor<i8>";
    refused_at_mark(&function("", &format!("\"stablehlo.abs\"() : ({nine}) -> ()")), 4, 5);
    refused_at_mark(&function("", &format!("\"stablehlo.abs\"() : () -> ({nine})")), 4, 5);
}

#[test]
fn op_45_nine_body_arguments() {
    let eight: String = (0..8).map(|k| format!("%i{k}: tensor<i8>, ")).collect();
    refused_at_mark(&function("", &format!("\"stablehlo.abs\"() ({{^b({eight}§%x: tensor<i8>): ")), 4, 5);
}

#[test]
fn op_46_every_written_result_type_counts() {
    let inputs = "%a: tensor<4096xi8>, %b: tensor<4096xi8>";
    refused_at_mark(&function(inputs, "\"stablehlo.abs\"() : () -> §tensor<i8>"), 4, 3);
    refused_at_mark(&function("", "\"stablehlo.abs\"() : () -> (tensor<4096xi8>, tensor<4096xi8>, §tensor<i8>)"), 4, 3);
}

#[test]
fn op_47_results_of_the_returns() {
    let inputs = "%a: tensor<4096xi8>, %b: tensor<4096xi8>";
    refused_at_mark(&format!("func.func @m({inputs}) {{\"func.return\"() : () -> §tensor<i8>}}"), 4, 3);
    // Body ops and the body's return never count.
    let body = "({^b(): \"stablehlo.abs\"() : () -> tensor<4096xi8> \"stablehlo.return\"() : () -> tensor<4096xi8>})";
    answers(&function(inputs, &format!("\"stablehlo.abs\"() {body} : () -> ()")), 7, 0, 0);
}

#[test]
fn op_48_the_257th_op() {
    let ops: String = (0..256)
        .map(|k| format!("%v{k} = \"stablehlo.iota\"() {{iota_dimension = 0 : i64}} : () -> tensor<1xi8>\n"))
        .collect();
    let with = |op: &str| function("", &format!("{ops}{op}"));
    refused_at_mark(&with("%w = §\"stablehlo.abs\"() : () -> ()"), 4, 4);
    refused_at_mark(&with("%w §\"stablehlo.abs\"() : () -> ()"), 2, 0);
    refused_at_mark(&with(&format!("§%{} = \"stablehlo.abs\"() : () -> ()", "w".repeat(32))), 4, 8);
    refused_at_mark(&with("%a, %b, %c, %d, %e, %f, %g, %h, §%i = \"stablehlo.abs\"() : () -> ()"), 4, 5);
    refused_at_mark(&with("%w = §\"stablehlo.tanh\"() : () -> ()"), 3, 0);
}

#[test]
fn op_49_size_8_covers_names_with_sigils_only() {
    let long = "w".repeat(40);
    refused_at_mark(&attributes(&format!("{{§{long} = 0 : i64}}")), 3, 0);
    refused_at_mark(&function("", &format!("§\"stablehlo.{long}\"() : () -> ()")), 3, 0);
    // The longest op name of the paper has 34 characters.
    accepted(&function(
        "%a: tensor<i8>",
        "%r = \"stablehlo.shift_right_arithmetic\"(%a, %a) : (tensor<i8>, tensor<i8>) -> tensor<i8>",
    ));
}

#[test]
fn op_51_size_3_at_the_type() {
    refused_at_mark(
        &function(
            "%a: tensor<4096xi8>, %b: tensor<4096xi8>",
            "%r = \"stablehlo.iota\"() {iota_dimension = 0 : i64} : () -> §tensor<1xi8>",
        ),
        4,
        3,
    );
}

#[test]
fn op_52_sizes_6_and_7_in_any_attribute() {
    refused_at_mark(&attributes("{strides = array<i64: 1, 2, 3, 4, 5, 6, §7>}"), 4, 6);
    refused_at_mark(&attributes("{value = §9223372036854775808 : i64}"), 4, 7);
    refused_at_mark(&attributes("{iota_dimension = 0 : i64, iota_dimension = §-9223372036854775809 : i64}"), 4, 7);
}

#[test]
fn op_53b_size_5_by_list() {
    // Eight names and eight types each are within the size, together too.
    let names = (0..8).map(|k| format!("%r{k}")).collect::<Vec<_>>().join(", ");
    let types = ["tensor<i8>"; 8].join(", ");
    let operands = ["%a"; 8].join(", ");
    answers(
        &function("%a: tensor<i8>", &format!("{names} = \"stablehlo.abs\"({operands}) : ({types}) -> ({types})")),
        7,
        0,
        0,
    );
    // Operands of returns and of body ops.
    let nine = ["%a"; 8].join(", ") + ", §%a";
    refused_at_mark(&format!("func.func @m(%a: tensor<i8>) {{\"func.return\"({nine}) : () -> ()}}"), 4, 5);
    refused_at_mark(
        &function("%a: tensor<i8>", &format!("\"stablehlo.abs\"() ({{^b(): \"stablehlo.abs\"({nine}) : () -> ()")),
        4,
        5,
    );
    refused_at_mark(
        &function("%a: tensor<i8>", &format!("\"stablehlo.abs\"() ({{^b(): \"stablehlo.return\"({nine}) : () -> ()")),
        4,
        5,
    );
}

#[test]
fn op_54_names_byte_by_byte() {
    accepted(&function("%0: tensor<i8>, %00: tensor<i8>, %a: tensor<i8>, %A: tensor<i8>", ""));
}

/// A reduction over `%a`, `%s` whose body's arguments, op and return are given.
fn reduction(body: &str) -> String {
    let op = format!("%r = \"stablehlo.reduce\"(%a, %s) ({{{body}}}) {{dimensions = array<i64: 0>}} : (tensor<2xi8>, tensor<i8>) -> tensor<i8>");
    function("%a: tensor<2xi8>, %s: tensor<i8>", &op)
}

#[test]
fn op_55_a_body_that_uses_a_value_from_outside() {
    let add = "%z = \"stablehlo.add\"(%x, %s) : (tensor<i8>, tensor<i8>) -> tensor<i8> \"stablehlo.return\"(%z) : (tensor<i8>) -> ()";
    answers(&reduction(&format!("^b(%x: tensor<i8>, %y: tensor<i8>): {add}")), 7, 0, 0);
}

#[test]
fn op_56_a_body_name_like_an_outer_one() {
    let rest = "\"stablehlo.return\"(%z) : (tensor<i8>) -> ()";
    refused_at_mark(&reduction(&format!("^b(%x: tensor<i8>, §%a: tensor<i8>): %z = \"stablehlo.add\"(%x, %a) : (tensor<i8>, tensor<i8>) -> tensor<i8> {rest}")), 6, 0);
    refused_at_mark(&reduction("^b(%x: tensor<i8>, %y: tensor<i8>): §%s = \"stablehlo.add\"(%x, %y) : (tensor<i8>, tensor<i8>) -> tensor<i8> \"stablehlo.return\"(%s) : (tensor<i8>) -> ()"), 6, 0);
}

#[test]
fn op_57_body_names_are_forgotten_at_the_brace() {
    let reduce = |result: &str| {
        format!("%{result} = \"stablehlo.reduce\"(%a, %s) {} {{dimensions = array<i64: 0>}} : (tensor<2xi8>, tensor<i8>) -> tensor<i8>\n", body("add", "i8"))
    };
    let inputs = "%a: tensor<2xi8>, %s: tensor<i8>";
    accepted(&function(inputs, &(reduce("r") + &reduce("q"))));
    // The reduction's result may repeat a body name, after which that name is taken.
    accepted(&function(inputs, &reduce("z")));
    refused_at_mark(&function(inputs, &(reduce("y") + &reduce("q").replace("%y: tensor", "§%y: tensor"))), 6, 0);
    // Body names are not visible afterwards; the reduction's own result is not visible inside.
    refused_at_mark(
        &function(inputs, &(reduce("r") + "%n = \"stablehlo.negate\"(§%z) : (tensor<i8>) -> tensor<i8>")),
        5,
        0,
    );
    refused_at_mark(&function(inputs, &reduce("r").replace("(%x, %y)", "(%x, §%r)")), 5, 0);
    // Two bodies of one op share names (then 7).
    let one = body("add", "i8");
    let inner = &one[1..one.len() - 1];
    answers(&function("", &format!("\"stablehlo.abs\"() ({inner}, {inner}) : () -> ()")), 7, 0, 0);
    // Nested bodies: the inner brace forgets the inner names only.
    let nested = "\"stablehlo.abs\"() ({^b(%x: tensor<i8>): \"stablehlo.abs\"() ({^c(%y: tensor<i8>): \"stablehlo.return\"(%x, %y) : () -> ()}) : () -> () \"stablehlo.return\"(%x, §%y) : () -> ()}) : () -> ()";
    refused_at_mark(&function("", nested), 5, 0);
    answers(&function("", &nested.replace(", §%y", "")), 7, 0, 0);
}

#[test]
fn op_58_name_faults_in_a_body_before_7() {
    let body = "({^b(): \"stablehlo.return\"(§%zz) : () -> ()})";
    refused_at_mark(
        &function("%a: tensor<i8>", &format!("%r = \"stablehlo.negate\"(%a) {body} : (tensor<i8>) -> tensor<i8>")),
        5,
        0,
    );
    let good = "{^b(): \"stablehlo.return\"() : () -> ()}";
    refused_at_mark(&function("", &format!("\"stablehlo.reduce\"() ({good}, {} : () -> ()", &body[1..])), 5, 0);
}

#[test]
fn op_59_order_inside_a_body() {
    // Arguments, then op by op operands, bodies, results, then the return.
    let body = |arguments: &str, op: &str, ret: &str| {
        function(
            "",
            &format!(
                "\"stablehlo.abs\"() ({{^b({arguments}): {op} \"stablehlo.return\"({ret}) : () -> ()}}) : () -> ()"
            ),
        )
    };
    let inner = |name: &str| format!("({{^c(): \"stablehlo.return\"({name}) : () -> ()}})");
    let op =
        |operand: &str, body: &str, result: &str| format!("{result} = \"stablehlo.abs\"({operand}) {body} : () -> ()");
    let twice = "%x: tensor<i8>, §%x: tensor<i8>";
    let once = "%x: tensor<i8>";
    refused_at_mark(&body(twice, &op("%p", &inner("%q"), "%x"), "%s"), 6, 0);
    refused_at_mark(&body(once, &op("§%p", &inner("%q"), "%x"), "%s"), 5, 0);
    refused_at_mark(&body(once, &op("%x", &inner("§%q"), "%x"), "%s"), 5, 0);
    refused_at_mark(&body(once, &op("%x", &inner("%x"), "§%x"), "%s"), 6, 0);
    refused_at_mark(&body(once, &op("%x", &inner("%x"), "%y"), "§%s"), 5, 0);
    answers(&body(once, &op("%x", &inner("%x"), "%y"), "%y"), 7, 0, 0);
}

#[test]
fn op_60_result_names_twice() {
    refused_at_mark(
        &function("%b: tensor<i8>", "%a, §%a = \"stablehlo.negate\"(%b) : (tensor<i8>) -> tensor<i8>"),
        6,
        0,
    );
    refused_at_mark("func.func @m(%a: tensor<i8>) {§%a = \"func.return\"() : () -> ()}", 6, 0);
    answers("func.func @m(%a: tensor<i8>) {%b = \"func.return\"() : () -> ()}", 7, 0, 0);
}

#[test]
fn op_62_more_or_fewer_operand_types() {
    let inputs = "%a: tensor<i8>";
    answers(&function(inputs, "%r = \"stablehlo.negate\"(%a) : () -> tensor<i8>"), 7, 0, 0);
    answers(&function(inputs, "%r = \"stablehlo.negate\"(%a) : (tensor<i8>, tensor<i8>) -> tensor<i8>"), 7, 0, 0);
    answers("func.func @m(%a: tensor<i8>) -> tensor<i8> {\"func.return\"(%a) : () -> ()}", 7, 0, 0);
}

#[test]
fn op_63_attributes_or_bodies_on_a_return() {
    answers("func.func @m() {\"func.return\"() {dimension = 0 : i64} : () -> ()}", 7, 0, 0);
    answers("func.func @m() {\"func.return\"() <{value = dense<0> : tensor<i8>}> : () -> ()}", 7, 0, 0);
    answers("func.func @m() {\"func.return\"() ({^b(): \"stablehlo.return\"() : () -> ()}) : () -> ()}", 7, 0, 0);
}

#[test]
fn op_64_one_literal_for_no_element() {
    accepted(&constant("100", "tensor<0xi8>"));
    accepted(&constant("false", "tensor<2x0xi1>"));
    answers(&constant("300", "tensor<0xi8>"), 7, 0, 0);
    answers(&constant("true", "tensor<0xi8>"), 7, 0, 0);
}

#[test]
fn op_65_lists_without_elements() {
    accepted(&constant("[]", "tensor<0x2xi8>"));
    accepted(&constant("[[], []]", "tensor<2x0xi8>"));
    accepted(&constant("[[], []]", "tensor<2x0x3xi8>"));
    answers(&constant("[]", "tensor<2x0xi8>"), 7, 0, 0);
    answers(&constant("[[], []]", "tensor<0x2xi8>"), 7, 0, 0);
    answers(&constant("[[[], []], [[], []]]", "tensor<2x0x3xi8>"), 7, 0, 0);
}

#[test]
fn op_66_tables_before_constraints() {
    let inputs = "%a: tensor<i8>";
    let unary = |op: &str, t: &str| function(inputs, &format!("%r = \"stablehlo.{op}\"(%a) : (tensor<i8>) -> {t}"));
    answers(&unary("abs", "tensor<ui8>"), 7, 0, 0);
    answers(&unary("negate", "tensor<i1>"), 7, 0, 0);
    answers(&unary("abs", "tensor<i16>"), 8, 0, 2);
    let compare = "%r = \"stablehlo.compare\"(%a, %a) {comparison_direction = #stablehlo<comparison_direction EQ>} : (tensor<i8>, tensor<i8>) -> tensor<3xi8>";
    answers(&function(inputs, compare), 7, 0, 0);
    let iota = "%r = \"stablehlo.iota\"() {iota_dimension = 5 : i64} : () -> tensor<2xi1>";
    answers(&function(inputs, iota), 7, 0, 0);
    let add = "%r = \"stablehlo.add\"(%a, %a) : (tensor<i8>, tensor<i8>) -> tensor<i1>";
    answers(&function(inputs, add), 8, 0, 1);
}

#[test]
fn op_67_not_takes_booleans_and_integers() {
    for t in ["tensor<i1>", "tensor<i8>", "tensor<ui64>"] {
        accepted(&function(&format!("%a: {t}"), &format!("%r = \"stablehlo.not\"(%a) : ({t}) -> {t}")));
    }
}

#[test]
fn op_68_operand_counts() {
    let inputs = "%a: tensor<2xi8>, %s: tensor<i8>";
    let dynamic = |starts: &str, types: &str| {
        function(inputs, &format!("%r = \"stablehlo.dynamic_slice\"(%a{starts}) {{slice_sizes = array<i64: 1>}} : (tensor<2xi8>{types}) -> tensor<1xi8>"))
    };
    answers(&dynamic("", ""), 8, 0, 2);
    answers(&dynamic(", %s, %s", ", tensor<i8>, tensor<i8>"), 8, 0, 2);
    accepted(&dynamic(", %s", ", tensor<i8>"));
    let reduce = |operands: &str, types: &str| {
        function(
            inputs,
            &format!(
                "%r = \"stablehlo.reduce\"({operands}) {} {{dimensions = array<i64: 0>}} : ({types}) -> tensor<i8>",
                body("add", "i8")
            ),
        )
    };
    answers(&reduce("", ""), 7, 0, 0);
    answers(&reduce("%a, %a, %s, %s", "tensor<2xi8>, tensor<2xi8>, tensor<i8>, tensor<i8>"), 7, 0, 0);
    answers(&function("", "%r = \"stablehlo.concatenate\"() {dimension = 0 : i64} : () -> tensor<2xi8>"), 8, 0, 3);
    answers(&function("", "%r = \"stablehlo.concatenate\"() : () -> tensor<2xi8>"), 7, 0, 0);
    answers(&function("", "%r = \"stablehlo.concatenate\"() {dimension = 99 : i64} : () -> tensor<2xi8>"), 8, 0, 3);
}

#[test]
fn op_69_ranks_in_tables_before_constraints() {
    let pad = "%r = \"stablehlo.pad\"(%a, %v) {edge_padding_low = array<i64>, edge_padding_high = array<i64>, interior_padding = array<i64>} : (tensor<2xi8>, tensor<1xi16>) -> tensor<2xi8>";
    answers(&function("%a: tensor<2xi8>, %v: tensor<1xi16>", pad), 7, 0, 0);
    answers(&function("%a: tensor<2xi8>, %v: tensor<i16>", &pad.replace("tensor<1xi16>", "tensor<i16>")), 8, 0, 1);
}

#[test]
fn op_69c_attribute_order_is_free() {
    let slice = |lists: [&str; 3]| {
        function(
            "%a: tensor<2xi8>",
            &format!("%r = \"stablehlo.slice\"(%a) {{{}}} : (tensor<2xi8>) -> tensor<2xi8>", lists.join(", ")),
        )
    };
    let (start, limit, strides) =
        ("start_indices = array<i64: 0>", "limit_indices = array<i64: 2>", "strides = array<i64: 1>");
    accepted(&slice([limit, strides, start]));
    accepted(&slice([strides, start, limit]));
    answers(&slice([start, start, limit]), 7, 0, 0);
}

#[test]
fn op_70_multiply_and_remainder_compare_all_types() {
    let inputs = "%a: tensor<i8>, %b: tensor<i16>";
    for op in ["multiply", "remainder"] {
        for rest in [
            "(%a, %b) : (tensor<i8>, tensor<i16>) -> tensor<i8>",
            "(%b, %a) : (tensor<i16>, tensor<i8>) -> tensor<i8>",
            "(%a, %a) : (tensor<i8>, tensor<i8>) -> tensor<i16>",
        ] {
            answers(&function(inputs, &format!("%r = \"stablehlo.{op}\"{rest}")), 8, 0, 1);
        }
    }
}

#[test]
fn op_72_concatenate_with_dimension_out_of_range_breaks_c2() {
    let concatenate = |d: &str| {
        let op = format!("%r = \"stablehlo.concatenate\"(%a, %a) {{dimension = {d} : i64}} : (tensor<2xi8>, tensor<2xi8>) -> tensor<4xi8>");
        function("%a: tensor<2xi8>", &op)
    };
    answers(&concatenate("1"), 8, 0, 2);
    answers(&concatenate("-1"), 8, 0, 2);
    answers(&concatenate("9223372036854775807"), 8, 0, 2);
    accepted(&concatenate("0"));
    let rank0 = "%r = \"stablehlo.concatenate\"(%a) {dimension = 0 : i64} : (tensor<i8>) -> tensor<1xi8>";
    answers(&function("%a: tensor<i8>", rank0), 8, 0, 2);
}

#[test]
fn op_74_compare_type_by_the_left_type() {
    let compare = |t: &str, choice: &str| {
        let attributes = format!("comparison_direction = #stablehlo<comparison_direction LT>, compare_type = #stablehlo<comparison_type {choice}>");
        function(
            &format!("%a: {t}"),
            &format!("%r = \"stablehlo.compare\"(%a, %a) {{{attributes}}} : ({t}, {t}) -> tensor<i1>"),
        )
    };
    for (t, fitting, other) in [
        ("tensor<i64>", "SIGNED", "UNSIGNED"),
        ("tensor<ui64>", "UNSIGNED", "SIGNED"),
        ("tensor<i1>", "UNSIGNED", "SIGNED"),
    ] {
        accepted(&compare(t, fitting));
        answers(&compare(t, other), 8, 0, 3);
    }
}

#[test]
fn op_76_body_arguments_of_another_type() {
    let with = |t: &str| {
        let op = format!("%r = \"stablehlo.reduce\"(%a, %s) {} {{dimensions = array<i64: 0>}} : (tensor<2xi8>, tensor<i8>) -> tensor<i8>", body("add", t));
        function("%a: tensor<2xi8>, %s: tensor<i8>", &op)
    };
    accepted(&with("i8"));
    for t in ["1xi8", "i16", "2xi8", "ui8", "i1"] {
        answers(&with(t), 8, 0, 6);
    }
}

#[test]
fn op_77_body_arguments_unlike_each_other() {
    let body = "^b(%x: tensor<i8>, %y: tensor<i16>): %z = \"stablehlo.add\"(%x, %y) : (tensor<i8>, tensor<i16>) -> tensor<i8> \"stablehlo.return\"(%z) : (tensor<i8>) -> ()";
    answers(&reduction(body), 7, 0, 0);
}

#[test]
fn op_78_reduce_result_shape_before_element() {
    let with = |t: &str| {
        let op = format!(
            "%r = \"stablehlo.reduce\"(%a, %s) {} {{dimensions = array<i64: 0>}} : (tensor<2xi8>, tensor<i8>) -> {t}",
            body("add", "i8")
        );
        function("%a: tensor<2xi8>, %s: tensor<i8>", &op)
    };
    answers(&with("tensor<1xi16>"), 8, 0, 7);
    answers(&with("tensor<i16>"), 8, 0, 8);
}

#[test]
fn op_79_iota_of_rank_0() {
    answers(&function("", "%r = \"stablehlo.iota\"() {iota_dimension = 0 : i64} : () -> tensor<i8>"), 8, 0, 1);
}

#[test]
fn op_80_reshape_by_real_sizes() {
    let reshape = |from: &str, to: &str| {
        function(&format!("%a: {from}"), &format!("%r = \"stablehlo.reshape\"(%a) : ({from}) -> {to}"))
    };
    accepted(&reshape("tensor<2x0xi8>", "tensor<0x7xi8>"));
    accepted(&reshape("tensor<i8>", "tensor<1x1xi8>"));
    answers(&reshape("tensor<2x0xi8>", "tensor<2xi8>"), 8, 0, 2);
    answers(&reshape("tensor<0xi8>", "tensor<i8>"), 8, 0, 2);
}

#[test]
fn op_81_slices_at_the_end() {
    let slice = |start: &str, limit: &str, stride: &str, size: &str| {
        let lists = format!(
            "start_indices = array<i64: {start}>, limit_indices = array<i64: {limit}>, strides = array<i64: {stride}>"
        );
        function(
            "%a: tensor<5xi8>",
            &format!("%r = \"stablehlo.slice\"(%a) {{{lists}}} : (tensor<5xi8>) -> tensor<{size}xi8>"),
        )
    };
    accepted(&slice("5", "5", "1", "0"));
    accepted(&slice("0", "5", "9223372036854775807", "1"));
    accepted(&slice("0", "0", "9223372036854775807", "0"));
    answers(&slice("0", "5", "0", "5"), 8, 0, 4);
}

#[test]
fn op_82_cropping_past_the_operand_and_back() {
    let values = [("a", "[1, 2, 3]", "tensor<3xi8>"), ("p", "9", "tensor<i8>")];
    let pad = |low: &str, high: &str, size: &str| {
        format!("\"stablehlo.pad\"(%a, %p) {{edge_padding_low = array<i64: {low}>, edge_padding_high = array<i64: {high}>, interior_padding = array<i64: 0>}} : (tensor<3xi8>, tensor<i8>) -> tensor<{size}xi8>")
    };
    gives(&values, &pad("-5", "4", "2"), "[9, 9]", "tensor<2xi8>");
    gives(&values, &pad("4", "-5", "2"), "[9, 9]", "tensor<2xi8>");
    gives(&values, &pad("-3", "0", "0"), "[]", "tensor<0xi8>");
    answers(&function("%a: tensor<3xi8>, %p: tensor<i8>", &format!("%r = {}", pad("-4", "0", "0"))), 8, 0, 4);
}

#[test]
fn op_83_broadcast_of_sizes_1_and_0() {
    let broadcast = |from: &str, list: &str, to: &str| {
        function(&format!("%a: {from}"), &format!("%r = \"stablehlo.broadcast_in_dim\"(%a) {{broadcast_dimensions = array<i64{list}>}} : ({from}) -> {to}"))
    };
    accepted(&broadcast("tensor<1xi8>", ": 0", "tensor<0xi8>"));
    accepted(&broadcast("tensor<1xi8>", ": 0", "tensor<7xi8>"));
    accepted(&broadcast("tensor<0xi8>", ": 0", "tensor<0xi8>"));
    accepted(&broadcast("tensor<i8>", "", "tensor<2x3xi8>"));
    answers(&broadcast("tensor<0xi8>", ": 0", "tensor<1xi8>"), 8, 0, 5);
    answers(&broadcast("tensor<2xi8>", ": 0", "tensor<4xi8>"), 8, 0, 5);
}

#[test]
fn op_84_concatenate_of_one_and_of_empty_operands() {
    let op = "\"stablehlo.concatenate\"(%a) {dimension = 0 : i64} : (tensor<2xi8>) -> tensor<2xi8>";
    gives(&[("a", "[4, 5]", "tensor<2xi8>")], op, "[4, 5]", "tensor<2xi8>");
    let op = "\"stablehlo.concatenate\"(%e, %a, %e) {dimension = 0 : i64} : (tensor<0xi8>, tensor<2xi8>, tensor<0xi8>) -> tensor<2xi8>";
    gives(&[("a", "[4, 5]", "tensor<2xi8>"), ("e", "[]", "tensor<0xi8>")], op, "[4, 5]", "tensor<2xi8>");
    let op = "%r = \"stablehlo.concatenate\"(%a) {dimension = 0 : i64} : (tensor<2xi8>) -> tensor<2x1xi8>";
    answers(&function("%a: tensor<2xi8>", op), 8, 0, 6);
}

#[test]
fn op_85_empty_lists_on_rank_0() {
    let scalar = [("a", "4", "tensor<i8>")];
    for (op, attributes) in [
        ("transpose", "permutation = array<i64>"),
        ("reverse", "dimensions = array<i64>"),
        ("slice", "start_indices = array<i64>, limit_indices = array<i64>, strides = array<i64>"),
        ("dynamic_slice", "slice_sizes = array<i64>"),
    ] {
        gives(
            &scalar,
            &format!("\"stablehlo.{op}\"(%a) {{{attributes}}} : (tensor<i8>) -> tensor<i8>"),
            "4",
            "tensor<i8>",
        );
    }
    let reduce = format!(
        "\"stablehlo.reduce\"(%a, %a) {} {{dimensions = array<i64>}} : (tensor<i8>, tensor<i8>) -> tensor<i8>",
        body("add", "i8")
    );
    gives(&scalar, &reduce, "8", "tensor<i8>");
}

#[test]
fn op_86_rank_0_in_clamp_and_select() {
    let inputs = "%v: tensor<2xi8>, %s: tensor<i8>, %p: tensor<i1>, %q: tensor<2xi1>";
    let (v, s) = ("tensor<2xi8>", "tensor<i8>");
    let clamp = |a: &str, b: &str, c: &str, types: [&str; 3], r: &str| {
        function(inputs, &format!("%r = \"stablehlo.clamp\"(%{a}, %{b}, %{c}) : ({}) -> {r}", types.join(", ")))
    };
    accepted(&clamp("s", "v", "s", [s, v, s], v));
    accepted(&clamp("v", "v", "s", [v, v, s], v));
    accepted(&clamp("s", "s", "s", [s, s, s], s));
    answers(&clamp("v", "s", "s", [v, s, s], s), 8, 0, 1);
    answers(&clamp("s", "s", "v", [s, s, v], s), 8, 0, 2);
    let select = |p: &str, pt: &str, a: &str, b: &str, types: [&str; 2], r: &str| {
        function(inputs, &format!("%r = \"stablehlo.select\"(%{p}, %{a}, %{b}) : ({pt}, {}) -> {r}", types.join(", ")))
    };
    accepted(&select("p", "tensor<i1>", "v", "v", [v, v], v));
    answers(&select("q", "tensor<2xi1>", "s", "s", [s, s], s), 8, 0, 1);
    answers(&select("q", "tensor<2xi1>", "v", "s", [v, s], v), 8, 0, 2);
}

#[test]
fn op_87_clamp_of_booleans() {
    let t = "tensor<2xi1>";
    let values = [("l", "true", "tensor<i1>"), ("x", "[false, true]", t), ("h", "[true, true]", t)];
    gives(
        &values,
        "\"stablehlo.clamp\"(%l, %x, %h) : (tensor<i1>, tensor<2xi1>, tensor<2xi1>) -> tensor<2xi1>",
        "[true, true]",
        t,
    );
}

#[test]
fn op_88_order_and_length_of_the_store() {
    let text = function("%a: tensor<2xi8>", "");
    assert_eq!(evaluated(&text, &[999; 3], 1).0, Answer::new(9, 2, 0));
    assert_eq!(evaluated(&text, &[999; 3], 2).0, Answer::new(10, 2, 0));
    assert_eq!(evaluated(&text, &[999; 2], 9000).0, Answer::new(11, 0, 0));
    assert_eq!(evaluated(&text, &[0; 2], 9000).0, Answer::ACCEPTED);
}

#[test]
fn op_89_slots_are_canonical() {
    let text = function("%n: tensor<0xi8>, %a: tensor<i8>, %b: tensor<i1>", "");
    assert_eq!(evaluated(&text, &[u64::MAX, 1], 2).0, Answer::ACCEPTED);
    assert_eq!(evaluated(&text, &[255, 1], 2).0, Answer::new(11, 0, 0));
    assert_eq!(evaluated(&text, &[0, 2], 2).0, Answer::new(11, 1, 0));
}

#[test]
fn op_90_unused_ops_are_evaluated() {
    let ops = constants(&[("a", "[[1, 2], [3, 4]]", "tensor<2x2xi8>"), ("z", "[[1, 1], [0, 1]]", "tensor<2x2xi8>")])
        + "%q = \"stablehlo.divide\"(%a, %z) : (tensor<2x2xi8>, tensor<2x2xi8>) -> tensor<2x2xi8>";
    let (answer, store) = evaluated(&function("", &ops), &[], 13);
    assert_eq!(answer, Answer::new(12, 2, 2));
    assert_eq!(store, [1, 2, 3, 4, 1, 1, 0, 1, 0, 0, 0, 0, OLD]);
}

#[test]
fn op_91_remainder_by_zero() {
    let ops = constants(&[("a", "1", "tensor<ui8>"), ("z", "0", "tensor<ui8>")])
        + "%q = \"stablehlo.remainder\"(%a, %z) : (tensor<ui8>, tensor<ui8>) -> tensor<ui8>";
    assert_eq!(evaluated(&function("", &ops), &[], 3).0, Answer::new(12, 2, 0));
}

#[test]
fn op_92_convert_of_booleans_and_to_wider_unsigned() {
    let convert = |a: &str, from: &str, result: &str, to: &str| {
        gives(&[("a", a, from)], &format!("\"stablehlo.convert\"(%a) : ({from}) -> {to}"), result, to)
    };
    convert("[true, false]", "tensor<2xi1>", "[1, 0]", "tensor<2xi8>");
    convert("[true, false]", "tensor<2xi1>", "[1, 0]", "tensor<2xui64>");
    convert("-1", "tensor<i8>", "18446744073709551615", "tensor<ui64>");
    convert("[-128, 2, 0]", "tensor<3xi8>", "[true, true, false]", "tensor<3xi1>");
}

#[test]
fn op_93_shift_amounts_in_their_own_type() {
    let shift = |op: &str, a: &str, b: &str, result: &str, t: &str| {
        gives(&[("a", a, t), ("b", b, t)], &format!("\"stablehlo.{op}\"(%a, %b) : ({t}, {t}) -> {t}"), result, t)
    };
    shift("shift_left", "1", "200", "0", "tensor<ui8>");
    shift("shift_right_arithmetic", "255", "200", "0", "tensor<ui8>");
    shift("shift_right_arithmetic", "-3", "-1", "-1", "tensor<i8>");
    shift("shift_right_logical", "-1", "-1", "0", "tensor<i8>");
    shift("shift_right_arithmetic", "128", "7", "1", "tensor<ui8>");
}

#[test]
fn op_95_printing() {
    prints(
        &returning(
            "%r = \"stablehlo.constant\"() {value = dense<7> : tensor<02x2xsi8>} : () -> tensor<2x2xi8>",
            "tensor<2x2xsi8>",
        ),
        "dense<[[7, 7], [7, 7]]> : tensor<2x2xi8>\n",
    );
    gives(
        &[],
        "\"stablehlo.constant\"() {value = dense<[[], []]> : tensor<2x0xi8>} : () -> tensor<2x0xi8>",
        "[[], []]",
        "tensor<2x0xi8>",
    );
    gives(
        &[],
        "\"stablehlo.constant\"() {value = dense<[]> : tensor<0x2xi8>} : () -> tensor<0x2xi8>",
        "[]",
        "tensor<0x2xi8>",
    );
    gives(&[], "\"stablehlo.constant\"() {value = dense<true> : tensor<i1>} : () -> tensor<i1>", "true", "tensor<i1>");
}

#[test]
fn op_96_no_results_no_output() {
    prints(&function("", ""), "");
    prints("oops", "refused 2 0 0\n");
    let two = "func.func @m() -> tensor<i8>, tensor<i1> {%a = \"stablehlo.constant\"() {value = dense<1> : tensor<i8>} : () -> tensor<i8> %b = \"stablehlo.constant\"() {value = dense<false> : tensor<i1>} : () -> tensor<i1> \"func.return\"(%a, %b) : (tensor<i8>, tensor<i1>) -> ()}";
    prints(two, "dense<1> : tensor<i8>\ndense<false> : tensor<i1>\n");
}

#[test]
fn op_97_the_program_and_inputs() {
    prints(&function("%a: tensor<i8>", "%r = \"stablehlo.negate\"() : () -> tensor<i8>"), "refused 7 0 0\n");
    prints(
        "func.func @m(%a: tensor<0xi8>) -> tensor<0xi8> {\"func.return\"(%a) : (tensor<0xi8>) -> ()}",
        "dense<[]> : tensor<0xi8>\n",
    );
}
