//! Helpers: texts of programs, and what they must answer.
//!
//! `§` in a text marks the byte that A must name; it is taken out before the text is read.

use evaluator::Answer;

/// The text without its one mark `§`, and the byte where the mark stood.
pub fn marked(text: &str) -> (Vec<u8>, usize) {
    let parts: Vec<&str> = text.split('§').collect();
    assert_eq!(parts.len(), 2, "one mark in: {text}");
    (parts.concat().into_bytes(), parts[0].len())
}

/// The text is refused at the byte of its mark.
#[track_caller]
pub fn refused_at_mark(text: &str, refusal: u64, b: usize) {
    let (text, at) = marked(text);
    let expected = Answer::new(refusal, at, b);
    assert_eq!(evaluator::check(&text), expected, "{}", String::from_utf8_lossy(&text));
}

#[track_caller]
pub fn answers(text: &str, refusal: u64, a: usize, b: usize) {
    assert_eq!(evaluator::check(text.as_bytes()), Answer::new(refusal, a, b), "{text}");
}

#[track_caller]
pub fn accepted(text: &str) {
    answers(text, 0, 0, 0);
}

/// What the evaluating program prints.
#[track_caller]
pub fn prints(text: &str, output: &str) {
    assert_eq!(evaluator::print::program_output(text.as_bytes()), output, "{text}");
}

/// A function without results: `inputs` as in the header, then ops, one on a line.
pub fn function(inputs: &str, ops: &str) -> String {
    format!("func.func @m({inputs}) {{\n{ops}\n\"func.return\"() : () -> ()\n}}\n")
}

/// A function without inputs that returns the value `%r` of this type.
pub fn returning(ops: &str, result_type: &str) -> String {
    format!("func.func @m() -> {result_type} {{\n{ops}\n\"func.return\"(%r) : ({result_type}) -> ()\n}}\n")
}

/// `%name = "stablehlo.constant"() ..`, one line for each (name, dense value, type).
pub fn constants(values: &[(&str, &str, &str)]) -> String {
    let line = |(name, value, tensor): &(&str, &str, &str)| {
        format!("%{name} = \"stablehlo.constant\"() {{value = dense<{value}> : {tensor}}} : () -> {tensor}\n")
    };
    values.iter().map(line).collect()
}

/// An op on constants prints one result: `op` is the text after `%r = `.
#[track_caller]
pub fn gives(values: &[(&str, &str, &str)], op: &str, result: &str, result_type: &str) {
    let text = returning(&format!("{}%r = {op}", constants(values)), result_type);
    prints(&text, &format!("dense<{result}> : {result_type}\n"));
}

/// The body `({ ^b(..): .. })` of a reduction by one op on rank 0 values of one element type.
pub fn body(op: &str, element: &str) -> String {
    let t = format!("tensor<{element}>");
    format!(
        "({{\n^bb0(%x: {t}, %y: {t}):\n%z = \"stablehlo.{op}\"(%x, %y) : ({t}, {t}) -> {t}\n\
         \"stablehlo.return\"(%z) : ({t}) -> ()\n}})"
    )
}

/// The slots of the store after evaluation on a store of 0xAA.. slots, with the answer.
pub fn evaluated(text: &str, inputs: &[u64], length: usize) -> (Answer, Vec<u64>) {
    let mut store = vec![OLD; length];
    let answer = evaluator::evaluate(text.as_bytes(), inputs, &mut store);
    (answer, store)
}

/// A slot of the old store.
pub const OLD: u64 = 0xAAAA_AAAA_AAAA_AAAA;
