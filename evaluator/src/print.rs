//! Printing: what the evaluating program writes (01 Table of examples, end; OP-95, OP-96).

use crate::optable::Mnemonic;
use crate::program::{Program, Tensor};
use crate::{sizes, store, Answer};

/// "lends a store of 8,192 slots, reads a text without inputs .. and prints one line per result ..
/// or `refused` and the three numbers, single spaces".
pub fn program_output(text: &[u8]) -> String {
    let mut slots = vec![0; sizes::ELEMENTS];
    let outcome = crate::accept(text).and_then(|program| match store::evaluate(&program, &[], &mut slots) {
        Answer::ACCEPTED => Ok(program),
        refused => Err(refused),
    });
    match outcome {
        Ok(program) => results(&program, &slots),
        Err(answer) => format!("refused {} {} {}\n", answer.refusal, answer.a, answer.b),
    }
}

/// One line for every op, for constants only where they are asked for, in text order: the mnemonic,
/// then the slots of its result in decimal, single spaces. The text has no inputs; the error is the
/// refusal.
pub fn op_lines(text: &[u8], constants: bool) -> Result<String, String> {
    let mut slots = vec![0; sizes::ELEMENTS];
    let refused = |answer: Answer| format!("the text is refused: {} {} {}", answer.refusal, answer.a, answer.b);
    let program = crate::accept(text).map_err(refused)?;
    match store::evaluate(&program, &[], &mut slots) {
        Answer::ACCEPTED => {}
        answer => return Err(refused(answer)),
    }
    let mut lines = String::new();
    let mut at = program.input_elements();
    for op in &program.ops {
        let stretch = &slots[at..at + op.result_types[0].elements()];
        at += stretch.len();
        if constants || op.mnemonic != Mnemonic::Constant {
            let words: Vec<String> = stretch.iter().map(|slot| format!(" {slot}")).collect();
            let name = op.mnemonic.name().trim_start_matches("stablehlo.");
            lines += &format!("{name}{}\n", words.concat());
        }
    }
    Ok(lines)
}

/// One line for each value that the return names.
fn results(program: &Program, slots: &[u64]) -> String {
    let returned = program.sources(&program.ret).into_iter();
    returned.map(|value| line(&store::value(program, slots, value)) + "\n").collect()
}

/// `dense<[1725]> : tensor<1xui16>`.
pub fn line(tensor: &Tensor) -> String {
    format!("dense<{}> : {}", nested(tensor, &tensor.tensor.shape, &tensor.elements), tensor.tensor.text())
}

/// Full lists, one level for each dimension that remains, "`, ` between items"; rank 0 is the bare
/// literal. The remaining rank falls at each call.
fn nested(tensor: &Tensor, shape: &[usize], elements: &[i128]) -> String {
    let [size, rest @ ..] = shape else { return literal(tensor, elements[0]) };
    let stretch: usize = rest.iter().product();
    let item = |place: usize| nested(tensor, rest, &elements[place * stretch..(place + 1) * stretch]);
    let items: Vec<String> = (0..*size).map(item).collect();
    format!("[{}]", items.join(", "))
}

/// "Booleans are `true` and `false`; numbers are decimal."
fn literal(tensor: &Tensor, value: i128) -> String {
    if tensor.tensor.element.is_boolean() {
        (value == 1).to_string()
    } else {
        value.to_string()
    }
}
