//! The store: refusals 9 to 12 and every slot after the answer (01 The store).

use crate::ops;
use crate::program::*;
use crate::Answer;

/// Evaluates an accepted program on a store.
pub fn evaluate(program: &Program, inputs: &[u64], store: &mut [u64]) -> Answer {
    // "Refusals 1 to 11 leave the store unchanged."
    let mut values = match check_slots(program, inputs, store.len()) {
        Ok(values) => values,
        Err(answer) => return answer,
    };
    let answer = run(program, &mut values);
    // "Refusal 12 leaves inputs and earlier results in place and zero from the refusing op's first
    // slot to the last needed slot. Slots past the needed ones never change."
    let mut at = 0;
    for value in &values {
        for &element in &value.elements {
            store[at] = value.tensor.element.to_slot(element);
            at += 1;
        }
    }
    for slot in &mut store[at..program.elements()] {
        *slot = 0;
    }
    answer
}

/// "Then 9, 10, 11 at the lowest such slot" (01 The twelve refusals): the inputs as tensors.
pub fn check_slots(program: &Program, inputs: &[u64], store_length: usize) -> Result<Vec<Tensor>, Answer> {
    // "9 | store shorter than the elements of size 3 | slots needed".
    if store_length < program.elements() {
        return Err(Answer::new(9, program.elements(), 0));
    }
    // "10 | input slice of another length than the inputs together | length needed".
    if inputs.len() != program.input_elements() {
        return Err(Answer::new(10, program.input_elements(), 0));
    }
    // "11 | input slot not a value of its type | slot".
    input_tensors(program, inputs).map_err(|slot| Answer::new(11, slot, 0))
}

/// The inputs as tensors, or the first slot that is not a value of its type.
fn input_tensors(program: &Program, inputs: &[u64]) -> Result<Vec<Tensor>, usize> {
    let mut tensors = Vec::new();
    let mut at = 0;
    for input in &program.inputs {
        let mut elements = Vec::new();
        for slot in &inputs[at..at + input.tensor.elements()] {
            elements.push(input.tensor.element.of_slot(*slot).ok_or(at + elements.len())?);
        }
        at += elements.len();
        tensors.push(Tensor { tensor: input.tensor.clone(), elements });
    }
    Ok(tensors)
}

/// Every op in text order, used or not (OP-90); its result is added to the values. "12 | zero
/// divisor | op | element", "at the first op in text order and its first element".
fn run(program: &Program, values: &mut Vec<Tensor>) -> Answer {
    for (number, op) in program.ops.iter().enumerate() {
        let operands: Vec<&Tensor> = program.sources(op).into_iter().map(|value| &values[value]).collect();
        match ops::apply(program, op, &operands, &ops::fold) {
            Ok(result) => values.push(result),
            Err(zero) => return Answer::new(12, number, zero.element),
        }
    }
    Answer::ACCEPTED
}

/// A value of an accepted program, read out of the store.
pub fn value(program: &Program, store: &[u64], value: usize) -> Tensor {
    let at: usize = (0..value).map(|earlier| program.value_type(earlier).elements()).sum();
    let tensor = program.value_type(value);
    let slots = &store[at..at + tensor.elements()];
    let elements = slots.iter().map(|&slot| tensor.element.of_slot(slot).unwrap_or_default()).collect();
    Tensor { tensor: tensor.clone(), elements }
}
