//! A second evaluator for one StableHLO function, written from papers 01 and 000 alone.
//!
//! The order of the modules is the order of paper 01: element types, sizes, the text (tokens,
//! grammar, op table), the twelve refusals (names, typing, constraints), the store, the element and
//! shape rules, reductions, free runs, printing. Every rule stands beside a reference to its
//! sentence: `01 Sizes` is that chapter of paper 01, `000 slice` that op of the standard, `OP-nn` a
//! reading written down in docs/DECISIONS.md.

pub mod constraints;
pub mod element;
pub mod free;
pub mod grammar;
pub mod ops;
pub mod optable;
pub mod print;
pub mod program;
pub mod sizes;
pub mod store;
pub mod stream;
pub mod token;
pub mod verify;

pub mod cases;
pub mod coverage;
pub mod freecheck;
pub mod random;

use program::Program;

/// "An answer has three numbers: refusal, A, B. Unnamed ones are 0" (01 The twelve refusals).
#[derive(Clone, Copy, PartialEq, Eq, Debug)]
pub struct Answer {
    pub refusal: u64,
    pub a: u64,
    pub b: u64,
}

impl Answer {
    pub const ACCEPTED: Answer = Answer { refusal: 0, a: 0, b: 0 };

    pub fn new(refusal: u64, a: usize, b: usize) -> Answer {
        Answer { refusal, a: a as u64, b: b as u64 }
    }
}

/// Refusals 1 to 4: a text as a program, or the earliest fault of reading.
pub fn read(text: &[u8]) -> Result<Program, Answer> {
    grammar::read(text)
}

/// Refusals 1 to 8: a program that may be evaluated, or its first fault.
pub fn accept(text: &[u8]) -> Result<Program, Answer> {
    let program = read(text)?;
    verify::verify(&program)?;
    Ok(program)
}

/// Refusals 0 to 8 as an answer.
pub fn check(text: &[u8]) -> Answer {
    match accept(text) {
        Ok(_) => Answer::ACCEPTED,
        Err(answer) => answer,
    }
}

/// Refusals 0 to 12, and the store after the answer (01 The store).
pub fn evaluate(text: &[u8], inputs: &[u64], store: &mut [u64]) -> Answer {
    match accept(text) {
        Ok(program) => store::evaluate(&program, inputs, store),
        Err(answer) => answer,
    }
}
