//! The proved library beside the second evaluator: one answer type for both, by depth.

use evaluator::Answer;

/// How far a text is judged.
#[derive(Clone, Copy, Debug)]
pub enum Depth {
    /// Refusals 0 to 4.
    Read,
    /// Refusals 0 to 8.
    Check,
}

impl Depth {
    /// The last refusal of this depth: a text that is refused later, or not at all, has none.
    fn last(self) -> u64 {
        match self {
            Depth::Read => 4,
            Depth::Check => 8,
        }
    }
}

/// The proved library's answer as the second evaluator's.
fn same(answer: bench::Answer) -> Answer {
    Answer { refusal: answer.refusal, a: answer.a, b: answer.b }
}

/// The answer of the proved code.
pub fn proved(depth: Depth, text: &[u8]) -> Answer {
    same(match depth {
        Depth::Read => bench::read(text),
        Depth::Check => bench::check(text),
    })
}

/// The answer of the proved evaluation, over the store.
pub fn evaluated(text: &[u8], inputs: &[u64], store: &mut [u64]) -> Answer {
    same(bench::evaluate(text, inputs, store))
}

/// An answer up to the depth's last refusal.
pub fn up_to(depth: Depth, answer: Answer) -> Answer {
    if answer.refusal <= depth.last() {
        return answer;
    }
    Answer::ACCEPTED
}

/// The answer of the second evaluator, up to the depth's last refusal.
pub fn expected(depth: Depth, text: &[u8]) -> Answer {
    up_to(depth, evaluator::check(text))
}
