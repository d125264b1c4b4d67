//! The proved bench for Rust: reads, checks and evaluates one StableHLO function on integers and booleans.
//!
//! The three functions are those of the crate `bench` of Rattle, each proved to meet its contract. They take every
//! text, every input slice and every store, and always end. `include/aquabob.h` says what they answer, for C.
//!
//! ```
//! let text = b"func.func @main(%a: tensor<2xi8>) -> tensor<2xi8> {
//!   %n = \"stablehlo.negate\"(%a) : (tensor<2xi8>) -> tensor<2xi8>
//!   \"func.return\"(%n) : (tensor<2xi8>) -> ()
//! }";
//! let mut store = [0; 4];
//! let answer = bench::evaluate(text, &[1, 2], &mut store);
//! assert!(answer.is_accepted());
//! // The inputs, then the op's result; a signed value is a slot modulo 2^64.
//! assert_eq!(store.map(|slot| slot as i64), [1, 2, -1, -2]);
//! ```
//!
//! A call takes 2.1 MB of stack at most, whatever the text (measured). The main thread usually has more, a thread of
//! `std` has less unless it is told otherwise: call from within [`with_stack`] there. A stack that is too short ends
//! the process.

use std::fmt;

/// A store of this many slots is long enough for every text: inputs and op results have at most so many elements.
pub const STORE_SLOTS: usize = 8192;

/// The longest text, in bytes.
pub const TEXT_BYTES: usize = 65_536;

/// A stack, in bytes, that is enough for any of the three functions on any text.
pub const STACK: usize = 4 << 20;

/// Runs `work` in a thread with a stack of [`STACK`] bytes and gives what it gives.
///
/// ```
/// let answer = bench::with_stack(|| bench::check(b"func.func @main() { \"func.return\"() : () -> () }"));
/// assert!(answer.is_accepted());
/// ```
pub fn with_stack<T: Send>(work: impl FnOnce() -> T + Send) -> T {
    std::thread::scope(|scope| {
        let thread = std::thread::Builder::new().stack_size(STACK).spawn_scoped(scope, work);
        match thread.expect("a thread with its stack").join() {
            Ok(given) => given,
            Err(panic) => std::panic::resume_unwind(panic),
        }
    })
}

/// An answer: the refusal, 0 where there is none, and its two numbers, each 0 where the refusal does not name it.
///
/// | refusal | when | a | b |
/// |---|---|---|---|
/// | 0 | accepted | | |
/// | 1 | the text is too long | its length | |
/// | 2 | the text is not in the grammar | byte of the first token that does not fit, or the length | |
/// | 3 | an op, type, attribute or choice that the bench does not know | its byte | |
/// | 4 | a size is passed | its byte | number of the size |
/// | 5 | a value name is not defined before | its byte | |
/// | 6 | a value name is defined twice | its byte | |
/// | 7 | typing | op | |
/// | 8 | a constraint of the standard is broken | op | its C number |
/// | 9 | the store is too short | slots needed | |
/// | 10 | the inputs have another length | length needed | |
/// | 11 | an input slot is no value of its type | slot | |
/// | 12 | a divisor is zero | op | element |
#[repr(C)]
#[derive(Clone, Copy, PartialEq, Eq, Hash, Debug)]
pub struct Answer {
    pub refusal: u64,
    pub a: u64,
    pub b: u64,
}

impl Answer {
    pub fn is_accepted(&self) -> bool {
        self.refusal == 0
    }
}

/// `accepted`, or `refused` and the three numbers.
impl fmt::Display for Answer {
    fn fmt(&self, f: &mut fmt::Formatter<'_>) -> fmt::Result {
        if self.is_accepted() {
            return f.write_str("accepted");
        }
        write!(f, "refused {} {} {}", self.refusal, self.a, self.b)
    }
}

/// The exported functions. Nothing checks these declarations against the Rattle source, so they are few: numbers,
/// a slice as its pointer and then its length, and an answer of three numbers by value.
mod exported {
    use super::Answer;

    extern "C" {
        pub fn bench_read(text: *const u8, text_len: usize) -> Answer;
        pub fn bench_check(text: *const u8, text_len: usize) -> Answer;
        pub fn bench_evaluate(
            text: *const u8,
            text_len: usize,
            inputs: *const u64,
            inputs_len: usize,
            store: *mut u64,
            store_len: usize,
        ) -> Answer;
    }
}

/// Refusals 0 to 4 of a text: its length, its grammar, the names of ops, types, attributes and choices, its sizes.
pub fn read(text: &[u8]) -> Answer {
    // SAFETY: the slice is valid for the call, and the function asks nothing else of its caller.
    unsafe { exported::bench_read(text.as_ptr(), text.len()) }
}

/// Refusals 0 to 8 of a text: those of [`read`], and names, typing and constraints.
pub fn check(text: &[u8]) -> Answer {
    // SAFETY: as for `read`.
    unsafe { exported::bench_check(text.as_ptr(), text.len()) }
}

/// Refusals 0 to 12 of a text on inputs over a store.
///
/// A slot is 64 bits: an unsigned or boolean value as itself, a signed one modulo 2^64. Where the answer is 0 the
/// store holds the inputs, then each op's result in text order, each tensor with its last dimension fastest. Refusals
/// 1 to 11 leave the store as it was. Refusal 12 leaves the inputs and the results before the op that met the zero
/// divisor, and zeros from that op's first slot to the last slot needed. Slots past those needed never change.
pub fn evaluate(text: &[u8], inputs: &[u64], store: &mut [u64]) -> Answer {
    // SAFETY: the three slices are valid for the call, the store, which alone is written, overlaps no other (it is
    // borrowed for writing), and the function asks nothing else of its caller.
    unsafe {
        exported::bench_evaluate(
            text.as_ptr(),
            text.len(),
            inputs.as_ptr(),
            inputs.len(),
            store.as_mut_ptr(),
            store.len(),
        )
    }
}

/// The example of the README, run as a test.
#[cfg(doctest)]
#[doc = include_str!("../../README.md")]
struct Readme;
