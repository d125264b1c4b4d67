//! The stream form: cases on standard input, one answer line for each.
//!
//! A case is `case TEXT_BYTES INPUT_COUNT STORE_LENGTH SEED`, a line end, the text's bytes, a line
//! end, the inputs in decimal separated by single spaces, a line end. Slot i of the old store is
//! (SEED + i x 0x9E3779B97F4A7C15) modulo 2^64. An answer is `REFUSAL A B HASH`, HASH the FNV-1a 64
//! of the store's slots as little-endian bytes, in 16 hexadecimal digits.

use crate::Answer;
use std::io::{BufRead, Read, Write};

/// A store longer than this is bad input to the command.
pub const LONGEST_STORE: usize = 1 << 24;

#[derive(Clone, PartialEq, Eq, Debug)]
pub struct Case {
    pub text: Vec<u8>,
    pub inputs: Vec<u64>,
    pub store_length: usize,
    pub seed: u64,
}

/// The store before the evaluation.
pub fn old_store(seed: u64, length: usize) -> Vec<u64> {
    (0..length as u64).map(|i| seed.wrapping_add(i.wrapping_mul(0x9E3779B97F4A7C15))).collect()
}

/// FNV-1a 64 of the slots as little-endian bytes.
pub fn hash(store: &[u64]) -> u64 {
    let mut hash = 0xcbf29ce484222325u64;
    for slot in store {
        for byte in slot.to_le_bytes() {
            hash = (hash ^ byte as u64).wrapping_mul(0x100000001b3);
        }
    }
    hash
}

/// The answer line of a case, without its line end.
pub fn answer_line(answer: Answer, store: &[u64]) -> String {
    format!("{} {} {} {:016x}", answer.refusal, answer.a, answer.b, hash(store))
}

/// Evaluates one case.
pub fn answer_case(case: &Case) -> String {
    let mut store = old_store(case.seed, case.store_length);
    let answer = crate::evaluate(&case.text, &case.inputs, &mut store);
    answer_line(answer, &store)
}

pub fn write_case(output: &mut dyn Write, case: &Case) -> std::io::Result<()> {
    writeln!(output, "case {} {} {} {}", case.text.len(), case.inputs.len(), case.store_length, case.seed)?;
    output.write_all(&case.text)?;
    let inputs: Vec<String> = case.inputs.iter().map(|slot| slot.to_string()).collect();
    writeln!(output, "\n{}", inputs.join(" "))
}

/// The next case; nothing at the end of the stream; a reason if the stream is not in the form.
pub fn read_case(input: &mut dyn BufRead) -> Result<Option<Case>, String> {
    let Some(header) = read_line(input)? else { return Ok(None) };
    let (text_bytes, input_count, store_length, seed) = parse_header(&header)?;
    let text = read_text(input, text_bytes)?;
    let Some(line) = read_line(input)? else { return Err("the line of inputs is missing".to_string()) };
    let inputs = parse_inputs(&line, input_count)?;
    Ok(Some(Case { text, inputs, store_length, seed }))
}

/// A line without its line end; nothing at the end of the input.
fn read_line(input: &mut dyn BufRead) -> Result<Option<String>, String> {
    let mut bytes = Vec::new();
    input.read_until(b'\n', &mut bytes).map_err(|error| error.to_string())?;
    if bytes.is_empty() {
        return Ok(None);
    }
    if bytes.pop() != Some(b'\n') {
        return Err("a line without its line end".to_string());
    }
    String::from_utf8(bytes).map(Some).map_err(|_| "a line that is not text".to_string())
}

fn parse_header(line: &str) -> Result<(usize, usize, usize, u64), String> {
    let words: Vec<&str> = line.split(' ').collect();
    if words.len() != 5 || words[0] != "case" {
        return Err("expected `case TEXT_BYTES INPUT_COUNT STORE_LENGTH SEED`".to_string());
    }
    let store_length = parse_number(words[3])? as usize;
    if store_length > LONGEST_STORE {
        return Err(format!("store length {store_length} is above {LONGEST_STORE}"));
    }
    Ok((parse_number(words[1])? as usize, parse_number(words[2])? as usize, store_length, parse_number(words[4])?))
}

/// Decimal digits only, below 2^64.
pub fn parse_number(word: &str) -> Result<u64, String> {
    let digits = !word.is_empty() && word.bytes().all(|byte| byte.is_ascii_digit());
    match word.parse() {
        Ok(number) if digits => Ok(number),
        _ => Err(format!("`{}` is no number below 2^64", word.escape_default())),
    }
}

/// The text's bytes and the line end after them.
fn read_text(input: &mut dyn BufRead, text_bytes: usize) -> Result<Vec<u8>, String> {
    let mut text = Vec::new();
    input.take(text_bytes as u64).read_to_end(&mut text).map_err(|error| error.to_string())?;
    if text.len() < text_bytes {
        return Err(format!("a text of {} bytes where {text_bytes} were announced", text.len()));
    }
    let mut end = [0u8; 1];
    match input.read_exact(&mut end) {
        Ok(()) if end[0] == b'\n' => Ok(text),
        _ => Err("no line end after the text".to_string()),
    }
}

fn parse_inputs(line: &str, input_count: usize) -> Result<Vec<u64>, String> {
    let words: Vec<&str> = if line.is_empty() { Vec::new() } else { line.split(' ').collect() };
    if words.len() != input_count {
        return Err(format!("{} inputs where {input_count} were announced", words.len()));
    }
    words.into_iter().map(parse_number).collect()
}
