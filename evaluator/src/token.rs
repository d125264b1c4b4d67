//! Tokens (01 The text).
//!
//! "Tokens, as long as they can be, are: a name with its sigil, a word, a number with its sign,
//! `func.func`, `#stablehlo`, `"word.word"`, a tensor type, `->`, a single mark." A byte that begins
//! no other token is a mark (OP-07).

use crate::element::ElementType;

/// What a token is. `End` stands at the text's end.
#[derive(Clone, PartialEq, Eq, Debug)]
pub enum Kind {
    ValueName(String),
    FunctionName(String),
    Label(String),
    Word(String),
    Number(i128),
    FuncFunc,
    Stablehlo,
    /// The name between the quotes.
    Quoted(String),
    TensorType(WrittenType),
    Arrow,
    Mark(u8),
    End,
}

/// A token with its first byte: "a byte is its token's first" (01 The twelve refusals).
#[derive(Clone, PartialEq, Eq, Debug)]
pub struct Token {
    pub at: usize,
    pub end: usize,
    pub kind: Kind,
}

/// A tensor type as written: `None` is the size `?`; no element is one not in paper 01.
#[derive(Clone, PartialEq, Eq, Debug)]
pub struct WrittenType {
    pub sizes: Vec<Option<i128>>,
    pub element: Option<ElementType>,
}

/// 000 Identifiers: "letter ::= 'a' | ... | 'z' | 'A' | ... | 'Z' | '_'".
pub fn is_letter(byte: u8) -> bool {
    byte.is_ascii_alphabetic() || byte == b'_'
}

fn is_letter_or_digit(byte: u8) -> bool {
    is_letter(byte) || byte.is_ascii_digit()
}

/// The first token at or after a place in the text.
pub fn next(text: &[u8], from: usize) -> Token {
    let at = skip_white_space(text, from);
    if at >= text.len() {
        return Token { at: text.len(), end: text.len(), kind: Kind::End };
    }
    let (end, kind) = token_at(text, at);
    Token { at, end, kind }
}

/// "White space is space, tab, CR, LF, and `//` to the line's end"; a line ends at LF (OP-04).
fn skip_white_space(text: &[u8], from: usize) -> usize {
    let mut at = from;
    loop {
        match text.get(at) {
            Some(b' ' | b'\t' | b'\r' | b'\n') => at += 1,
            Some(b'/') if text.get(at + 1) == Some(&b'/') => at = run(text, at, |byte| byte != b'\n'),
            _ => return at,
        }
    }
}

/// The end of the longest run of bytes of a class.
fn run(text: &[u8], from: usize, class: fn(u8) -> bool) -> usize {
    let mut at = from;
    while at < text.len() && class(text[at]) {
        at += 1;
    }
    at
}

fn token_at(text: &[u8], at: usize) -> (usize, Kind) {
    let found = match text[at] {
        b'%' => name(text, at, true).map(|(end, name)| (end, Kind::ValueName(name))),
        b'@' => name(text, at, false).map(|(end, name)| (end, Kind::FunctionName(name))),
        b'^' => name(text, at, true).map(|(end, name)| (end, Kind::Label(name))),
        b'"' => quoted(text, at),
        b'#' => text[at..].starts_with(b"#stablehlo").then(|| (at + 10, Kind::Stablehlo)),
        b'-' if text.get(at + 1) == Some(&b'>') => Some((at + 2, Kind::Arrow)),
        b'-' | b'+' | b'0'..=b'9' => integer(text, at).map(|(end, value)| (end, Kind::Number(value))),
        _ => word_or_longer(text, at),
    };
    found.unwrap_or((at + 1, Kind::Mark(text[at])))
}

/// 000 Identifiers and Unused: the sigil, then digits or a word; a FuncId takes only a word. `%0a`
/// is `%0` and the word `a` (OP-01).
fn name(text: &[u8], at: usize, digits_allowed: bool) -> Option<(usize, String)> {
    let end = match text.get(at + 1) {
        Some(byte) if byte.is_ascii_digit() && digits_allowed => run(text, at + 1, |byte| byte.is_ascii_digit()),
        _ => word(text, at + 1)?,
    };
    Some((end, ascii(&text[at..end])))
}

/// The end of a word: letter {letter | digit} (OP-02).
fn word(text: &[u8], at: usize) -> Option<usize> {
    match text.get(at) {
        Some(&byte) if is_letter(byte) => Some(run(text, at, is_letter_or_digit)),
        _ => None,
    }
}

/// The bytes of a name, word or number, which are all ASCII.
fn ascii(bytes: &[u8]) -> String {
    bytes.iter().map(|&byte| byte as char).collect()
}

/// `"word.word"` without white space or escapes (OP-09).
fn quoted(text: &[u8], at: usize) -> Option<(usize, Kind)> {
    let dot = word(text, at + 1).filter(|&end| text.get(end) == Some(&b'.'))?;
    let quote = word(text, dot + 1).filter(|&end| text.get(end) == Some(&b'"'))?;
    Some((quote + 1, Kind::Quoted(ascii(&text[at + 1..quote]))))
}

/// A word, `func.func` or a tensor type, "as long as they can be": `func.funcx` is `func.func` and
/// `x` (OP-03).
fn word_or_longer(text: &[u8], at: usize) -> Option<(usize, Kind)> {
    if text[at..].starts_with(b"func.func") {
        return Some((at + 9, Kind::FuncFunc));
    }
    if let Some((end, written)) = tensor_type(text, at) {
        return Some((end, Kind::TensorType(written)));
    }
    word(text, at).map(|end| (end, Kind::Word(ascii(&text[at..end]))))
}

/// 000 IntegerLiteral, decimal only (01: "numbers are decimal", OP-05, OP-06).
fn integer(text: &[u8], at: usize) -> Option<(usize, i128)> {
    let negative = text[at] == b'-';
    let digits = if matches!(text[at], b'-' | b'+') { at + 1 } else { at };
    let end = digits_end(text, digits)?;
    let magnitude = decimal(&text[digits..end]);
    Some((end, if negative { -magnitude } else { magnitude }))
}

fn digits_end(text: &[u8], at: usize) -> Option<usize> {
    let end = run(text, at, |byte| byte.is_ascii_digit());
    (end > at).then_some(end)
}

/// The value of decimal digits; above 10^30, far past every limit of paper 01, it stays there.
fn decimal(digits: &[u8]) -> i128 {
    let ceiling = 10i128.pow(30);
    digits.iter().fold(0, |value, digit| (value * 10 + (digit - b'0') as i128).min(ceiling))
}

/// 000 TensorType and QuantizedTensorType as one token without white space (OP-10, OP-11, OP-21).
fn tensor_type(text: &[u8], at: usize) -> Option<(usize, WrittenType)> {
    let mut at = literally(text, at, b"tensor<")?;
    let mut sizes = Vec::new();
    while let Some((end, size)) = dimension(text, at) {
        sizes.push(size);
        at = end;
    }
    let (end, element) = element_type(text, at)?;
    let end = literally(text, end, b">")?;
    Some((end, WrittenType { sizes, element }))
}

/// 000 Shape: "DimensionSize 'x'", with DimensionSize digits or `?`.
fn dimension(text: &[u8], at: usize) -> Option<(usize, Option<i128>)> {
    if let Some(end) = literally(text, at, b"?x") {
        return Some((end, None));
    }
    let end = digits_end(text, at)?;
    let size = decimal(&text[at..end]);
    Some((literally(text, end, b"x")?, Some(size)))
}

/// A word, `complex<word>` or `!quant.uniform<..>`; the last two are never in paper 01 (OP-21).
fn element_type(text: &[u8], at: usize) -> Option<(usize, Option<ElementType>)> {
    if let Some(end) = complex(text, at).or_else(|| quantized(text, at)) {
        return Some((end, None));
    }
    let end = word(text, at)?;
    Some((end, ElementType::of_name(&ascii(&text[at..end]))))
}

/// 000 ComplexType.
fn complex(text: &[u8], at: usize) -> Option<usize> {
    let at = literally(text, at, b"complex<")?;
    let at = word(text, at)?;
    literally(text, at, b">")
}

/// 000 QuantizedTensorElementType.
fn quantized(text: &[u8], at: usize) -> Option<usize> {
    let at = literally(text, at, b"!quant.uniform<")?;
    let at = word(text, at)?;
    let at = storage_range(text, at)?;
    let at = literally(text, at, b":")?;
    let at = word(text, at)?;
    let at = optional_integer(text, at)?;
    let at = literally(text, at, b",")?;
    let at = quantization_parameters(text, at)?;
    literally(text, at, b">")
}

/// ['<' QuantizationStorageMin ':' QuantizationStorageMax '>'].
fn storage_range(text: &[u8], at: usize) -> Option<usize> {
    let Some(at) = literally(text, at, b"<") else { return Some(at) };
    let at = signed_digits(text, at)?;
    let at = literally(text, at, b":")?;
    let at = signed_digits(text, at)?;
    literally(text, at, b">")
}

/// [':' IntegerLiteral], for QuantizationDimension and QuantizationZeroPoint.
fn optional_integer(text: &[u8], at: usize) -> Option<usize> {
    match literally(text, at, b":") {
        None => Some(at),
        Some(at) => signed_digits(text, at),
    }
}

/// QuantizationParameter | '{' QuantizationParameter {',' QuantizationParameter} '}'.
fn quantization_parameters(text: &[u8], at: usize) -> Option<usize> {
    let Some(at) = literally(text, at, b"{") else { return quantization_parameter(text, at) };
    let mut at = quantization_parameter(text, at)?;
    while let Some(next) = literally(text, at, b",") {
        at = quantization_parameter(text, next)?;
    }
    literally(text, at, b"}")
}

/// QuantizationScale [':' QuantizationZeroPoint].
fn quantization_parameter(text: &[u8], at: usize) -> Option<usize> {
    let at = float(text, at)?;
    optional_integer(text, at)
}

/// 000 FloatLiteral, decimal only: SignPart IntegerPart FractionalPart ScientificPart.
fn float(text: &[u8], at: usize) -> Option<usize> {
    let mut at = signed_digits(text, at)?;
    if let Some(fraction) = literally(text, at, b".") {
        at = digits_end(text, fraction).unwrap_or(fraction);
    }
    match text.get(at) {
        Some(b'e' | b'E') => signed_digits(text, at + 1),
        _ => Some(at),
    }
}

fn signed_digits(text: &[u8], at: usize) -> Option<usize> {
    let digits = if matches!(text.get(at), Some(b'-' | b'+')) { at + 1 } else { at };
    digits_end(text, digits)
}

/// The end of these bytes, if they stand here.
fn literally(text: &[u8], at: usize, bytes: &[u8]) -> Option<usize> {
    text[at.min(text.len())..].starts_with(bytes).then_some(at + bytes.len())
}
