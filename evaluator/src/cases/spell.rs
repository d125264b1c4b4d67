//! From the model to pieces (one for each token, with its role) and from pieces to bytes.
//! Spelling is varied: white space and comments, `si8` or `i8`, attributes in `<{ }>` or `{ }`,
//! result types in `( )` or bare, signs and leading zeros of numbers.

use super::model::{Attr, Attribute, Body, Dense, Function, Literal, Op, Type};
use crate::random::Random;

/// What a piece stands for.
#[derive(Clone, Copy, PartialEq, Eq, Debug)]
pub enum Role {
    FunctionName,
    InputName,
    InputType,
    OutputType,
    ResultName,
    OpName,
    OperandName,
    OperandType,
    ResultType,
    AttributeName,
    ListNumber,
    SingleNumber,
    ChoiceKind,
    Choice,
    Literal,
    DenseType,
    Label,
    ArgumentName,
    ArgumentType,
    Word,
    Mark,
}

/// One token as it will be written.
#[derive(Clone, Debug)]
pub struct Piece {
    pub bytes: Vec<u8>,
    pub role: Role,
    /// True where a tidy layout starts a new line.
    pub line: bool,
}

impl Piece {
    pub fn new(text: &str, role: Role) -> Piece {
        Piece { bytes: text.as_bytes().to_vec(), role, line: false }
    }

    pub fn is(&self, text: &str) -> bool {
        self.bytes == text.as_bytes()
    }
}

/// Which spellings are chosen and how often the rare ones are.
#[derive(Clone, Copy, Debug)]
pub struct Style {
    pub layout: Layout,
    /// One number in so many has a sign or a leading zero that it does not need; 0 for none.
    pub odd_numbers: u64,
    /// One signed type in so many is written with its `s`; 0 for none.
    pub long_types: u64,
}

/// How white space stands between tokens.
#[derive(Clone, Copy, PartialEq, Eq, Debug)]
pub enum Layout {
    /// None that is not needed.
    Compact,
    /// One op in a line.
    Lines,
    /// Any white space and comments anywhere.
    Wild,
}

impl Style {
    pub const TIDY: Style = Style { layout: Layout::Lines, odd_numbers: 0, long_types: 0 };

    pub fn random(random: &mut Random) -> Style {
        let layout = match random.below(6) {
            0 => Layout::Compact,
            1 | 2 => Layout::Wild,
            _ => Layout::Lines,
        };
        let odd_numbers = *random.pick(&[0, 0, 6, 25]);
        let long_types = *random.pick(&[0, 2, 5]);
        Style { layout, odd_numbers, long_types }
    }
}

/// The pieces of a function.
pub fn pieces_of(function: &Function, style: Style, random: &mut Random) -> Vec<Piece> {
    let mut speller = Speller { random, style, pieces: Vec::new() };
    speller.function(function);
    speller.pieces
}

struct Speller<'r> {
    random: &'r mut Random,
    style: Style,
    pieces: Vec<Piece>,
}

impl Speller<'_> {
    fn put(&mut self, text: &str, role: Role) {
        self.pieces.push(Piece::new(text, role));
    }

    fn mark(&mut self, text: &str) {
        self.put(text, Role::Mark);
    }

    fn word(&mut self, text: &str) {
        self.put(text, Role::Word);
    }

    fn rare(&mut self, one_in: u64) -> bool {
        one_in > 0 && self.random.chance(1, one_in)
    }

    fn function(&mut self, function: &Function) {
        self.word("func.func");
        self.put(&function.name, Role::FunctionName);
        self.arguments(&function.inputs, Role::InputName, Role::InputType);
        if !function.outputs.is_empty() {
            self.mark("->");
            self.types(&function.outputs, Role::OutputType);
        }
        self.mark("{");
        for op in &function.ops {
            self.op(op);
        }
        self.op(&function.last);
        self.mark("}");
        self.pieces.last_mut().unwrap().line = true;
    }

    /// `(%a: type, ..)` of a header or a body.
    fn arguments(&mut self, list: &[(String, Type)], name: Role, kind: Role) {
        self.mark("(");
        for (i, argument) in list.iter().enumerate() {
            self.comma(i);
            self.put(&argument.0, name);
            self.mark(":");
            self.tensor(&argument.1, kind);
        }
        self.mark(")");
    }

    fn comma(&mut self, place: usize) {
        if place > 0 {
            self.mark(",");
        }
    }

    fn types(&mut self, list: &[Type], role: Role) {
        for (i, tensor) in list.iter().enumerate() {
            self.comma(i);
            self.tensor(tensor, role);
        }
    }

    fn names(&mut self, list: &[String], role: Role) {
        for (i, name) in list.iter().enumerate() {
            self.comma(i);
            self.put(name, role);
        }
    }

    fn tensor(&mut self, tensor: &Type, role: Role) {
        let mut text = String::from("tensor<");
        for dim in &tensor.dims {
            if self.rare(self.style.odd_numbers * 4) {
                text.push('0');
            }
            text.push_str(&format!("{dim}x"));
        }
        if tensor.element.signed && self.rare(self.style.long_types) {
            text.push('s');
        }
        text.push_str(&tensor.element.name());
        text.push('>');
        self.put(&text, role);
    }

    fn op(&mut self, op: &Op) {
        let first = self.pieces.len();
        if !op.results.is_empty() {
            self.names(&op.results, Role::ResultName);
            self.mark("=");
        }
        self.put(&format!("\"{}\"", op.name), Role::OpName);
        self.pieces[first].line = true;
        self.mark("(");
        self.names(&op.operands, Role::OperandName);
        self.mark(")");
        let early = self.random.chance(1, 2);
        if early {
            self.attributes(&op.attributes, true);
        }
        self.bodies(&op.bodies);
        if !early {
            self.attributes(&op.attributes, false);
        }
        self.signature(op);
    }

    fn signature(&mut self, op: &Op) {
        self.mark(":");
        self.mark("(");
        self.types(&op.operand_types, Role::OperandType);
        self.mark(")");
        self.mark("->");
        let bare = op.result_types.len() == 1 && self.random.chance(2, 3);
        if !bare {
            self.mark("(");
        }
        self.types(&op.result_types, Role::ResultType);
        if !bare {
            self.mark(")");
        }
    }

    /// `({..}, {..})`.
    fn bodies(&mut self, bodies: &[Body]) {
        if bodies.is_empty() {
            return;
        }
        self.mark("(");
        for (i, body) in bodies.iter().enumerate() {
            self.comma(i);
            self.mark("{");
            self.put(&body.label, Role::Label);
            self.arguments(&body.arguments, Role::ArgumentName, Role::ArgumentType);
            self.mark(":");
            for op in &body.ops {
                self.op(op);
            }
            self.op(&body.last);
            self.mark("}");
        }
        self.mark(")");
    }

    /// `<{ }>` before the body (early) or `{ }` after it, in any order of attributes.
    fn attributes(&mut self, attributes: &[Attribute], early: bool) {
        if attributes.is_empty() {
            return;
        }
        if early {
            self.mark("<");
        }
        self.mark("{");
        let order = self.random.permutation(attributes.len());
        for (i, place) in order.iter().enumerate() {
            self.comma(i);
            self.put(&attributes[*place].name, Role::AttributeName);
            self.mark("=");
            self.attribute_value(&attributes[*place].value);
        }
        self.mark("}");
        if early {
            self.mark(">");
        }
    }

    fn attribute_value(&mut self, value: &Attr) {
        match value {
            Attr::Dense(dense, tensor) => {
                self.word("dense");
                self.mark("<");
                self.dense(dense);
                self.mark(">");
                self.mark(":");
                self.tensor(tensor, Role::DenseType);
            }
            Attr::List(numbers) => self.list(numbers),
            Attr::Number(number) => {
                self.number(*number, Role::SingleNumber);
                self.mark(":");
                self.word("i64");
            }
            Attr::Choice(kind, choice) => {
                self.word("#stablehlo");
                self.mark("<");
                self.put(kind, Role::ChoiceKind);
                self.put(choice, Role::Choice);
                self.mark(">");
            }
        }
    }

    fn list(&mut self, numbers: &[i128]) {
        self.word("array");
        self.mark("<");
        self.word("i64");
        if !numbers.is_empty() {
            self.mark(":");
        }
        for (i, number) in numbers.iter().enumerate() {
            self.comma(i);
            self.number(*number, Role::ListNumber);
        }
        self.mark(">");
    }

    fn number(&mut self, number: i128, role: Role) {
        let mut digits = number.unsigned_abs().to_string();
        let mut sign = if number < 0 { "-" } else { "" };
        if self.rare(self.style.odd_numbers) {
            digits.insert_str(0, self.random.pick::<&str>(&["0", "00", "0000000000000000000000"]));
        }
        if number >= 0 && self.rare(self.style.odd_numbers) {
            sign = "+";
        }
        if number == 0 && self.rare(self.style.odd_numbers) {
            sign = "-";
        }
        self.put(&format!("{sign}{digits}"), role);
    }

    fn dense(&mut self, dense: &Dense) {
        match dense {
            Dense::One(Literal::Number(number)) => self.number(*number, Role::Literal),
            Dense::One(Literal::Boolean(true)) => self.put("true", Role::Literal),
            Dense::One(Literal::Boolean(false)) => self.put("false", Role::Literal),
            Dense::List(items) => {
                self.mark("[");
                for (i, item) in items.iter().enumerate() {
                    self.comma(i);
                    self.dense(item);
                }
                self.mark("]");
            }
        }
    }
}

/// A text and the byte at which each piece starts.
pub struct Text {
    pub bytes: Vec<u8>,
    pub starts: Vec<usize>,
}

/// The pieces as a text.
pub fn lay_out(pieces: &[Piece], layout: Layout, random: &mut Random) -> Text {
    let mut text = Text { bytes: Vec::new(), starts: Vec::new() };
    for (i, piece) in pieces.iter().enumerate() {
        let before = text.bytes.len();
        match layout {
            Layout::Compact => {}
            Layout::Lines => tidy_gap(&mut text.bytes, pieces, i),
            Layout::Wild => wild_gap(&mut text.bytes, random),
        }
        if before == text.bytes.len() && would_join(&text.bytes, piece) {
            text.bytes.push(*random.pick(b" \t\r\n"));
        }
        text.starts.push(text.bytes.len());
        text.bytes.extend_from_slice(&piece.bytes);
    }
    match layout {
        Layout::Compact => {}
        Layout::Lines => text.bytes.push(b'\n'),
        Layout::Wild => wild_gap(&mut text.bytes, random),
    }
    text
}

fn word_byte(byte: u8) -> bool {
    byte.is_ascii_alphanumeric() || byte == b'_'
}

/// Two words or numbers side by side would be one token.
fn would_join(before: &[u8], piece: &Piece) -> bool {
    match (before.last(), piece.bytes.first()) {
        (Some(last), Some(first)) => word_byte(*last) && word_byte(*first),
        _ => false,
    }
}

/// The white space of a tidy layout: a line for each op, a space where one is usual.
fn tidy_gap(bytes: &mut Vec<u8>, pieces: &[Piece], place: usize) {
    let piece = &pieces[place];
    if piece.line {
        bytes.extend_from_slice(if piece.is("}") { b"\n" } else { b"\n  " });
    } else if place > 0 && spaced(&pieces[place - 1], piece) {
        bytes.push(b' ');
    }
}

fn spaced(before: &Piece, piece: &Piece) -> bool {
    let opens = ["(", "[", "<"].iter().any(|m| before.is(m));
    let closes = [")", "]", ">", ",", ":", "(", "<"].iter().any(|m| piece.is(m));
    !(opens || closes) || before.is(":") || before.is("->")
}

/// Any white space, sometimes a comment, often nothing.
fn wild_gap(bytes: &mut Vec<u8>, random: &mut Random) {
    while random.chance(2, 5) {
        if random.chance(1, 12) {
            comment(bytes, random);
        } else {
            bytes.push(*random.pick(b"   \t\r\n"));
        }
    }
}

/// "`//` to the line's end": any bytes but LF, then LF.
pub fn comment(bytes: &mut Vec<u8>, random: &mut Random) {
    bytes.extend_from_slice(b"//");
    for _ in 0..random.below(8) {
        let byte = match random.below(4) {
            0 => *random.pick(b"\r\"{}(>%//\x00\xff"),
            1 => random.below(256) as u8,
            _ => random.between(32, 126) as u8,
        };
        if byte != b'\n' {
            bytes.push(byte);
        }
    }
    bytes.push(b'\n');
}
