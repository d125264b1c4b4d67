//! The grammar: refusals 1 to 4 (01 The text, Sizes, The twelve refusals; 000 Programs).
//!
//! One pass from left to right. Every token is judged as it is taken: 2 if the grammar fails at it,
//! then 3, then 4 with the lowest size number; the first fault ends the reading. So the answer is
//! "the earliest byte; at one byte 2, 3, 4". The grammar fails at a token when no text of the
//! grammar begins with what was read so far and this token (OP-00b). Bodies that are still open
//! stand in a list and open dense lists in a counter: no function calls itself.

use crate::optable::{AttributeName, Mnemonic};
use crate::program::*;
use crate::sizes;
use crate::token::{self, Kind, Token, WrittenType};
use crate::Answer;

/// A text past refusals 1 to 4, or its earliest fault.
pub fn read(text: &[u8]) -> Result<Program, Answer> {
    // "1 | text too long | its length"; "Refusals 1 to 4 come first: 1, then the earliest byte".
    if text.len() > sizes::TEXT {
        return Err(Answer::new(1, text.len(), 0));
    }
    Reader::new(text).function()
}

/// An op whose signature has not been read yet.
struct OpenOp {
    op: Op,
    /// Its attributes stood in `<{ }>`: "not both" (01 The text).
    attributes_before_body: bool,
}

/// A body whose closing brace has not been read yet, and the op that it belongs to.
struct OpenBody {
    owner: OpenOp,
    label: Name,
    arguments: Vec<Value>,
    ops: Vec<Op>,
}

/// What follows a finished op.
enum Next {
    /// Another op of the function or of the innermost open body.
    Op,
    /// The rest of an op whose last body has just been closed.
    RestOf(OpenOp),
    /// Nothing: it was the function's return.
    EndOfFunction(Op),
}

/// Whether a tensor type counts for size 3.
#[derive(Clone, Copy, PartialEq)]
enum Counted {
    Yes,
    No,
}

struct Reader<'a> {
    text: &'a [u8],
    token: Token,
    /// Elements of inputs and op results so far (size 3).
    elements: usize,
    ops: Vec<Op>,
    open: Vec<OpenBody>,
    bodies: Vec<Body>,
    /// The names of the function's current op, and those of its earlier ops.
    events: Vec<NameEvent>,
    names: Vec<Vec<NameEvent>>,
}

impl<'a> Reader<'a> {
    fn new(text: &'a [u8]) -> Reader<'a> {
        Reader {
            text,
            token: token::next(text, 0),
            elements: 0,
            ops: Vec::new(),
            open: Vec::new(),
            bodies: Vec::new(),
            events: Vec::new(),
            names: Vec::new(),
        }
    }

    // Tokens.

    /// Takes the current token and goes on to the next.
    fn take(&mut self) -> Token {
        let next = token::next(self.text, self.token.end);
        std::mem::replace(&mut self.token, next)
    }

    /// "2 | .. start of the first token at which the grammar .. fails; the length at the end".
    fn fails<T>(&self) -> Result<T, Answer> {
        Err(Answer::new(2, self.token.at, 0))
    }

    /// "3 | .. | its byte".
    fn unknown<T>(&self) -> Result<T, Answer> {
        Err(Answer::new(3, self.token.at, 0))
    }

    /// "4 | size passed | its byte | size number".
    fn passes<T>(&self, size: usize) -> Result<T, Answer> {
        Err(Answer::new(4, self.token.at, size))
    }

    fn is(&self, kind: &Kind) -> bool {
        self.token.kind == *kind
    }

    fn is_mark(&self, mark: u8) -> bool {
        self.is(&Kind::Mark(mark))
    }

    /// Takes a mark if it stands here.
    fn takes_mark(&mut self, mark: u8) -> bool {
        let there = self.is_mark(mark);
        if there {
            self.take();
        }
        there
    }

    fn expect(&mut self, kind: Kind) -> Result<(), Answer> {
        if self.is(&kind) {
            self.take();
            Ok(())
        } else {
            self.fails()
        }
    }

    fn expect_mark(&mut self, mark: u8) -> Result<(), Answer> {
        self.expect(Kind::Mark(mark))
    }

    fn expect_word(&mut self, word: &str) -> Result<(), Answer> {
        self.expect(Kind::Word(word.to_string()))
    }

    // The function.

    /// 000 Func, one only: "One StableHLO function as text" (OP-16, OP-17).
    fn function(mut self) -> Result<Program, Answer> {
        self.expect(Kind::FuncFunc)?;
        let name = self.function_name()?;
        let inputs = self.values(Counted::Yes)?;
        let outputs = self.outputs()?;
        self.expect_mark(b'{')?;
        let ret = self.function_ops()?;
        self.expect_mark(b'}')?;
        if !self.is(&Kind::End) {
            return self.fails();
        }
        Ok(Program { name, inputs, outputs, ops: self.ops, ret, bodies: self.bodies, names: self.names })
    }

    fn function_name(&mut self) -> Result<Name, Answer> {
        match &self.token.kind {
            Kind::FunctionName(_) => self.name(0),
            _ => self.fails(),
        }
    }

    /// 000 FuncInputs, for the function and for bodies: '(' [FuncInput {',' FuncInput}] ')'.
    fn values(&mut self, counted: Counted) -> Result<Vec<Value>, Answer> {
        let mut values = Vec::new();
        self.expect_mark(b'(')?;
        if self.takes_mark(b')') {
            return Ok(values);
        }
        loop {
            let name = self.value_name(values.len())?;
            self.expect_mark(b':')?;
            let tensor = self.value_type(0, counted)?;
            values.push(Value { name, tensor });
            if !self.takes_mark(b',') {
                break;
            }
        }
        self.expect_mark(b')')?;
        Ok(values)
    }

    /// 000 FuncOutputs: ['->' FuncOutput {',' FuncOutput}] (OP-13, OP-14, OP-15).
    fn outputs(&mut self) -> Result<Vec<TensorType>, Answer> {
        if !self.is(&Kind::Arrow) {
            return Ok(Vec::new());
        }
        self.take();
        self.value_types(Counted::No)
    }

    /// ValueType {',' ValueType}.
    fn value_types(&mut self, counted: Counted) -> Result<Vec<TensorType>, Answer> {
        let mut types = Vec::new();
        loop {
            types.push(self.value_type(types.len(), counted)?);
            if !self.takes_mark(b',') {
                return Ok(types);
            }
        }
    }

    // Names and types.

    /// A value name; `place` is its number in a list of operands, inputs or results (size 5).
    fn value_name(&mut self, place: usize) -> Result<Name, Answer> {
        match &self.token.kind {
            Kind::ValueName(_) => self.name(place),
            _ => self.fails(),
        }
    }

    /// Takes a name with its sigil, judged by sizes 5 and 8, the lower number first.
    fn name(&mut self, place: usize) -> Result<Name, Answer> {
        if place >= sizes::VALUES {
            return self.passes(5);
        }
        if self.token.end - self.token.at > sizes::NAME {
            return self.passes(8);
        }
        let token = self.take();
        match token.kind {
            Kind::ValueName(text) | Kind::FunctionName(text) | Kind::Label(text) => Ok(Name { at: token.at, text }),
            _ => Err(Answer::new(2, token.at, 0)),
        }
    }

    /// 000 ValueType. `token` and `tuple` are value types of 000 that are not in paper 01: 3; every
    /// other word is 2 (OP-22).
    fn value_type(&mut self, place: usize, counted: Counted) -> Result<TensorType, Answer> {
        match &self.token.kind {
            Kind::Word(word) if word == "token" || word == "tuple" => self.unknown(),
            _ => self.tensor_type(place, counted),
        }
    }

    /// 000 TensorType, judged by sizes 1, 2, 3 and 5 in this order (OP-53).
    fn tensor_type(&mut self, place: usize, counted: Counted) -> Result<TensorType, Answer> {
        let Kind::TensorType(written) = self.token.kind.clone() else { return self.fails() };
        let tensor = self.known_type(&written)?;
        if counted == Counted::Yes {
            self.elements += tensor.elements();
        }
        if self.elements > sizes::ELEMENTS {
            return self.passes(3);
        }
        if place >= sizes::VALUES {
            return self.passes(5);
        }
        self.take();
        Ok(tensor)
    }

    /// 3 for an element name or a size `?` not in paper 01, then sizes 1 and 2 (OP-32, OP-50).
    fn known_type(&self, written: &WrittenType) -> Result<TensorType, Answer> {
        let Some(element) = written.element else { return self.unknown() };
        let Some(written_sizes) = written.sizes.iter().copied().collect::<Option<Vec<i128>>>() else {
            return self.unknown();
        };
        if let Some(size) = sizes::passed_by_shape(&written_sizes) {
            return self.passes(size);
        }
        let shape = written_sizes.into_iter().map(|size| size as usize).collect();
        Ok(TensorType { element, shape })
    }

    // Ops.

    /// 000 FuncBody: ops and `"func.return"` last. Gives the return.
    fn function_ops(&mut self) -> Result<Op, Answer> {
        loop {
            let mut open = self.op_until_body()?;
            if self.takes_mark(b'(') {
                self.body_opens(open)?;
                continue;
            }
            loop {
                let op = self.op_after_body(open)?;
                match self.place(op)? {
                    Next::Op => break,
                    Next::RestOf(owner) => open = owner,
                    Next::EndOfFunction(ret) => return Ok(ret),
                }
            }
        }
    }

    /// 000 Op up to its bodies: [OpOutputs] OpName OpInputValues, and attributes in `<{ }>`.
    fn op_until_body(&mut self) -> Result<OpenOp, Answer> {
        let result_names = self.result_names()?;
        let at = self.token.at;
        let mnemonic = self.op_name()?;
        let operands = self.operands()?;
        let attributes_before_body = self.takes_mark(b'<');
        let mut attributes = Vec::new();
        if attributes_before_body {
            attributes = self.attributes()?;
            self.expect_mark(b'>')?;
        }
        self.events.extend(operands.iter().cloned().map(NameEvent::Use));
        let op = Op {
            at,
            mnemonic,
            result_names,
            operands,
            attributes,
            bodies: Vec::new(),
            operand_types: Vec::new(),
            result_types: Vec::new(),
        };
        Ok(OpenOp { op, attributes_before_body })
    }

    /// 000 OpOutputs: [OpOutput {',' OpOutput} '='].
    fn result_names(&mut self) -> Result<Vec<Name>, Answer> {
        let mut names = Vec::new();
        if !matches!(self.token.kind, Kind::ValueName(_)) {
            return Ok(names);
        }
        loop {
            names.push(self.value_name(names.len())?);
            if !self.takes_mark(b',') {
                break;
            }
        }
        self.expect_mark(b'=')?;
        Ok(names)
    }

    /// 000 OpName. "either return elsewhere is 2" (OP-41); a name not in the op table is 3 (OP-24);
    /// the 257th op of the function passes size 4 (OP-48).
    fn op_name(&mut self) -> Result<Mnemonic, Answer> {
        let Kind::Quoted(name) = &self.token.kind else { return self.fails() };
        let in_body = !self.open.is_empty();
        let Some(mnemonic) = Mnemonic::of_name(name) else { return self.unknown() };
        let misplaced = if in_body { Mnemonic::FuncReturn } else { Mnemonic::BodyReturn };
        if mnemonic == misplaced {
            return self.fails();
        }
        if !in_body && !mnemonic.is_return() && self.ops.len() >= sizes::OPS {
            return self.passes(4);
        }
        self.take();
        Ok(mnemonic)
    }

    /// 000 OpInputValues: '(' [OpInputValue {',' OpInputValue}] ')'.
    fn operands(&mut self) -> Result<Vec<Name>, Answer> {
        let mut operands = Vec::new();
        self.expect_mark(b'(')?;
        if self.takes_mark(b')') {
            return Ok(operands);
        }
        loop {
            operands.push(self.value_name(operands.len())?);
            if !self.takes_mark(b',') {
                break;
            }
        }
        self.expect_mark(b')')?;
        Ok(operands)
    }

    /// 000 Op from its bodies on: attributes in `{ }` unless they stood in `<{ }>`, ':' OpSignature.
    fn op_after_body(&mut self, open: OpenOp) -> Result<Op, Answer> {
        let mut op = open.op;
        if self.is_mark(b'{') && !open.attributes_before_body {
            op.attributes = self.attributes()?;
        }
        self.expect_mark(b':')?;
        op.operand_types = self.types_in_parentheses(Counted::No)?;
        self.expect(Kind::Arrow)?;
        op.result_types = self.result_types()?;
        self.events.extend(op.result_names.iter().cloned().map(NameEvent::Define));
        Ok(op)
    }

    /// "result types in `( )`, or one bare" (01 The text); those of the function's ops count for
    /// size 3, "body values not counted" (OP-46, OP-47).
    fn result_types(&mut self) -> Result<Vec<TensorType>, Answer> {
        let counted = if self.open.is_empty() { Counted::Yes } else { Counted::No };
        if self.is_mark(b'(') {
            return self.types_in_parentheses(counted);
        }
        Ok(vec![self.value_type(0, counted)?])
    }

    /// '(' [ValueType {',' ValueType}] ')'.
    fn types_in_parentheses(&mut self, counted: Counted) -> Result<Vec<TensorType>, Answer> {
        self.expect_mark(b'(')?;
        if self.takes_mark(b')') {
            return Ok(Vec::new());
        }
        let types = self.value_types(counted)?;
        self.expect_mark(b')')?;
        Ok(types)
    }

    // Bodies.

    /// 000 OpInputFunc up to its ops: '{' Unused FuncInputs ':' (OP-40).
    fn body_opens(&mut self, owner: OpenOp) -> Result<(), Answer> {
        self.expect_mark(b'{')?;
        let label = match &self.token.kind {
            Kind::Label(_) => self.name(0)?,
            _ => return self.fails(),
        };
        let arguments = self.values(Counted::No)?;
        self.expect_mark(b':')?;
        self.events.push(NameEvent::BodyOpens);
        self.events.extend(arguments.iter().map(|value| NameEvent::Define(value.name.clone())));
        self.open.push(OpenBody { owner, label, arguments, ops: Vec::new() });
        Ok(())
    }

    /// Puts a finished op where it belongs. After a return the closing brace must follow.
    fn place(&mut self, op: Op) -> Result<Next, Answer> {
        if op.mnemonic == Mnemonic::BodyReturn {
            return self.body_closes(op);
        }
        if let Some(body) = self.open.last_mut() {
            body.ops.push(op);
            return Ok(Next::Op);
        }
        self.names.push(std::mem::take(&mut self.events));
        if op.mnemonic == Mnemonic::FuncReturn {
            return Ok(Next::EndOfFunction(op));
        }
        self.ops.push(op);
        Ok(Next::Op)
    }

    /// The end of a body, then a further body of its op or the `)` after the last (OP-38).
    fn body_closes(&mut self, ret: Op) -> Result<Next, Answer> {
        self.expect_mark(b'}')?;
        self.events.push(NameEvent::BodyCloses);
        let Some(body) = self.open.pop() else { return self.fails() };
        let mut owner = body.owner;
        owner.op.bodies.push(self.bodies.len());
        self.bodies.push(Body { label: body.label, arguments: body.arguments, ops: body.ops, ret });
        if self.takes_mark(b',') {
            self.body_opens(owner)?;
            return Ok(Next::Op);
        }
        self.expect_mark(b')')?;
        Ok(Next::RestOf(owner))
    }

    // Attributes.

    /// 000 OpInputAttrs: '{' OpInputAttr {',' OpInputAttr} '}', never empty (OP-29).
    fn attributes(&mut self) -> Result<Vec<Attribute>, Answer> {
        let mut attributes = Vec::new();
        self.expect_mark(b'{')?;
        loop {
            attributes.push(self.attribute()?);
            if !self.takes_mark(b',') {
                break;
            }
        }
        self.expect_mark(b'}')?;
        Ok(attributes)
    }

    /// 000 OpInputAttr; a name that no op of paper 01 has is 3 (OP-25, OP-31).
    fn attribute(&mut self) -> Result<Attribute, Answer> {
        let at = self.token.at;
        let Kind::Word(word) = &self.token.kind else { return self.fails() };
        let Some(name) = AttributeName::of_name(word) else { return self.unknown() };
        self.take();
        self.expect_mark(b'=')?;
        let value = self.attribute_value()?;
        Ok(Attribute { name, at, value })
    }

    /// The four forms that 01 lists, and no other (OP-00, OP-30).
    fn attribute_value(&mut self) -> Result<AttributeValue, Answer> {
        match &self.token.kind {
            Kind::Word(word) if word == "array" => self.number_list(),
            Kind::Word(word) if word == "dense" => self.dense(),
            Kind::Number(_) => self.single_number(),
            Kind::Stablehlo => self.choice(),
            _ => self.fails(),
        }
    }

    /// "Number lists are `array<i64: ..>` (empty: `array<i64>`)" (OP-42c).
    fn number_list(&mut self) -> Result<AttributeValue, Answer> {
        let mut numbers = Vec::new();
        self.take();
        self.expect_mark(b'<')?;
        self.expect_word("i64")?;
        if self.takes_mark(b':') {
            loop {
                numbers.push(self.attribute_number(numbers.len())?);
                if !self.takes_mark(b',') {
                    break;
                }
            }
        }
        self.expect_mark(b'>')?;
        Ok(AttributeValue::List(numbers))
    }

    /// "single numbers `0 : i64` (`i64` in both, else 2)".
    fn single_number(&mut self) -> Result<AttributeValue, Answer> {
        let number = self.attribute_number(0)?;
        self.expect_mark(b':')?;
        self.expect_word("i64")?;
        Ok(AttributeValue::Number(number))
    }

    /// An attribute number; `place` is its number in a list (size 6), then size 7 (OP-52, OP-53).
    fn attribute_number(&mut self, place: usize) -> Result<i64, Answer> {
        let Kind::Number(value) = self.token.kind else { return self.fails() };
        if place >= sizes::LIST {
            return self.passes(6);
        }
        let Some(number) = sizes::attribute_number(value) else { return self.passes(7) };
        self.take();
        Ok(number)
    }

    /// "choices `#stablehlo<comparison_direction LT>`" (OP-26, OP-27, OP-28).
    fn choice(&mut self) -> Result<AttributeValue, Answer> {
        self.take();
        self.expect_mark(b'<')?;
        let kind = self.known_word(choice_kind)?;
        let choice = self.known_word(choice_of_name)?;
        self.expect_mark(b'>')?;
        Ok(AttributeValue::Choice(kind, choice))
    }

    /// A word with a meaning in paper 01; any other word is 3.
    fn known_word<T>(&mut self, meaning: fn(&str) -> Option<T>) -> Result<T, Answer> {
        let Kind::Word(word) = &self.token.kind else { return self.fails() };
        let Some(meaning) = meaning(word) else { return self.unknown() };
        self.take();
        Ok(meaning)
    }

    /// "constants `dense<..> : type`"; after the colon every word is 2 (OP-22).
    fn dense(&mut self) -> Result<AttributeValue, Answer> {
        self.take();
        self.expect_mark(b'<')?;
        let pieces = self.dense_value()?;
        self.expect_mark(b'>')?;
        self.expect_mark(b':')?;
        let tensor = self.tensor_type(0, Counted::No)?;
        Ok(AttributeValue::Dense(Dense { pieces, tensor }))
    }

    /// "one literal .., or lists nested" (01 The text; OP-34, OP-35). Sizes of lists are a matter of
    /// typing, and no size bounds the nesting (OP-36).
    fn dense_value(&mut self) -> Result<Vec<DensePiece>, Answer> {
        let mut pieces = Vec::new();
        let mut depth = 0usize;
        loop {
            if self.takes_mark(b'[') {
                pieces.push(DensePiece::Open);
                depth += 1;
                if !self.is_mark(b']') {
                    continue;
                }
            } else {
                pieces.push(DensePiece::Literal(self.literal()?));
            }
            while depth > 0 && self.takes_mark(b']') {
                pieces.push(DensePiece::Close);
                depth -= 1;
            }
            if depth == 0 {
                return Ok(pieces);
            }
            self.expect_mark(b',')?;
        }
    }

    /// "Booleans are `true` and `false`; numbers are decimal."
    fn literal(&mut self) -> Result<Literal, Answer> {
        let literal = match &self.token.kind {
            Kind::Number(value) => Literal::Number(*value),
            Kind::Word(word) if word == "true" => Literal::Boolean(true),
            Kind::Word(word) if word == "false" => Literal::Boolean(false),
            _ => return self.fails(),
        };
        self.take();
        Ok(literal)
    }
}

fn choice_kind(word: &str) -> Option<ChoiceKind> {
    match word {
        "comparison_direction" => Some(ChoiceKind::ComparisonDirection),
        "comparison_type" => Some(ChoiceKind::ComparisonType),
        _ => None,
    }
}

/// "`?`, FLOAT, TOTALORDER too" are 3 (01 refusal 3), so they have no meaning here (OP-33b).
fn choice_of_name(word: &str) -> Option<Choice> {
    match word {
        "EQ" => Some(Choice::Eq),
        "NE" => Some(Choice::Ne),
        "GE" => Some(Choice::Ge),
        "GT" => Some(Choice::Gt),
        "LE" => Some(Choice::Le),
        "LT" => Some(Choice::Lt),
        "SIGNED" => Some(Choice::Signed),
        "UNSIGNED" => Some(Choice::Unsigned),
        _ => None,
    }
}
