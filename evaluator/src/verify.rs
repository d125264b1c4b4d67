//! Names, typing and constraints: refusals 5 to 8 (01 The twelve refusals).
//!
//! "Then duplicate input names, then op by op names (5, 6), 7, 8, the lowest C number first."

use crate::constraints;
use crate::optable::{AttributeKind, AttributeName, Mnemonic, Operands, Row, Takes};
use crate::program::*;
use crate::Answer;
use std::collections::{HashMap, HashSet};

/// The first fault of kind 5 to 8 of a program that was read.
pub fn verify(program: &Program) -> Result<(), Answer> {
    let mut names = Names::default();
    let mut types: Types = HashMap::new();
    for input in &program.inputs {
        names.define(&input.name)?;
        types.insert(&input.name.text, &input.tensor);
    }
    for (number, op) in program.ops.iter().enumerate() {
        names.check(&program.names[number])?;
        if !is_typed(program, op, &types) {
            return Err(Answer::new(7, number, 0));
        }
        if let Some(constraint) = constraints::first_broken(program, op) {
            return Err(Answer::new(8, number, constraint));
        }
        types.insert(&op.result_names[0].text, &op.result_types[0]);
    }
    // "Ops count from 0, the return last".
    let number = program.ops.len();
    names.check(&program.names[number])?;
    if !is_typed(program, &program.ret, &types) || program.ret.operand_types != program.outputs {
        // ".. return types that aren't the header's."
        return Err(Answer::new(7, number, 0));
    }
    Ok(())
}

/// The types of the function's values defined so far, by name.
type Types<'a> = HashMap<&'a str, &'a TensorType>;

/// The visible names: one table for the function and its bodies (OP-55, OP-56). Names are compared
/// byte by byte (OP-54).
#[derive(Default)]
struct Names {
    visible: HashSet<String>,
    /// The names of every open body, innermost last.
    bodies: Vec<Vec<String>>,
}

impl Names {
    /// "Names are checked in each op as operands, body, result; the first fault answers".
    fn check(&mut self, events: &[NameEvent]) -> Result<(), Answer> {
        for event in events {
            match event {
                NameEvent::Use(name) => self.must_be_defined(name)?,
                NameEvent::Define(name) => self.define(name)?,
                NameEvent::BodyOpens => self.bodies.push(Vec::new()),
                NameEvent::BodyCloses => self.forget_body(),
            }
        }
        Ok(())
    }

    /// "5 | value name not defined before | its byte".
    fn must_be_defined(&self, name: &Name) -> Result<(), Answer> {
        if self.visible.contains(&name.text) {
            Ok(())
        } else {
            Err(Answer::new(5, name.at, 0))
        }
    }

    /// "6 | value name defined twice | its byte".
    fn define(&mut self, name: &Name) -> Result<(), Answer> {
        if !self.visible.insert(name.text.clone()) {
            return Err(Answer::new(6, name.at, 0));
        }
        if let Some(body) = self.bodies.last_mut() {
            body.push(name.text.clone());
        }
        Ok(())
    }

    /// "body names are forgotten at its closing brace" (OP-57).
    fn forget_body(&mut self) {
        for name in self.bodies.pop().unwrap_or_default() {
            self.visible.remove(&name);
        }
    }
}

/// Refusal 7 for an op or the return of the function; it has no order inside (OP-69b).
fn is_typed(program: &Program, op: &Op, types: &Types) -> bool {
    let row = op.mnemonic.row();
    has_counts(op, row)
        && operand_types_are_those_defined(op, types)
        && attributes_fit(op, row)
        && dense_values_fit(op)
        && tables_take(op, row)
        && (op.mnemonic != Mnemonic::Reduce || body_type(program, op).is_some())
}

/// "a wrong number of operands .., of results (one; return: none) or of bodies" (OP-42, OP-63).
fn has_counts(op: &Op, row: &Row) -> bool {
    let results = if op.mnemonic.is_return() { 0 } else { 1 };
    operand_count_fits(op.operands.len(), row.operands)
        && op.result_names.len() == results
        && op.result_types.len() == results
        && op.bodies.len() == row.bodies
}

/// "(concatenate: any, none breaks C3; dynamic_slice: from 1)" (OP-68).
fn operand_count_fits(count: usize, operands: Operands) -> bool {
    match operands {
        Operands::Exactly(number) => count == number,
        Operands::AtLeast(number) => count >= number,
    }
}

/// "a written operand type that isn't that of its definition", one for each operand (OP-62).
fn operand_types_are_those_defined(op: &Op, types: &Types) -> bool {
    let defined: Vec<Option<&TensorType>> =
        op.operands.iter().map(|name| types.get(name.text.as_str()).copied()).collect();
    let written: Vec<Option<&TensorType>> = op.operand_types.iter().map(Some).collect();
    defined == written
}

/// "an attribute missing, doubled, foreign to the op or of the wrong kind"; "`compare_type` of
/// compare may be absent .. No other attribute may be absent" (01 The text). Their order is free
/// (OP-69c).
fn attributes_fit(op: &Op, row: &Row) -> bool {
    let count = |name: AttributeName| op.attributes.iter().filter(|attribute| attribute.name == name).count();
    let present = row.attributes.iter().all(|&(name, kind)| match kind {
        AttributeKind::OptionalType => count(name) <= 1,
        _ => count(name) == 1,
    });
    let of_its_kind = |attribute: &Attribute| {
        row.attributes.iter().any(|&(name, kind)| name == attribute.name && is_of_kind(&attribute.value, kind))
    };
    present && op.attributes.iter().all(of_its_kind)
}

/// A choice of the other enumeration is of the wrong kind (OP-27).
fn is_of_kind(value: &AttributeValue, kind: AttributeKind) -> bool {
    match (value, kind) {
        (AttributeValue::List(_), AttributeKind::List) => true,
        (AttributeValue::Number(_), AttributeKind::Number) => true,
        (AttributeValue::Dense(_), AttributeKind::Dense) => true,
        (AttributeValue::Choice(ChoiceKind::ComparisonDirection, choice), AttributeKind::Direction) => {
            !matches!(choice, Choice::Signed | Choice::Unsigned)
        }
        (AttributeValue::Choice(ChoiceKind::ComparisonType, choice), AttributeKind::OptionalType) => {
            matches!(choice, Choice::Signed | Choice::Unsigned)
        }
        _ => false,
    }
}

fn dense_values_fit(op: &Op) -> bool {
    op.attributes.iter().all(|attribute| match &attribute.value {
        AttributeValue::Dense(dense) => dense_elements(dense).is_some(),
        _ => true,
    })
}

/// The elements of a dense value in canonical order, unless it is "of other sizes, kind or range
/// than its type" (01 refusal 7).
pub fn dense_elements(dense: &Dense) -> Option<Vec<i128>> {
    let values = literal_values(dense)?;
    if let [DensePiece::Literal(_)] = dense.pieces[..] {
        // "one literal for every element"; its kind and range count even for none (OP-64).
        return Some(vec![values[0]; dense.tensor.elements()]);
    }
    has_shape(&dense.pieces, &dense.tensor.shape).then_some(values)
}

/// Every literal as a value of the type: kind and range (OP-37).
fn literal_values(dense: &Dense) -> Option<Vec<i128>> {
    let element = dense.tensor.element;
    let literals = dense.pieces.iter().filter_map(|piece| match piece {
        DensePiece::Literal(literal) => Some(*literal),
        _ => None,
    });
    let value = |literal| match literal {
        Literal::Boolean(value) => element.is_boolean().then_some(value as i128),
        Literal::Number(value) => (element.is_integer() && element.holds(value)).then_some(value),
    };
    literals.map(value).collect()
}

/// "lists nested one level per dimension with exactly the sizes of the shape .. Rank 0 takes only
/// the literal" (01 The text, OP-65). The open lists are counted in a list of counters, one for
/// each level, at most as many as the rank.
fn has_shape(pieces: &[DensePiece], shape: &[usize]) -> bool {
    let mut counts: Vec<usize> = Vec::new();
    for piece in pieces {
        let level = counts.len();
        match piece {
            DensePiece::Open if level < shape.len() => counts.push(0),
            DensePiece::Close if level > 0 && counts[level - 1] == shape[level - 1] => {
                counts.pop();
                count_one(&mut counts);
            }
            DensePiece::Literal(_) if level == shape.len() => count_one(&mut counts),
            _ => return false,
        }
    }
    true
}

/// One more item in the innermost open list.
fn count_one(counts: &mut [usize]) {
    if let Some(count) = counts.last_mut() {
        *count += 1;
    }
}

/// "an element type or rank that the op's Inputs or Outputs table in 000 doesn't take".
fn tables_take(op: &Op, row: &Row) -> bool {
    let operands = op.operand_types.iter().enumerate().all(|(place, tensor)| {
        let entry = row.takes[place.min(row.takes.len() - 1)];
        takes(entry, tensor)
    });
    operands && op.result_types.iter().all(|tensor| takes(row.gives, tensor))
}

fn takes(entry: Takes, tensor: &TensorType) -> bool {
    match entry {
        Takes::Any => true,
        Takes::Boolean => tensor.element.is_boolean(),
        Takes::Integer => tensor.element.is_integer(),
        Takes::Signed => tensor.element.is_signed(),
        Takes::AnyRank0 => tensor.rank() == 0,
        Takes::IntegerRank0 => tensor.rank() == 0 && tensor.element.is_integer(),
    }
}

/// The ops that a reduction's body may have (01 Reductions).
pub const BODY_OPS: [Mnemonic; 7] = [
    Mnemonic::Add,
    Mnemonic::Multiply,
    Mnemonic::Maximum,
    Mnemonic::Minimum,
    Mnemonic::And,
    Mnemonic::Or,
    Mnemonic::Xor,
];

/// The one type of everything in a reduction's body, if the body is sound inside and of the form
/// "two arguments and one op of add, multiply, maximum, minimum, and, or, xor on both, each once,
/// either way round, and returns it" (01 Reductions). The seven ops take every type and have the
/// one constraint C1, so both arguments, the result and the return are of one type (OP-77).
pub fn body_type<'a>(program: &'a Program, reduce: &Op) -> Option<&'a TensorType> {
    let [body] = reduce.bodies[..] else { return None };
    let body = &program.bodies[body];
    let ([left, right], [op]) = (&body.arguments[..], &body.ops[..]) else { return None };
    let tensor = &left.tensor;
    let sound = right.tensor == *tensor
        && BODY_OPS.contains(&op.mnemonic)
        && is_on_both(op, left, right)
        && is_plain(op)
        && op.operand_types == [tensor.clone(), tensor.clone()]
        && op.result_names.len() == 1
        && op.result_types == [tensor.clone()]
        && is_plain(&body.ret)
        && returns(&body.ret, op, tensor);
    sound.then_some(tensor)
}

/// "on both, each once, either way round".
fn is_on_both(op: &Op, left: &Value, right: &Value) -> bool {
    let operands: Vec<&str> = op.operands.iter().map(|name| name.text.as_str()).collect();
    let (left, right) = (left.name.text.as_str(), right.name.text.as_str());
    operands == [left, right] || operands == [right, left]
}

/// Neither attributes nor bodies.
fn is_plain(op: &Op) -> bool {
    op.attributes.is_empty() && op.bodies.is_empty()
}

/// "and returns it".
fn returns(ret: &Op, op: &Op, tensor: &TensorType) -> bool {
    let operands: Vec<&str> = ret.operands.iter().map(|name| name.text.as_str()).collect();
    operands == [op.result_names[0].text.as_str()]
        && ret.operand_types == [tensor.clone()]
        && ret.result_names.is_empty()
        && ret.result_types.is_empty()
}
