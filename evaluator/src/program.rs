//! A text past refusals 1 to 4, as data: what was written, with the byte of every name.
//!
//! Bodies lie in one list of the program and an op holds their places in it, so that no structure
//! nests as deep as the text does.

use crate::element::ElementType;
use crate::optable::{AttributeName, Mnemonic};

/// A shape and an element type; `si8` and `i8` are one type (01 Element types).
#[derive(Clone, PartialEq, Eq, Hash, Debug)]
pub struct TensorType {
    pub element: ElementType,
    pub shape: Vec<usize>,
}

impl TensorType {
    pub fn new(element: ElementType, shape: &[usize]) -> TensorType {
        TensorType { element, shape: shape.to_vec() }
    }

    pub fn rank(&self) -> usize {
        self.shape.len()
    }

    /// "Rank 0 has one element; a dimension of size 0 gives none" (01 Element types).
    pub fn elements(&self) -> usize {
        self.shape.iter().product()
    }

    /// As printed: `tensor<2x0xi8>`, sizes without leading zeros (OP-95).
    pub fn text(&self) -> String {
        let sizes: String = self.shape.iter().map(|size| format!("{size}x")).collect();
        format!("tensor<{sizes}{}>", self.element.name())
    }
}

/// A name with its sigil, and its first byte in the text.
#[derive(Clone, PartialEq, Eq, Debug)]
pub struct Name {
    pub at: usize,
    pub text: String,
}

/// A function's input or a body's argument.
#[derive(Clone, PartialEq, Eq, Debug)]
pub struct Value {
    pub name: Name,
    pub tensor: TensorType,
}

/// One literal of a dense value. A number is exact within 30 digits and saturates beyond, far
/// outside every type's range.
#[derive(Clone, Copy, PartialEq, Eq, Debug)]
pub enum Literal {
    Number(i128),
    Boolean(bool),
}

/// A piece of what stands inside `dense< >`, commas left out. The list is flat, so lists may nest
/// as deep as the text goes.
#[derive(Clone, Copy, PartialEq, Eq, Debug)]
pub enum DensePiece {
    Open,
    Close,
    Literal(Literal),
}

/// `dense<..> : type`.
#[derive(Clone, PartialEq, Eq, Debug)]
pub struct Dense {
    pub pieces: Vec<DensePiece>,
    pub tensor: TensorType,
}

/// The first word of `#stablehlo<comparison_direction LT>` (OP-26, OP-28).
#[derive(Clone, Copy, PartialEq, Eq, Debug)]
pub enum ChoiceKind {
    ComparisonDirection,
    ComparisonType,
}

/// The second word of `#stablehlo<comparison_direction LT>`.
#[derive(Clone, Copy, PartialEq, Eq, Hash, Debug)]
pub enum Choice {
    Eq,
    Ne,
    Ge,
    Gt,
    Le,
    Lt,
    Signed,
    Unsigned,
}

/// The four forms of an attribute's value (01 The text).
#[derive(Clone, PartialEq, Eq, Debug)]
pub enum AttributeValue {
    List(Vec<i64>),
    Number(i64),
    Choice(ChoiceKind, Choice),
    Dense(Dense),
}

#[derive(Clone, PartialEq, Eq, Debug)]
pub struct Attribute {
    pub name: AttributeName,
    pub at: usize,
    pub value: AttributeValue,
}

/// An op or a return, as written.
#[derive(Clone, PartialEq, Eq, Debug)]
pub struct Op {
    /// First byte of the quoted name.
    pub at: usize,
    pub mnemonic: Mnemonic,
    pub result_names: Vec<Name>,
    pub operands: Vec<Name>,
    pub attributes: Vec<Attribute>,
    /// Places in the program's list of bodies.
    pub bodies: Vec<usize>,
    pub operand_types: Vec<TensorType>,
    pub result_types: Vec<TensorType>,
}

impl Op {
    /// The first attribute of this name.
    pub fn attribute(&self, name: AttributeName) -> Option<&AttributeValue> {
        self.attributes.iter().find(|attribute| attribute.name == name).map(|attribute| &attribute.value)
    }

    pub fn list(&self, name: AttributeName) -> Option<&[i64]> {
        match self.attribute(name) {
            Some(AttributeValue::List(numbers)) => Some(numbers),
            _ => None,
        }
    }

    pub fn number(&self, name: AttributeName) -> Option<i64> {
        match self.attribute(name) {
            Some(AttributeValue::Number(number)) => Some(*number),
            _ => None,
        }
    }

    pub fn choice(&self, name: AttributeName) -> Option<(ChoiceKind, Choice)> {
        match self.attribute(name) {
            Some(AttributeValue::Choice(kind, choice)) => Some((*kind, *choice)),
            _ => None,
        }
    }

    pub fn dense(&self, name: AttributeName) -> Option<&Dense> {
        match self.attribute(name) {
            Some(AttributeValue::Dense(dense)) => Some(dense),
            _ => None,
        }
    }
}

/// A body in `({ })`: "label and arguments as in 000, ops, `"stablehlo.return"`" (01 The text).
#[derive(Clone, PartialEq, Eq, Debug)]
pub struct Body {
    pub label: Name,
    pub arguments: Vec<Value>,
    /// The ops before the return.
    pub ops: Vec<Op>,
    pub ret: Op,
}

/// What happens to names, in the order in which they are checked: "operands, body, result"
/// (01 The twelve refusals).
#[derive(Clone, PartialEq, Eq, Debug)]
pub enum NameEvent {
    Use(Name),
    Define(Name),
    BodyOpens,
    BodyCloses,
}

/// One function.
#[derive(Clone, PartialEq, Eq, Debug)]
pub struct Program {
    pub name: Name,
    pub inputs: Vec<Value>,
    pub outputs: Vec<TensorType>,
    /// The ops before the return; op k of the answers is `ops[k]`.
    pub ops: Vec<Op>,
    /// The return, op number `ops.len()` of the answers.
    pub ret: Op,
    pub bodies: Vec<Body>,
    /// For each op, then for the return: its names in the order of checking.
    pub names: Vec<Vec<NameEvent>>,
}

impl Program {
    /// The values of an accepted program are numbered: inputs first, then each op's result.
    pub fn value_count(&self) -> usize {
        self.inputs.len() + self.ops.len()
    }

    /// The number of the value of this name (inputs and op results; body names are not values).
    pub fn find(&self, name: &Name) -> Option<usize> {
        let input = self.inputs.iter().position(|value| value.name.text == name.text);
        input.or_else(|| {
            let defines = |op: &Op| op.result_names.iter().any(|result| result.text == name.text);
            self.ops.iter().position(defines).map(|op| self.inputs.len() + op)
        })
    }

    /// The numbers of the values that an op of an accepted program reads.
    pub fn sources(&self, op: &Op) -> Vec<usize> {
        op.operands.iter().filter_map(|name| self.find(name)).collect()
    }

    /// The type of a value of an accepted program.
    pub fn value_type(&self, value: usize) -> &TensorType {
        if value < self.inputs.len() {
            &self.inputs[value].tensor
        } else {
            &self.ops[value - self.inputs.len()].result_types[0]
        }
    }

    /// The elements of the inputs together.
    pub fn input_elements(&self) -> usize {
        self.inputs.iter().map(|value| value.tensor.elements()).sum()
    }

    /// The elements of size 3: inputs and op results together (01 Sizes).
    pub fn elements(&self) -> usize {
        (0..self.value_count()).map(|value| self.value_type(value).elements()).sum()
    }
}

/// A tensor: its type and its values in canonical order, last dimension fastest.
#[derive(Clone, PartialEq, Eq, Debug)]
pub struct Tensor {
    pub tensor: TensorType,
    pub elements: Vec<i128>,
}
