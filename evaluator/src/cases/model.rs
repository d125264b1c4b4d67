//! The generator's own picture of a program: what is written, before it is spelled.
//! It can hold faulty programs too, so it demands nothing.

/// An element type of 01: `i1` is unsigned with width 1.
#[derive(Clone, Copy, PartialEq, Eq, Debug)]
pub struct Element {
    pub width: u32,
    pub signed: bool,
}

const fn element(width: u32, signed: bool) -> Element {
    Element { width, signed }
}

pub const I1: Element = element(1, false);
pub const I8: Element = element(8, true);
pub const I32: Element = element(32, true);
pub const I64: Element = element(64, true);
pub const UI8: Element = element(8, false);
pub const UI64: Element = element(64, false);

/// "`i1`, signed 8, 16, 32, 64 bits and unsigned `ui8` to `ui64`".
pub const ELEMENTS: [Element; 9] =
    [I1, I8, element(16, true), I32, I64, UI8, element(16, false), element(32, false), UI64];

impl Element {
    pub fn is_boolean(self) -> bool {
        self.width == 1
    }

    pub fn lowest(self) -> i128 {
        if self.signed {
            -(1i128 << (self.width - 1))
        } else {
            0
        }
    }

    pub fn highest(self) -> i128 {
        if self.signed {
            (1i128 << (self.width - 1)) - 1
        } else {
            (1i128 << self.width) - 1
        }
    }

    /// The name of the type, a signed one without its `s`.
    pub fn name(self) -> String {
        if self.is_boolean() || self.signed {
            format!("i{}", self.width)
        } else {
            format!("ui{}", self.width)
        }
    }

    /// "an unsigned or boolean value as itself, a signed one modulo 2^64".
    pub fn slot(self, value: i128) -> u64 {
        value as u64
    }
}

/// A tensor type.
#[derive(Clone, PartialEq, Eq, Debug)]
pub struct Type {
    pub element: Element,
    pub dims: Vec<u64>,
}

impl Type {
    pub fn new(element: Element, dims: &[u64]) -> Type {
        Type { element, dims: dims.to_vec() }
    }

    pub fn scalar(element: Element) -> Type {
        Type::new(element, &[])
    }

    pub fn rank(&self) -> usize {
        self.dims.len()
    }

    /// The number of elements.
    pub fn count(&self) -> u64 {
        self.dims.iter().product()
    }

    /// The same shape with another element type.
    pub fn with_element(&self, element: Element) -> Type {
        Type { element, dims: self.dims.clone() }
    }

    /// The same element type with another shape.
    pub fn with_dims(&self, dims: Vec<u64>) -> Type {
        Type { element: self.element, dims }
    }
}

/// One literal of a dense value.
#[derive(Clone, PartialEq, Eq, Debug)]
pub enum Literal {
    Number(i128),
    Boolean(bool),
}

impl Literal {
    /// The literal of a value of an element type.
    pub fn of(element: Element, value: i128) -> Literal {
        if element.is_boolean() {
            Literal::Boolean(value != 0)
        } else {
            Literal::Number(value)
        }
    }
}

/// A dense value as it is written.
#[derive(Clone, PartialEq, Eq, Debug)]
pub enum Dense {
    One(Literal),
    List(Vec<Dense>),
}

/// The value of an attribute.
#[derive(Clone, PartialEq, Eq, Debug)]
pub enum Attr {
    Dense(Dense, Type),
    List(Vec<i128>),
    Number(i128),
    Choice(String, String),
}

#[derive(Clone, PartialEq, Eq, Debug)]
pub struct Attribute {
    pub name: String,
    pub value: Attr,
}

/// A body with its label, arguments, ops and return.
#[derive(Clone, PartialEq, Eq, Debug)]
pub struct Body {
    pub label: String,
    pub arguments: Vec<(String, Type)>,
    pub ops: Vec<Op>,
    pub last: Op,
}

/// An op as it is written; a return is one too.
#[derive(Clone, PartialEq, Eq, Debug)]
pub struct Op {
    pub results: Vec<String>,
    pub name: String,
    pub operands: Vec<String>,
    pub bodies: Vec<Body>,
    pub attributes: Vec<Attribute>,
    pub operand_types: Vec<Type>,
    pub result_types: Vec<Type>,
}

impl Op {
    /// An op of the `stablehlo` dialect without operands, bodies and attributes.
    pub fn plain(mnemonic: &str, result: &str, result_type: &Type) -> Op {
        Op {
            results: vec![result.to_string()],
            name: format!("stablehlo.{mnemonic}"),
            operands: Vec::new(),
            bodies: Vec::new(),
            attributes: Vec::new(),
            operand_types: Vec::new(),
            result_types: vec![result_type.clone()],
        }
    }

    /// A return, `func.return` or `stablehlo.return`.
    pub fn last(name: &str, operands: &[(String, Type)]) -> Op {
        Op {
            results: Vec::new(),
            name: name.to_string(),
            operands: operands.iter().map(|o| o.0.clone()).collect(),
            bodies: Vec::new(),
            attributes: Vec::new(),
            operand_types: operands.iter().map(|o| o.1.clone()).collect(),
            result_types: Vec::new(),
        }
    }

    pub fn mnemonic(&self) -> &str {
        self.name.strip_prefix("stablehlo.").unwrap_or(&self.name)
    }

    pub fn result_type(&mut self) -> &mut Type {
        &mut self.result_types[0]
    }

    pub fn push_operand(&mut self, operand: &(String, Type)) {
        self.operands.push(operand.0.clone());
        self.operand_types.push(operand.1.clone());
    }

    pub fn set_operand(&mut self, place: usize, operand: &(String, Type)) {
        self.operands[place] = operand.0.clone();
        self.operand_types[place] = operand.1.clone();
    }

    pub fn push_attribute(&mut self, name: &str, value: Attr) {
        self.attributes.push(Attribute { name: name.to_string(), value });
    }

    /// The numbers of a list attribute.
    pub fn list(&mut self, name: &str) -> &mut Vec<i128> {
        for attribute in &mut self.attributes {
            if attribute.name == name {
                if let Attr::List(numbers) = &mut attribute.value {
                    return numbers;
                }
            }
        }
        panic!("no list {name} in {}", self.name)
    }

    /// The number of a single number attribute.
    pub fn number(&mut self, name: &str) -> &mut i128 {
        for attribute in &mut self.attributes {
            if attribute.name == name {
                if let Attr::Number(number) = &mut attribute.value {
                    return number;
                }
            }
        }
        panic!("no number {name} in {}", self.name)
    }
}

/// A whole function.
#[derive(Clone, PartialEq, Eq, Debug)]
pub struct Function {
    pub name: String,
    pub inputs: Vec<(String, Type)>,
    pub outputs: Vec<Type>,
    pub ops: Vec<Op>,
    pub last: Op,
}

impl Function {
    /// The elements of the inputs together.
    pub fn input_elements(&self) -> u64 {
        self.inputs.iter().map(|i| i.1.count()).sum()
    }

    /// "Inputs and op results together", the slots that an evaluation needs.
    pub fn elements(&self) -> u64 {
        let results: u64 = self.ops.iter().flat_map(|op| &op.result_types).map(Type::count).sum();
        self.input_elements() + results
    }
}
