//! Valid programs, op by op: each maker draws operands that fit, makes them where none is at hand,
//! and works out attributes and the result's type by the rules of 000.

use super::model::{Attr, Body, Dense, Element, Function, Literal, Op, Type};
use super::values::{
    any_element, bounded, element, full_list, integer, nonzero, shape, shape_of_count, signed, value, values,
};
use crate::random::Random;

/// The 34 ops of 01.
pub const OPS: [&str; 34] = [
    "abs",
    "add",
    "and",
    "broadcast_in_dim",
    "clamp",
    "compare",
    "concatenate",
    "constant",
    "convert",
    "count_leading_zeros",
    "divide",
    "dynamic_slice",
    "iota",
    "maximum",
    "minimum",
    "multiply",
    "negate",
    "not",
    "or",
    "pad",
    "popcnt",
    "reduce",
    "remainder",
    "reshape",
    "reverse",
    "select",
    "shift_left",
    "shift_right_arithmetic",
    "shift_right_logical",
    "sign",
    "slice",
    "subtract",
    "transpose",
    "xor",
];

/// The ops that a reduction's body may have.
pub const BODY_OPS: [&str; 7] = ["add", "multiply", "maximum", "minimum", "and", "or", "xor"];

pub const DIRECTIONS: [&str; 6] = ["EQ", "NE", "GE", "GT", "LE", "LT"];

/// A label and a function's name of 32 characters.
const LONG_LABEL: &str = "^a234567890123456789012345678901";
const LONG_FUNCTION: &str = "@Z_____________________________0";

/// A value: its name and its type.
pub type Value = (String, Type);

/// What a program shall be like.
#[derive(Clone, Copy, Debug)]
pub struct Plan {
    /// The most elements of a usual tensor.
    pub most: u64,
    /// The most inputs.
    pub inputs: usize,
    /// Reductions start at the identity of their body, by a constant.
    pub identity_starts: bool,
    /// One divisor in so many is drawn without care for zeros.
    pub careless: u64,
}

impl Plan {
    pub const SMALL: Plan = Plan { most: 24, inputs: 4, identity_starts: false, careless: 8 };
}

/// How values are named.
#[derive(Clone, Copy, Debug)]
enum Naming {
    Numbers,
    Words,
    Mixed,
}

/// A program in the making.
pub struct Builder<'r> {
    pub random: &'r mut Random,
    pub plan: Plan,
    pub inputs: Vec<Value>,
    pub ops: Vec<Op>,
    /// The values defined so far.
    pub values: Vec<Value>,
    naming: Naming,
    named: u64,
}

impl<'r> Builder<'r> {
    pub fn new(random: &'r mut Random, plan: Plan) -> Builder<'r> {
        let naming = *random.pick(&[Naming::Numbers, Naming::Words, Naming::Mixed]);
        Builder { random, plan, inputs: Vec::new(), ops: Vec::new(), values: Vec::new(), naming, named: 0 }
    }

    /// A name that was not given before.
    pub fn fresh(&mut self) -> String {
        let n = self.named;
        self.named += 1;
        let form = match self.naming {
            Naming::Numbers => 0,
            Naming::Words => 1,
            Naming::Mixed => self.random.below(6),
        };
        match form {
            0 => format!("%{n}"),
            1 => format!("%v{n}"),
            2 => format!("%0{n}"),
            3 => format!("%_{n}_X"),
            4 => format!("%{}{n:04}", "N".repeat(27)),
            _ => format!("%T{n}a"),
        }
    }

    /// How much there is so far.
    pub fn mark(&self) -> (usize, usize, usize) {
        (self.inputs.len(), self.ops.len(), self.values.len())
    }

    /// Takes back what was added since a mark.
    pub fn reset(&mut self, mark: (usize, usize, usize)) {
        self.inputs.truncate(mark.0);
        self.ops.truncate(mark.1);
        self.values.truncate(mark.2);
    }

    /// The elements of inputs and results so far.
    pub fn elements(&self) -> u64 {
        let results = self.ops.iter().flat_map(|op| &op.result_types);
        self.inputs.iter().map(|i| &i.1).chain(results).map(Type::count).sum()
    }

    /// A new input.
    pub fn input(&mut self, tensor: &Type) -> Value {
        let input = (self.fresh(), tensor.clone());
        self.inputs.push(input.clone());
        self.values.push(input.clone());
        input
    }

    /// Adds an op; its result is the value answered.
    pub fn push(&mut self, op: Op) -> Value {
        let result = (op.results[0].clone(), op.result_types[0].clone());
        self.ops.push(op);
        self.values.push(result.clone());
        result
    }

    /// A constant op with these values.
    pub fn constant_of(&mut self, tensor: &Type, values: &[i128]) -> Value {
        let op = self.constant_op(tensor, values);
        self.push(op)
    }

    fn constant_op(&mut self, tensor: &Type, values: &[i128]) -> Op {
        let name = self.fresh();
        let mut op = Op::plain("constant", &name, tensor);
        let dense = self.dense_of(tensor, values);
        op.push_attribute("value", Attr::Dense(dense, tensor.clone()));
        op
    }

    /// "one literal for every element, or lists nested one level per dimension".
    fn dense_of(&mut self, tensor: &Type, values: &[i128]) -> Dense {
        let alike = values.windows(2).all(|w| w[0] == w[1]);
        if !alike || self.random.chance(1, 2) {
            return full_list(tensor, values);
        }
        let one = match values.first() {
            Some(one) => *one,
            None => value(self.random, tensor.element),
        };
        Dense::One(Literal::of(tensor.element, one))
    }

    /// A type whose element type a condition takes.
    pub fn draw_type(&mut self, takes: fn(Element) -> bool) -> Type {
        let element = element(self.random, takes);
        let dims = shape(self.random, self.plan.most);
        Type { element, dims }
    }

    /// A value of a type: one at hand, a new input or a constant.
    pub fn value(&mut self, tensor: &Type) -> Value {
        let fit: Vec<&Value> = self.values.iter().filter(|v| v.1 == *tensor).collect();
        if !fit.is_empty() && self.random.chance(3, 5) {
            return (*self.random.pick(&fit)).clone();
        }
        self.new_value(tensor)
    }

    /// A new value of a type.
    pub fn new_value(&mut self, tensor: &Type) -> Value {
        if self.inputs.len() < self.plan.inputs && self.random.chance(1, 2) {
            return self.input(tensor);
        }
        let list = self.drawn_values(tensor);
        self.constant_of(tensor, &list)
    }

    fn drawn_values(&mut self, tensor: &Type) -> Vec<i128> {
        if self.random.chance(1, 5) {
            let one = value(self.random, tensor.element);
            return vec![one; tensor.count() as usize];
        }
        values(self.random, tensor)
    }

    /// A value whose element type a condition takes.
    pub fn operand(&mut self, takes: fn(Element) -> bool) -> Value {
        let fit: Vec<&Value> = self.values.iter().filter(|v| takes(v.1.element)).collect();
        if !fit.is_empty() && self.random.chance(3, 5) {
            return (*self.random.pick(&fit)).clone();
        }
        let tensor = self.draw_type(takes);
        self.new_value(&tensor)
    }

    /// An operand with at least one dimension.
    pub fn ranked(&mut self, takes: fn(Element) -> bool) -> Value {
        for _ in 0..8 {
            let found = self.operand(takes);
            if found.1.rank() > 0 {
                return found;
            }
        }
        let element = element(self.random, takes);
        let dims = super::values::shape_of_rank(self.random, 2, self.plan.most);
        self.new_value(&Type { element, dims })
    }

    /// An op of this name, not yet added. Its operands are defined.
    pub fn make(&mut self, mnemonic: &str) -> Op {
        match mnemonic {
            "abs" | "sign" => self.unary(mnemonic, signed),
            "negate" | "count_leading_zeros" | "popcnt" => self.unary(mnemonic, integer),
            "not" => self.unary(mnemonic, any_element),
            "convert" => self.convert(),
            "add" | "multiply" | "maximum" | "minimum" | "and" | "or" | "xor" => self.binary(mnemonic, any_element),
            "subtract" | "shift_left" | "shift_right_arithmetic" | "shift_right_logical" => {
                self.binary(mnemonic, integer)
            }
            "divide" | "remainder" => self.division(mnemonic),
            "compare" => self.compare(),
            "select" => self.select(),
            "clamp" => self.clamp(),
            "constant" => self.constant(),
            "iota" => self.iota(),
            "reshape" => self.reshape(),
            "broadcast_in_dim" => self.broadcast(),
            "transpose" => self.transpose(),
            "slice" => self.slice(),
            "concatenate" => self.concatenate(),
            "pad" => self.pad(),
            "reverse" => self.reverse(),
            "dynamic_slice" => self.dynamic_slice(),
            "reduce" => self.reduce(),
            _ => panic!("no op {mnemonic}"),
        }
    }

    /// An op with these operands, its result named anew.
    pub fn op_on(&mut self, mnemonic: &str, operands: &[&Value], result: &Type) -> Op {
        let name = self.fresh();
        let mut op = Op::plain(mnemonic, &name, result);
        for operand in operands {
            op.push_operand(operand);
        }
        op
    }

    fn unary(&mut self, mnemonic: &str, takes: fn(Element) -> bool) -> Op {
        let x = self.operand(takes);
        self.op_on(mnemonic, &[&x], &x.1)
    }

    fn convert(&mut self) -> Op {
        let x = self.operand(any_element);
        let to = element(self.random, any_element);
        self.op_on("convert", &[&x], &x.1.with_element(to))
    }

    fn binary(&mut self, mnemonic: &str, takes: fn(Element) -> bool) -> Op {
        let x = self.operand(takes);
        let y = self.value(&x.1);
        self.op_on(mnemonic, &[&x, &y], &x.1)
    }

    fn division(&mut self, mnemonic: &str) -> Op {
        let x = self.operand(integer);
        let y = if self.random.chance(1, self.plan.careless) { self.value(&x.1) } else { self.divisor(&x.1) };
        self.op_on(mnemonic, &[&x, &y], &x.1)
    }

    /// A constant without zeros.
    fn divisor(&mut self, tensor: &Type) -> Value {
        let list: Vec<i128> = (0..tensor.count()).map(|_| nonzero(self.random, tensor.element)).collect();
        self.constant_of(tensor, &list)
    }

    fn compare(&mut self) -> Op {
        let x = self.operand(any_element);
        let y = self.value(&x.1);
        let mut op = self.op_on("compare", &[&x, &y], &x.1.with_element(super::model::I1));
        let direction = *self.random.pick(&DIRECTIONS);
        op.push_attribute("comparison_direction", choice("comparison_direction", direction));
        if self.random.chance(1, 2) {
            let kind = if x.1.element.signed { "SIGNED" } else { "UNSIGNED" };
            op.push_attribute("compare_type", choice("comparison_type", kind));
        }
        op
    }

    /// The shape of a tensor, or rank 0.
    fn shape_or_scalar(&mut self, tensor: &Type) -> Type {
        if self.random.chance(1, 2) {
            Type::scalar(tensor.element)
        } else {
            tensor.clone()
        }
    }

    fn select(&mut self) -> Op {
        let x = self.operand(any_element);
        let y = self.value(&x.1);
        let wanted = self.shape_or_scalar(&x.1.with_element(super::model::I1));
        let pred = self.value(&wanted);
        self.op_on("select", &[&pred, &x, &y], &x.1)
    }

    fn clamp(&mut self) -> Op {
        let x = self.operand(any_element);
        let low = self.shape_or_scalar(&x.1);
        let low = self.value(&low);
        let high = self.shape_or_scalar(&x.1);
        let high = self.value(&high);
        self.op_on("clamp", &[&low, &x, &high], &x.1)
    }

    fn constant(&mut self) -> Op {
        let tensor = self.draw_type(any_element);
        let list = self.drawn_values(&tensor);
        self.constant_op(&tensor, &list)
    }

    fn iota(&mut self) -> Op {
        let mut tensor = self.draw_type(integer);
        if tensor.rank() == 0 {
            tensor.dims.push(self.random.below(6));
        }
        let mut op = self.op_on("iota", &[], &tensor);
        let dimension = self.random.place(tensor.rank());
        op.push_attribute("iota_dimension", Attr::Number(dimension as i128));
        op
    }

    fn reshape(&mut self) -> Op {
        let x = self.operand(any_element);
        let dims = shape_of_count(self.random, x.1.count());
        self.op_on("reshape", &[&x], &x.1.with_dims(dims))
    }

    fn broadcast(&mut self) -> Op {
        let x = self.operand(any_element);
        let rank = self.random.between(x.1.rank() as u64, 6) as usize;
        let places = self.random.permutation(rank);
        let mut dims = vec![1; rank];
        let most = (self.plan.most * 2).min(4096);
        for (d, size) in x.1.dims.iter().enumerate() {
            dims[places[d]] = *size;
        }
        for (d, place) in places.iter().enumerate() {
            let free = d >= x.1.rank() || x.1.dims[d] == 1;
            let grown = self.random.below(4);
            if free && dims.iter().map(|d| (*d).max(1)).product::<u64>() * grown.max(1) <= most {
                dims[*place] = grown;
            }
        }
        let mut op = self.op_on("broadcast_in_dim", &[&x], &x.1.with_dims(dims));
        op.push_attribute("broadcast_dimensions", list(places[..x.1.rank()].iter().map(|p| *p as i128)));
        op
    }

    fn transpose(&mut self) -> Op {
        let x = self.operand(any_element);
        let order = self.random.permutation(x.1.rank());
        let dims = order.iter().map(|p| x.1.dims[*p]).collect();
        let mut op = self.op_on("transpose", &[&x], &x.1.with_dims(dims));
        op.push_attribute("permutation", list(order.iter().map(|p| *p as i128)));
        op
    }

    fn slice(&mut self) -> Op {
        let x = self.operand(any_element);
        let (mut starts, mut limits, mut strides, mut dims) = (Vec::new(), Vec::new(), Vec::new(), Vec::new());
        for size in &x.1.dims {
            let start = self.random.between(0, *size);
            let limit = self.random.between(start, *size);
            let stride = self.stride();
            dims.push((limit - start).div_ceil(stride));
            starts.push(start as i128);
            limits.push(limit as i128);
            strides.push(stride as i128);
        }
        let mut op = self.op_on("slice", &[&x], &x.1.with_dims(dims));
        op.push_attribute("start_indices", Attr::List(starts));
        op.push_attribute("limit_indices", Attr::List(limits));
        op.push_attribute("strides", Attr::List(strides));
        op
    }

    fn stride(&mut self) -> u64 {
        match self.random.below(12) {
            0 => i64::MAX as u64,
            1 => self.random.between(4, 5000),
            2..=6 => 1,
            _ => self.random.between(1, 3),
        }
    }

    fn concatenate(&mut self) -> Op {
        let x = self.ranked(any_element);
        let dimension = self.random.place(x.1.rank());
        let mut operands = vec![x.clone()];
        let mut result = x.1.clone();
        for _ in 0..*self.random.pick(&[0, 1, 1, 1, 2, 2, 3, 7]) {
            let mut tensor = x.1.clone();
            tensor.dims[dimension] = self.random.below(4);
            let mut grown = result.clone();
            grown.dims[dimension] += tensor.dims[dimension];
            if grown.dims.iter().map(|d| (*d).max(1)).product::<u64>() > (self.plan.most * 3).min(4096) {
                continue;
            }
            result = grown;
            operands.push(self.value(&tensor));
        }
        let list: Vec<&Value> = operands.iter().collect();
        let mut op = self.op_on("concatenate", &list, &result);
        op.push_attribute("dimension", Attr::Number(dimension as i128));
        op
    }

    fn pad(&mut self) -> Op {
        let x = self.operand(any_element);
        let padding = self.value(&Type::scalar(x.1.element));
        let (mut lows, mut highs, mut interiors, mut dims) = (Vec::new(), Vec::new(), Vec::new(), Vec::<u64>::new());
        let mut left = (self.plan.most * 3).max(1);
        for size in &x.1.dims {
            let (low, interior, high) = self.padding(*size, left);
            let padded = padded_size(*size, low, interior, high);
            left /= (padded as u64).max(1);
            dims.push(padded as u64);
            lows.push(low);
            interiors.push(interior);
            highs.push(high);
        }
        if !bounded(&dims) {
            dims = x.1.dims.clone();
            for list in [&mut lows, &mut highs, &mut interiors] {
                list.fill(0);
            }
        }
        let mut op = self.op_on("pad", &[&x, &padding], &x.1.with_dims(dims));
        op.push_attribute("edge_padding_low", Attr::List(lows));
        op.push_attribute("edge_padding_high", Attr::List(highs));
        op.push_attribute("interior_padding", Attr::List(interiors));
        op
    }

    /// Low, interior and high padding that give a size from 0 to `most`, or leave the size.
    fn padding(&mut self, size: u64, most: u64) -> (i128, i128, i128) {
        if self.random.chance(1, 12) {
            return self.far_padding(size, most);
        }
        for _ in 0..20 {
            let low = self.random.between(0, 8) as i128 - 4;
            let high = self.random.between(0, 8) as i128 - 4;
            let interior = *self.random.pick(&[0, 0, 1, 2, 3, 5]);
            let padded = padded_size(size, low, interior, high);
            if 0 <= padded && padded as u64 <= most {
                return (low, interior, high);
            }
        }
        (0, 0, 0)
    }

    /// Paddings near the ends of 64 bits that cancel out.
    fn far_padding(&mut self, size: u64, most: u64) -> (i128, i128, i128) {
        let wanted = self.random.between(0, 3.min(most)) as i128;
        let rest = wanted - size as i128;
        let far = (i64::MAX as i128).min((1i128 << 63) + rest) - self.random.below(3) as i128;
        match self.random.below(3) {
            0 => (far, 0, rest - far),
            1 => (rest - far, 0, far),
            _ if size == 2 => (-(1i128 << 62), 1i128 << 62, rest),
            _ => (rest, 0, 0),
        }
    }

    /// None, some or all of the dimensions.
    fn some_dimensions(&mut self, rank: usize) -> Vec<usize> {
        let (part, whole) = *self.random.pick(&[(0, 1), (1, 2), (1, 2), (1, 2), (1, 1)]);
        self.random.subset(rank, part, whole)
    }

    fn reverse(&mut self) -> Op {
        let x = self.operand(any_element);
        let mut dimensions = self.some_dimensions(x.1.rank());
        self.random.shuffle(&mut dimensions);
        let mut op = self.op_on("reverse", &[&x], &x.1);
        op.push_attribute("dimensions", list(dimensions.iter().map(|d| *d as i128)));
        op
    }

    fn dynamic_slice(&mut self) -> Op {
        let x = self.operand(any_element);
        let start_type = Type::scalar(element(self.random, integer));
        let starts: Vec<Value> = (0..x.1.rank()).map(|_| self.start_index(&start_type)).collect();
        let dims: Vec<u64> = x.1.dims.iter().map(|d| self.random.between(0, *d)).collect();
        let mut operands = vec![&x];
        operands.extend(starts.iter());
        let mut op = self.op_on("dynamic_slice", &operands, &x.1.with_dims(dims.clone()));
        op.push_attribute("slice_sizes", list(dims.iter().map(|d| *d as i128)));
        op
    }

    /// A start index: inside, outside on either side, or any.
    fn start_index(&mut self, tensor: &Type) -> Value {
        if self.random.chance(1, 2) {
            return self.value(tensor);
        }
        let near = self.random.between(0, 7) as i128 - if tensor.element.signed { 2 } else { 0 };
        self.constant_of(tensor, &[near])
    }

    fn reduce(&mut self) -> Op {
        let x = self.operand(any_element);
        let body_op = *self.random.pick(&BODY_OPS);
        self.reduce_of(&x, body_op)
    }

    /// A reduction of a value by a body op over random dimensions.
    pub fn reduce_of(&mut self, x: &Value, body_op: &str) -> Op {
        let start = self.start_value(x.1.element, body_op);
        let mut dimensions = self.some_dimensions(x.1.rank());
        let kept = (0..x.1.rank()).filter(|d| !dimensions.contains(d)).map(|d| x.1.dims[d]).collect();
        self.random.shuffle(&mut dimensions);
        let mut op = self.op_on("reduce", &[x, &start], &x.1.with_dims(kept));
        op.push_attribute("dimensions", list(dimensions.iter().map(|d| *d as i128)));
        let body = self.body(body_op, &Type::scalar(x.1.element));
        if self.random.chance(1, 10) {
            // "body names are forgotten at its closing brace"
            op.results[0] = body.arguments[0].0.clone();
        }
        op.bodies.push(body);
        op
    }

    fn start_value(&mut self, element: Element, body_op: &str) -> Value {
        let scalar = Type::scalar(element);
        if self.plan.identity_starts || self.random.chance(1, 2) {
            return self.constant_of(&scalar, &[identity(body_op, element)]);
        }
        self.value(&scalar)
    }

    /// "The body has two arguments and one op on both, each once, either way round, and returns it."
    pub fn body(&mut self, body_op: &str, tensor: &Type) -> Body {
        let label = self.random.pick(&["^bb0", "^bb0", "^0", "^b", "^_9", "^007", LONG_LABEL]).to_string();
        let arguments = vec![(self.fresh(), tensor.clone()), (self.fresh(), tensor.clone())];
        let mut sides = [&arguments[0], &arguments[1]];
        self.random.shuffle(&mut sides);
        let op = self.op_on(body_op, &sides, tensor);
        let last = Op::last("stablehlo.return", &[(op.results[0].clone(), tensor.clone())]);
        Body { label, arguments, ops: vec![op], last }
    }

    /// The function, with a return of some of its values.
    pub fn finish(self) -> Function {
        let count = *self.random.pick(&[0, 1, 1, 1, 1, 2, 2, 3, 8]);
        let returned: Vec<Value> = match self.values.last() {
            None => Vec::new(),
            Some(last) => {
                (0..count).map(|i| if i == 0 { last.clone() } else { self.random.pick(&self.values).clone() }).collect()
            }
        };
        self.finish_with(&returned)
    }

    /// The function, with a return of these values.
    pub fn finish_with(self, returned: &[Value]) -> Function {
        let name = self.random.pick(&["@main", "@main", "@f", "@_0", "@Model_2", LONG_FUNCTION]).to_string();
        Function {
            name,
            inputs: self.inputs,
            outputs: returned.iter().map(|v| v.1.clone()).collect(),
            ops: self.ops,
            last: Op::last("func.return", returned),
        }
    }
}

/// "operand + low + max(operand - 1, 0) x interior + high".
pub fn padded_size(size: u64, low: i128, interior: i128, high: i128) -> i128 {
    size as i128 + low + (size as i128 - 1).max(0) * interior + high
}

/// "0 for add, or, xor; 1 for multiply; lowest for maximum; highest for minimum; all bits set for and".
pub fn identity(body_op: &str, element: Element) -> i128 {
    match body_op {
        "add" | "or" | "xor" => 0,
        "multiply" => 1,
        "maximum" => element.lowest(),
        "minimum" => element.highest(),
        "and" if element.signed => -1,
        "and" => element.highest(),
        _ => panic!("no body op {body_op}"),
    }
}

pub fn choice(kind: &str, choice: &str) -> Attr {
    Attr::Choice(kind.to_string(), choice.to_string())
}

fn list(numbers: impl Iterator<Item = i128>) -> Attr {
    Attr::List(numbers.collect())
}
