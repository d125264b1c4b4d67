//! Evaluations at their edges: the ends of each type's range in every op on elements, zero divisors,
//! start indices outside, reductions over no elements; and stores and inputs that do not fit.

use super::build::{choice, Builder, Plan, Value, BODY_OPS, DIRECTIONS};
use super::model::{Attr, Element, Function, Type, ELEMENTS, I1, I64, I8, UI64, UI8};
use super::values::{any_element, element, integer, nonzero, value, values};
use crate::random::Random;

const BINARY: [&str; 13] = [
    "add",
    "subtract",
    "multiply",
    "divide",
    "remainder",
    "maximum",
    "minimum",
    "and",
    "or",
    "xor",
    "shift_left",
    "shift_right_arithmetic",
    "shift_right_logical",
];

const UNARY: [&str; 6] = ["abs", "sign", "negate", "not", "count_leading_zeros", "popcnt"];

/// A plan under which no divisor is zero by accident.
const CAREFUL: Plan = Plan { most: 12, inputs: 2, identity_starts: false, careless: 1 << 40 };

/// A program whose evaluation answers results, with values at the edges.
pub fn accepted(random: &mut Random) -> Function {
    let mut b = Builder::new(random, CAREFUL);
    match b.random.below(10) {
        0 | 1 => binary(&mut b),
        2 => unary(&mut b),
        3 => conversions(&mut b),
        4 | 5 => starts_outside(&mut b),
        6 => long_iota(&mut b),
        7 | 8 => by_value(&mut b),
        _ => no_elements(&mut b),
    }
    b.finish()
}

/// Pairs of values at the edges, among them the lowest by -1.
fn binary(b: &mut Builder) {
    let mnemonic = *b.random.pick(&BINARY);
    let takes = super::broken::taken(mnemonic);
    let element = element(b.random, takes);
    let tensor = Type::new(element, &[16]);
    let mut left = values(b.random, &tensor);
    let divides = mnemonic == "divide" || mnemonic == "remainder";
    let draw = |b: &mut Builder| if divides { nonzero(b.random, element) } else { value(b.random, element) };
    let mut right: Vec<i128> = (0..16).map(|_| draw(b)).collect();
    if element.signed {
        left[0] = element.lowest();
        right[0] = -1;
    }
    let x = b.constant_of(&tensor, &left);
    let y = b.constant_of(&tensor, &right);
    let op = b.op_on(mnemonic, &[&x, &y], &tensor);
    b.push(op);
}

fn unary(b: &mut Builder) {
    let mnemonic = *b.random.pick(&UNARY);
    let element = element(b.random, super::broken::taken(mnemonic));
    let tensor = Type::new(element, &[12]);
    let x = b.input(&tensor);
    let op = b.op_on(mnemonic, &[&x], &tensor);
    b.push(op);
}

/// One tensor converted to every element type.
fn conversions(b: &mut Builder) {
    let element = element(b.random, any_element);
    let tensor = Type::new(element, &[10]);
    let x = b.input(&tensor);
    for to in ELEMENTS {
        let op = b.op_on("convert", &[&x], &tensor.with_element(to));
        b.push(op);
    }
}

/// "each start, read in its own type, is clamped to 0 .. size - slice size".
fn starts_outside(b: &mut Builder) {
    let element = element(b.random, any_element);
    let x = b.new_value(&Type::new(element, &[4, 3]));
    let any = super::values::element(b.random, integer);
    let index = *b.random.pick(&[UI8, UI64, UI64, I8, I64, any]);
    let ends = [index.lowest(), index.highest(), index.highest() / 2 + 1, 0, 1, 3, 4];
    let drawn = [*b.random.pick(&ends), *b.random.pick(&ends)];
    let starts: Vec<Value> = drawn.iter().map(|s| b.constant_of(&Type::scalar(index), &[*s])).collect();
    let sizes = [b.random.below(5), b.random.below(4)];
    let mut op = b.op_on("dynamic_slice", &[&x, &starts[0], &starts[1]], &Type::new(element, &sizes));
    op.push_attribute("slice_sizes", Attr::List(sizes.iter().map(|s| *s as i128).collect()));
    b.push(op);
}

/// "iota .. wrap": more numbers than a type of 8 bits has.
fn long_iota(b: &mut Builder) {
    let element = *b.random.pick(&[I8, UI8]);
    let shapes: [&[u64]; 4] = [&[300], &[2, 257], &[130, 3], &[1, 140, 2]];
    let place = b.random.place(shapes.len());
    let tensor = Type::new(element, shapes[place]);
    let mut op = b.op_on("iota", &[], &tensor);
    op.push_attribute("iota_dimension", Attr::Number([0, 1, 0, 1][place]));
    b.push(op);
}

/// "maximum, minimum, compare by value": values on both sides of the middle of 64 bits, and clamps whose
/// bounds may be crossed.
fn by_value(b: &mut Builder) {
    let element = *b.random.pick(&[UI64, UI64, I64, I8, UI8, I1]);
    let tensor = Type::new(element, &[12]);
    let x = b.input(&tensor);
    let list = values(b.random, &tensor);
    let y = b.constant_of(&tensor, &list);
    match b.random.below(4) {
        0 => {
            let mut op = b.op_on("compare", &[&x, &y], &tensor.with_element(I1));
            let direction = *b.random.pick(&DIRECTIONS);
            op.push_attribute("comparison_direction", choice("comparison_direction", direction));
            b.push(op);
        }
        1 => {
            let bounds = [x.clone(), b.value(&tensor)];
            let op = b.op_on("clamp", &[&bounds[0], &y, &bounds[1]], &tensor);
            b.push(op);
        }
        way => {
            let mnemonic = if way == 2 { "maximum" } else { "minimum" };
            let op = b.op_on(mnemonic, &[&x, &y], &tensor);
            b.push(op);
        }
    }
}

/// A reduction over no elements gives its start value.
fn no_elements(b: &mut Builder) {
    let element = element(b.random, any_element);
    let shapes: [&[u64]; 4] = [&[0], &[2, 0], &[0, 3], &[2, 0, 3]];
    let dims = b.random.pick(&shapes).to_vec();
    let x = b.new_value(&Type { element, dims });
    let body_op = *b.random.pick(&BODY_OPS);
    let op = b.reduce_of(&x, body_op);
    b.push(op);
}

/// A program that meets a zero divisor: its op and element, the first in text order.
pub fn zero_divisor(random: &mut Random) -> (Function, u64, u64) {
    let mut b = Builder::new(random, CAREFUL);
    super::some_ops(&mut b, 4);
    let (op, element) = push_zero_divisor(&mut b);
    super::some_ops(&mut b, 3);
    (b.finish(), op, element)
}

/// Adds an op that meets a zero divisor: its place and its first such element.
pub fn push_zero_divisor(b: &mut Builder) -> (u64, u64) {
    let element = element(b.random, integer);
    let shapes: [&[u64]; 5] = [&[], &[1], &[7], &[2, 3], &[2, 1, 2, 1, 2, 1]];
    let tensor = Type::new(element, b.random.pick::<&[u64]>(&shapes));
    let mut divisors: Vec<i128> = (0..tensor.count()).map(|_| nonzero(b.random, element)).collect();
    let first = b.random.place(divisors.len());
    divisors[first] = 0;
    for later in &mut divisors[first..] {
        if b.random.chance(1, 4) {
            *later = 0;
        }
    }
    let x = b.new_value(&tensor);
    let y = b.constant_of(&tensor, &divisors);
    let mnemonic = *b.random.pick(&["divide", "remainder"]);
    let op = b.op_on(mnemonic, &[&x, &y], &tensor);
    let place = b.ops.len() as u64;
    b.push(op);
    (place, first as u64)
}

/// The slots of inputs for a function.
pub fn input_slots(random: &mut Random, function: &Function) -> Vec<u64> {
    let mut slots = Vec::new();
    for (_, tensor) in &function.inputs {
        for one in values(random, tensor) {
            slots.push(tensor.element.slot(one));
        }
    }
    slots
}

/// "input slot not a value of its type": such a slot, where the type has one.
pub fn no_value(random: &mut Random, element: Element) -> Option<u64> {
    let found = match random.below(6) {
        0 => element.highest() as u64 as i128 + 1,
        1 => element.slot(element.lowest()) as i128 - 1,
        2 => (1i128 << element.width) - 1,
        3 => 1i128 << element.width.min(63),
        4 => u64::MAX as i128,
        _ => random.bits() as i128,
    };
    let slot = found.rem_euclid(1i128 << 64) as u64;
    let read = if element.signed { slot as i64 as i128 } else { slot as i128 };
    if element.lowest() <= read && read <= element.highest() {
        None
    } else {
        Some(slot)
    }
}

/// Puts slots that are no values among the inputs: the lowest such slot.
pub fn spoil_inputs(random: &mut Random, function: &Function, slots: &mut [u64]) -> Option<u64> {
    let elements: Vec<Element> =
        function.inputs.iter().flat_map(|i| std::iter::repeat_n(i.1.element, i.1.count() as usize)).collect();
    let mut lowest = None;
    for _ in 0..*random.pick(&[1, 1, 2, 5]) {
        let place = random.place(slots.len());
        let Some(slot) = elements.get(place).and_then(|e| no_value(random, *e)) else { continue };
        slots[place] = slot;
        lowest = Some(lowest.map_or(place, |old: usize| old.min(place)));
    }
    lowest.map(|place| place as u64)
}
