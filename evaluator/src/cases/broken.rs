//! Ops that break one constraint of 000 (refusal 8): for each op and C number that the base scope can
//! meet, a valid op is changed so that this constraint is broken, none of a lower number, and nothing
//! of refusal 7 holds.

use super::build::{choice, Builder, Value};
use super::model::{Attr, Element, Op, Type};
use super::values::{any_element, bounded, element, integer, other_element, other_shape, shape_of_rank, signed};
use crate::random::Random;

/// Every (op, C number) that can be answered. Left out: the constraints on quantized types, which hold
/// vacuously (OP-71); concatenate C4, where C2 is broken first (OP-72); reduce C1 and C3, which one
/// input cannot break (OP-75).
pub const PAIRS: [(&str, u64); 70] = [
    ("abs", 1),
    ("abs", 2),
    ("add", 1),
    ("and", 1),
    ("broadcast_in_dim", 1),
    ("broadcast_in_dim", 2),
    ("broadcast_in_dim", 3),
    ("broadcast_in_dim", 4),
    ("broadcast_in_dim", 5),
    ("clamp", 1),
    ("clamp", 2),
    ("clamp", 3),
    ("clamp", 4),
    ("compare", 1),
    ("compare", 2),
    ("compare", 3),
    ("concatenate", 1),
    ("concatenate", 2),
    ("concatenate", 3),
    ("concatenate", 5),
    ("concatenate", 6),
    ("constant", 1),
    ("convert", 1),
    ("count_leading_zeros", 1),
    ("divide", 1),
    ("dynamic_slice", 1),
    ("dynamic_slice", 2),
    ("dynamic_slice", 3),
    ("dynamic_slice", 4),
    ("dynamic_slice", 5),
    ("iota", 1),
    ("maximum", 1),
    ("minimum", 1),
    ("multiply", 1),
    ("negate", 1),
    ("not", 1),
    ("or", 1),
    ("pad", 1),
    ("pad", 2),
    ("pad", 3),
    ("pad", 4),
    ("popcnt", 1),
    ("reduce", 2),
    ("reduce", 4),
    ("reduce", 5),
    ("reduce", 6),
    ("reduce", 7),
    ("reduce", 8),
    ("remainder", 1),
    ("reshape", 1),
    ("reshape", 2),
    ("reverse", 1),
    ("reverse", 2),
    ("reverse", 3),
    ("select", 1),
    ("select", 2),
    ("shift_left", 1),
    ("shift_right_arithmetic", 1),
    ("shift_right_logical", 1),
    ("sign", 1),
    ("slice", 1),
    ("slice", 2),
    ("slice", 3),
    ("slice", 4),
    ("slice", 5),
    ("subtract", 1),
    ("transpose", 1),
    ("transpose", 2),
    ("transpose", 3),
    ("xor", 1),
];

/// The most elements of a changed type.
const MOST: u64 = 96;

/// An op that breaks constraint `c`, not yet added.
pub fn broken(builder: &mut Builder, mnemonic: &str, c: u64) -> Op {
    for _ in 0..200 {
        let mark = builder.mark();
        let mut op = builder.make(mnemonic);
        if break_op(builder, &mut op, c).is_some() {
            return op;
        }
        builder.reset(mark);
    }
    panic!("{mnemonic} C{c} was not broken in 200 attempts")
}

/// The element types that an op's tables take, for its operands and its result.
pub fn taken(mnemonic: &str) -> fn(Element) -> bool {
    match mnemonic {
        "abs" | "sign" => signed,
        "negate" | "count_leading_zeros" | "popcnt" | "subtract" | "divide" | "remainder" | "iota" => integer,
        "shift_left" | "shift_right_arithmetic" | "shift_right_logical" => integer,
        _ => any_element,
    }
}

/// Breaks a constraint of an op, or says that this op cannot break it.
fn break_op(b: &mut Builder, op: &mut Op, c: u64) -> Option<()> {
    let mnemonic = op.mnemonic().to_string();
    match (mnemonic.as_str(), c) {
        ("abs", 1) => abs_shape(b, op),
        ("abs", 2) => result_element(b, op),
        ("convert", 1) => result_shape(b, op),
        ("iota", 1) => iota_dimension(b, op),
        ("compare", _) => compare(b, op, c),
        ("clamp", _) => clamp(b, op, c),
        ("select", _) => select(b, op, c),
        ("reshape" | "transpose" | "broadcast_in_dim" | "slice" | "dynamic_slice", 1) => result_element(b, op),
        ("reshape", 2) => reshape_size(b, op),
        ("transpose", _) => transpose(b, op, c),
        ("reverse", _) => reverse(b, op, c),
        ("broadcast_in_dim", _) => broadcast(b, op, c),
        ("slice", _) => slice(b, op, c),
        ("concatenate", _) => concatenate(b, op, c),
        ("pad", _) => pad(b, op, c),
        ("dynamic_slice", _) => dynamic_slice(b, op, c),
        ("reduce", _) => reduce(b, op, c),
        ("constant" | "negate" | "not" | "sign" | "count_leading_zeros" | "popcnt", 1) => unlike_result(b, op),
        (_, 1) => unlike_types(b, op),
        _ => panic!("no way to break {mnemonic} C{c}"),
    }
}

/// Another element type for the result, one that the table takes.
fn result_element(b: &mut Builder, op: &mut Op) -> Option<()> {
    let takes = taken(op.mnemonic());
    let element = other_element(b.random, op.result_types[0].element, takes);
    op.result_type().element = element;
    Some(())
}

/// Another shape for the result.
fn result_shape(b: &mut Builder, op: &mut Op) -> Option<()> {
    let dims = other_shape(b.random, &op.result_types[0].dims, MOST);
    op.result_type().dims = dims;
    Some(())
}

fn unlike_result(b: &mut Builder, op: &mut Op) -> Option<()> {
    if b.random.chance(1, 2) {
        result_element(b, op)
    } else {
        result_shape(b, op)
    }
}

fn abs_shape(b: &mut Builder, op: &mut Op) -> Option<()> {
    if b.random.chance(1, 3) {
        result_element(b, op)?;
    }
    result_shape(b, op)
}

/// lhs, rhs or the result has another type than the other two.
fn unlike_types(b: &mut Builder, op: &mut Op) -> Option<()> {
    match b.random.below(4) {
        0 => unlike_operand(b, op, 0),
        1 => unlike_operand(b, op, 1),
        _ => unlike_result(b, op),
    }
}

/// An operand of another type that the table takes.
fn unlike_operand(b: &mut Builder, op: &mut Op, place: usize) -> Option<()> {
    let other = unlike(b, &op.operand_types[place], taken(op.mnemonic()));
    op.set_operand(place, &other);
    Some(())
}

/// A value of another type: another element type or another shape.
fn unlike(b: &mut Builder, tensor: &Type, takes: fn(Element) -> bool) -> Value {
    if b.random.chance(1, 2) {
        let element = other_element(b.random, tensor.element, takes);
        b.value(&tensor.with_element(element))
    } else {
        let dims = other_shape(b.random, &tensor.dims, MOST);
        b.value(&tensor.with_dims(dims))
    }
}

/// A number that names no place of a list of `length`.
pub fn outside(random: &mut Random, length: usize) -> i128 {
    let length = length as i128;
    match random.below(9) {
        0 | 1 => -1,
        2 | 3 => length,
        4 => length + 1,
        5 => i64::MIN as i128,
        6 => i64::MAX as i128,
        7 => 1i128 << 32,
        _ => -(1i128 << 32),
    }
}

fn iota_dimension(b: &mut Builder, op: &mut Op) -> Option<()> {
    if b.random.chance(1, 4) {
        op.result_type().dims.clear();
    }
    let rank = op.result_types[0].rank();
    if rank > 0 || b.random.chance(1, 2) {
        let number = outside(b.random, rank);
        *op.number("iota_dimension") = number;
    }
    Some(())
}

fn compare(b: &mut Builder, op: &mut Op, c: u64) -> Option<()> {
    let lhs = op.operand_types[0].clone();
    match c {
        1 => {
            let element = other_element(b.random, lhs.element, any_element);
            let rhs = b.value(&lhs.with_element(element));
            op.set_operand(1, &rhs);
        }
        2 if b.random.chance(1, 2) => {
            let dims = other_shape(b.random, &lhs.dims, MOST);
            let rhs = b.value(&lhs.with_dims(dims));
            op.set_operand(1, &rhs);
        }
        2 => result_shape(b, op)?,
        _ => {
            op.attributes.retain(|a| a.name != "compare_type");
            let kind = if lhs.element.signed { "UNSIGNED" } else { "SIGNED" };
            op.push_attribute("compare_type", choice("comparison_type", kind));
        }
    }
    Some(())
}

/// A value with dimensions, of another shape than `dims`.
fn ranked_unlike(b: &mut Builder, element: Element, dims: &[u64]) -> Value {
    let single = vec![1; dims.len().max(1)];
    if single != dims && b.random.chance(1, 3) {
        return b.value(&Type { element, dims: single });
    }
    loop {
        let found = other_shape(b.random, dims, MOST);
        if !found.is_empty() {
            return b.value(&Type { element, dims: found });
        }
    }
}

fn clamp(b: &mut Builder, op: &mut Op, c: u64) -> Option<()> {
    let operand = op.operand_types[1].clone();
    match c {
        1 | 2 => {
            let place = if c == 1 { 0 } else { 2 };
            let value = ranked_unlike(b, operand.element, &operand.dims);
            op.set_operand(place, &value);
            Some(())
        }
        3 => {
            let place = *b.random.pick(&[0, 2]);
            let element = other_element(b.random, operand.element, any_element);
            let value = b.value(&op.operand_types[place].with_element(element));
            op.set_operand(place, &value);
            Some(())
        }
        _ => unlike_result(b, op),
    }
}

fn select(b: &mut Builder, op: &mut Op, c: u64) -> Option<()> {
    if c == 1 {
        let pred = ranked_unlike(b, super::model::I1, &op.operand_types[1].dims);
        op.set_operand(0, &pred);
        return Some(());
    }
    if b.random.chance(1, 2) {
        unlike_operand(b, op, 2)
    } else {
        unlike_result(b, op)
    }
}

fn reshape_size(b: &mut Builder, op: &mut Op) -> Option<()> {
    let dims = other_shape(b.random, &op.result_types[0].dims, MOST);
    let other = op.result_types[0].with_dims(dims);
    if other.count() == op.result_types[0].count() {
        return None;
    }
    *op.result_type() = other;
    Some(())
}

/// One entry more or fewer, never more than 6.
fn other_length(b: &mut Builder, list: &mut Vec<i128>) {
    if !list.is_empty() && (list.len() == 6 || b.random.chance(1, 2)) {
        list.remove(b.random.place(list.len()));
    } else {
        list.insert(b.random.place(list.len() + 1), b.random.below(3) as i128);
    }
}

fn transpose(b: &mut Builder, op: &mut Op, c: u64) -> Option<()> {
    if c == 3 {
        return result_shape(b, op);
    }
    let rank = op.operand_types[0].rank();
    let way = b.random.below(3);
    let list = op.list("permutation");
    if way == 0 || rank == 0 {
        other_length(b, list);
    } else if way == 1 && rank > 1 {
        repeat_entry(b, list);
    } else {
        let place = b.random.place(rank);
        list[place] = outside(b.random, rank);
    }
    Some(())
}

/// An entry made equal to another one of a list of at least two.
fn repeat_entry(b: &mut Builder, list: &mut [i128]) {
    let from = b.random.place(list.len());
    let step = 1 + b.random.place(list.len() - 1);
    let to = (from + step) % list.len();
    list[to] = list[from];
}

fn reverse(b: &mut Builder, op: &mut Op, c: u64) -> Option<()> {
    let rank = op.operand_types[0].rank();
    match c {
        1 => unlike_result(b, op),
        2 => double_entry(b, op.list("dimensions"), rank),
        _ => {
            let number = outside(b.random, rank);
            one_outside(b, op.list("dimensions"), number);
            Some(())
        }
    }
}

/// An entry that stands twice in a list of dimensions.
fn double_entry(b: &mut Builder, list: &mut Vec<i128>, rank: usize) -> Option<()> {
    let entry = if rank > 0 && b.random.chance(4, 5) { b.random.place(rank) as i128 } else { outside(b.random, rank) };
    list.truncate(4);
    list.push(entry);
    list.push(entry);
    b.random.shuffle(list);
    Some(())
}

/// A list of dimensions in which one is this number.
fn one_outside(b: &mut Builder, list: &mut Vec<i128>, number: i128) {
    list.truncate(5);
    list.insert(b.random.place(list.len() + 1), number);
}

fn broadcast(b: &mut Builder, op: &mut Op, c: u64) -> Option<()> {
    let operand = op.operand_types[0].clone();
    let rank = op.result_types[0].rank();
    match c {
        2 => other_length(b, op.list("broadcast_dimensions")),
        3 => {
            let number = outside(b.random, rank);
            let place = b.random.place(operand.rank());
            *op.list("broadcast_dimensions").get_mut(place)? = number;
        }
        4 if operand.rank() < 2 => return None,
        4 => repeat_entry(b, op.list("broadcast_dimensions")),
        _ => {
            let fixed: Vec<usize> = (0..operand.rank()).filter(|d| operand.dims[*d] != 1).collect();
            let d = *fixed.get(b.random.place(fixed.len()))?;
            let place = op.list("broadcast_dimensions")[d] as usize;
            let sizes: Vec<u64> = (0..5).filter(|s| *s != operand.dims[d]).collect();
            op.result_type().dims[place] = *b.random.pick(&sizes);
            if !bounded(&op.result_types[0].dims) {
                return None;
            }
        }
    }
    Some(())
}

fn slice(b: &mut Builder, op: &mut Op, c: u64) -> Option<()> {
    let operand = op.operand_types[0].clone();
    let name = *b.random.pick(&["start_indices", "limit_indices", "strides"]);
    if c == 2 {
        other_length(b, op.list(name));
        return Some(());
    }
    if c == 5 {
        return result_shape(b, op);
    }
    if operand.rank() == 0 {
        return None;
    }
    let d = b.random.place(operand.rank());
    if c == 4 {
        op.list("strides")[d] = *b.random.pick(&[0, -1, i64::MIN as i128, -(1i128 << 32)]);
        return Some(());
    }
    let (start, limit) = (op.list("start_indices")[d], op.list("limit_indices")[d]);
    let size = operand.dims[d] as i128;
    match b.random.below(4) {
        0 => op.list("start_indices")[d] = *b.random.pick(&[-1, -size - 1, i64::MIN as i128]),
        1 => op.list("start_indices")[d] = *b.random.pick(&[limit + 1, size + 1, i64::MAX as i128]),
        2 => op.list("limit_indices")[d] = *b.random.pick(&[size + 1, size + 2, i64::MAX as i128]),
        _ => op.list("limit_indices")[d] = *b.random.pick(&[start - 1, -1, i64::MIN as i128]),
    }
    Some(())
}

fn concatenate(b: &mut Builder, op: &mut Op, c: u64) -> Option<()> {
    let count = op.operands.len();
    let first = op.operand_types[0].clone();
    let dimension = *op.number("dimension") as usize;
    match c {
        1 if count < 2 => return None,
        1 => {
            let place = b.random.place(count);
            let element = other_element(b.random, first.element, any_element);
            let other = b.value(&op.operand_types[place].with_element(element));
            op.set_operand(place, &other);
        }
        2 if count < 2 || b.random.chance(1, 2) => {
            let number = outside(b.random, first.rank());
            *op.number("dimension") = number;
        }
        2 => {
            let place = 1 + b.random.place(count - 1);
            let mut dims = other_shape(b.random, &first.dims, MOST);
            if dims.len() == first.rank() {
                dims[dimension] = first.dims[dimension];
            }
            if dims == first.dims {
                return None;
            }
            let other = b.value(&first.with_dims(dims));
            op.set_operand(place, &other);
        }
        3 => {
            op.operands.clear();
            op.operand_types.clear();
        }
        5 => return result_element(b, op),
        _ => return result_shape(b, op),
    }
    Some(())
}

fn pad(b: &mut Builder, op: &mut Op, c: u64) -> Option<()> {
    let name = *b.random.pick(&["edge_padding_low", "edge_padding_high", "interior_padding"]);
    let rank = op.operand_types[0].rank();
    match c {
        1 if b.random.chance(1, 2) => return result_element(b, op),
        1 => {
            let element = other_element(b.random, op.operand_types[1].element, any_element);
            let value = b.value(&Type::scalar(element));
            op.set_operand(1, &value);
        }
        2 => other_length(b, op.list(name)),
        3 => {
            let number = *b.random.pick(&[-1, -2, i64::MIN as i128]);
            *op.list("interior_padding").get_mut(b.random.place(rank))? = number;
        }
        _ if b.random.chance(1, 3) => return result_shape(b, op),
        _ => return pad_far(b, op),
    }
    Some(())
}

/// "A pad sum near 2^63 that wraps to a valid size": the sum modulo 2^64 is the size written.
fn pad_far(b: &mut Builder, op: &mut Op) -> Option<()> {
    let rank = op.operand_types[0].rank();
    let d = b.random.place(rank);
    let size = *op.operand_types[0].dims.get(d)? as i128;
    let far = i64::MAX as i128;
    let (low, interior, high) = match b.random.below(4) {
        0 => (far, 0, far),
        1 => (-far - 1, 0, -far - 1),
        2 => (0, 1i128 << 62, 0),
        _ => (far, far, 2),
    };
    op.list("edge_padding_low")[d] = low;
    op.list("interior_padding")[d] = interior;
    op.list("edge_padding_high")[d] = high;
    let sum = super::build::padded_size(size as u64, low, interior, high);
    let wrapped = sum.rem_euclid(1i128 << 64);
    if sum == wrapped && wrapped < 4096 {
        return None;
    }
    op.result_type().dims[d] = if wrapped < 64 { wrapped as u64 } else { b.random.below(4) };
    if bounded(&op.result_types[0].dims) {
        Some(())
    } else {
        None
    }
}

fn dynamic_slice(b: &mut Builder, op: &mut Op, c: u64) -> Option<()> {
    let operand = op.operand_types[0].clone();
    let rank = operand.rank();
    match c {
        2 if b.random.chance(1, 3) => other_length(b, op.list("slice_sizes")),
        2 if rank > 0 && b.random.chance(1, 2) => {
            op.operands.pop();
            op.operand_types.pop();
        }
        2 => {
            let start_type = op.operand_types.get(1).cloned();
            let start_type = start_type.unwrap_or_else(|| Type::scalar(element(b.random, integer)));
            let start = b.value(&start_type);
            op.push_operand(&start);
        }
        3 if rank < 2 => return None,
        3 => {
            let place = 1 + b.random.place(rank);
            let element = other_element(b.random, op.operand_types[place].element, integer);
            let start = b.value(&Type::scalar(element));
            op.set_operand(place, &start);
        }
        4 => {
            let d = b.random.place(rank);
            let size = *operand.dims.get(d)? as i128;
            op.list("slice_sizes")[d] =
                *b.random.pick(&[size + 1, size + 2, -1, i64::MIN as i128, i64::MAX as i128, 1i128 << 32]);
        }
        _ => return result_shape(b, op),
    }
    Some(())
}

fn reduce(b: &mut Builder, op: &mut Op, c: u64) -> Option<()> {
    let input = op.operand_types[0].clone();
    match c {
        2 => {
            let element = other_element(b.random, input.element, any_element);
            let start = b.value(&Type::scalar(element));
            op.set_operand(1, &start);
            if b.random.chance(1, 3) {
                body_of(b, op, &Type::scalar(element));
            }
        }
        4 => {
            let number = outside(b.random, input.rank());
            one_outside(b, op.list("dimensions"), number);
        }
        5 if input.rank() == 0 => return None,
        5 => {
            let entry = b.random.place(input.rank()) as i128;
            let list = op.list("dimensions");
            list.truncate(4);
            list.push(entry);
            list.push(entry);
            b.random.shuffle(list);
        }
        6 if b.random.chance(1, 3) => {
            let rank = 1 + b.random.place(2);
            let mut dims = shape_of_rank(b.random, rank, 8);
            if b.random.chance(1, 4) {
                // "body values not counted" among the 8,192 elements
                dims = vec![4096];
            }
            body_of(b, op, &input.with_dims(dims));
        }
        6 => {
            let element = other_element(b.random, input.element, any_element);
            body_of(b, op, &Type::scalar(element));
        }
        7 => {
            if b.random.chance(1, 3) {
                result_element(b, op)?;
            }
            result_shape(b, op)?;
        }
        _ => return result_element(b, op),
    }
    Some(())
}

/// A sound body over another type.
fn body_of(b: &mut Builder, op: &mut Op, tensor: &Type) {
    let body_op = *b.random.pick(&super::build::BODY_OPS);
    op.bodies[0] = b.body(body_op, tensor);
}

/// A number for an attribute out to both ends of 64 bits.
pub fn extreme(random: &mut Random) -> i128 {
    let far = [0, 1, -1, 2, 6, 7, 4096, i64::MAX as i128, i64::MIN as i128, i64::MAX as i128 - 1, i64::MIN as i128 + 1];
    match random.below(3) {
        0 => *random.pick(&far),
        1 => (1i128 << random.below(63)) - random.below(2) as i128,
        _ => random.bits() as i64 as i128,
    }
}

/// One attribute number of an op replaced by an extreme one; false where it has none.
pub fn extreme_number(random: &mut Random, op: &mut Op) -> bool {
    let mut numbers: Vec<&mut i128> = Vec::new();
    for attribute in &mut op.attributes {
        match &mut attribute.value {
            Attr::List(list) => numbers.extend(list.iter_mut()),
            Attr::Number(number) => numbers.push(number),
            _ => {}
        }
    }
    if numbers.is_empty() {
        return false;
    }
    let place = random.place(numbers.len());
    *numbers[place] = extreme(random);
    true
}
