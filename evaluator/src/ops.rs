//! What each op gives: element by element, shape by shape, reductions (01 Element by element, Shape
//! by shape, Reductions; 000, each op's Semantics).
//!
//! An op here belongs to an accepted program; nothing that refusals 7 and 8 have shown is checked
//! again. Values are mathematical integers, indices are taken straight from 000's formulas.

use crate::element::ElementType;
use crate::optable::{AttributeName as A, Mnemonic};
use crate::program::*;
use crate::verify::dense_elements;

/// The first element, in canonical order, whose divisor is zero.
#[derive(Clone, Copy, PartialEq, Eq, Debug)]
pub struct ZeroDivisor {
    pub element: usize,
}

/// One result element of a reduction, from its number in canonical order, the start value and the
/// elements of its slice in ascending order, under the body's op.
pub type Schedule<'a> = &'a dyn Fn(usize, i128, &[i128], &dyn Fn(i128, i128) -> i128) -> i128;

/// "Evaluation folds from the start value, once, over elements in ascending order"
/// (01 Reductions); no elements give the start value.
pub fn fold(_element: usize, start: i128, slice: &[i128], body: &dyn Fn(i128, i128) -> i128) -> i128 {
    slice.iter().fold(start, |value, &next| body(value, next))
}

/// The result of an op on its operands, each reduction by `schedule`.
pub fn apply(program: &Program, op: &Op, operands: &[&Tensor], schedule: Schedule) -> Result<Tensor, ZeroDivisor> {
    match op.mnemonic {
        Mnemonic::Constant => Ok(constant(op)),
        Mnemonic::Reduce => Ok(reduce(program, op, operands, schedule)),
        _ => tabulate(&op.result_types[0], |element, index| {
            value_at(op, operands, element, index).ok_or(ZeroDivisor { element })
        }),
    }
}

// Indices.

/// A tensor from its value at each index, "in canonical order, last dimension fastest"
/// (01 Element types).
fn tabulate<E>(tensor: &TensorType, value: impl Fn(usize, &[i128]) -> Result<i128, E>) -> Result<Tensor, E> {
    let mut elements = Vec::with_capacity(tensor.elements());
    let mut index = vec![0i128; tensor.rank()];
    for element in 0..tensor.elements() {
        elements.push(value(element, &index)?);
        advance(&mut index, &tensor.shape);
    }
    Ok(Tensor { tensor: tensor.clone(), elements })
}

/// The next index in ascending lexicographic order; after the last one, the first again.
fn advance(index: &mut [i128], shape: &[usize]) {
    for d in (0..shape.len()).rev() {
        index[d] += 1;
        if index[d] < shape[d] as i128 {
            return;
        }
        index[d] = 0;
    }
}

/// The element of a tensor at an index.
fn at(tensor: &Tensor, index: &[i128]) -> i128 {
    let shape = &tensor.tensor.shape;
    let position = (0..shape.len()).fold(0, |position, d| position * shape[d] as i128 + index[d]);
    tensor.elements[position as usize]
}

/// 000 clamp and select: "rank(min) = 0 ? min[] : min[result_index]".
fn at_or_only(tensor: &Tensor, index: &[i128]) -> i128 {
    if tensor.tensor.rank() == 0 {
        tensor.elements[0]
    } else {
        at(tensor, index)
    }
}

fn list(op: &Op, name: A) -> Vec<i128> {
    op.list(name).unwrap_or_default().iter().map(|&number| number as i128).collect()
}

// One element of a result.

/// result[result_index]; nothing if its divisor is zero.
fn value_at(op: &Op, operands: &[&Tensor], element: usize, index: &[i128]) -> Option<i128> {
    let result_type = op.result_types[0].element;
    match op.mnemonic {
        Mnemonic::Iota => Some(iota(op, result_type, index)),
        Mnemonic::Abs
        | Mnemonic::Sign
        | Mnemonic::Negate
        | Mnemonic::Not
        | Mnemonic::CountLeadingZeros
        | Mnemonic::Popcnt => Some(unary(op.mnemonic, result_type, at(operands[0], index))),
        Mnemonic::Convert => Some(convert(result_type, at(operands[0], index))),
        Mnemonic::Compare => Some(compare(op, at(operands[0], index), at(operands[1], index))),
        Mnemonic::Select => Some(select(operands, index)),
        Mnemonic::Clamp => Some(clamp(operands, index)),
        Mnemonic::Reshape => Some(operands[0].elements[element]),
        Mnemonic::BroadcastInDim => Some(at(operands[0], &broadcast_index(op, operands[0], index))),
        Mnemonic::Transpose => Some(at(operands[0], &transpose_index(op, index))),
        Mnemonic::Slice => Some(at(operands[0], &slice_index(op, index))),
        Mnemonic::Reverse => Some(at(operands[0], &reverse_index(op, index))),
        Mnemonic::DynamicSlice => Some(at(operands[0], &dynamic_slice_index(op, operands, index))),
        Mnemonic::Concatenate => Some(concatenate(op, operands, index)),
        Mnemonic::Pad => Some(pad(op, operands, index)),
        _ => binary(op.mnemonic, result_type, at(operands[0], index), at(operands[1], index)),
    }
}

// Element by element (01).

/// abs, sign, negate, not, count_leading_zeros, popcnt of a value.
pub fn unary(mnemonic: Mnemonic, element: ElementType, x: i128) -> i128 {
    match mnemonic {
        // "abs of the lowest value saturates to the highest".
        Mnemonic::Abs => x.abs().min(element.highest()),
        Mnemonic::Sign => x.signum(),
        Mnemonic::Negate => element.wrap(-x),
        // Every bit turned over: -x - 1 modulo 2^n; on `i1` the other boolean.
        Mnemonic::Not => element.wrap(-x - 1),
        // "count_leading_zeros and popcnt over the type's width".
        Mnemonic::CountLeadingZeros => (element.bits(x).leading_zeros() + element.width()) as i128 - 64,
        Mnemonic::Popcnt => element.bits(x).count_ones() as i128,
        _ => unreachable!("{} takes not one operand", mnemonic.name()),
    }
}

/// The ops on two values of one type; nothing if the divisor is zero.
pub fn binary(mnemonic: Mnemonic, element: ElementType, x: i128, y: i128) -> Option<i128> {
    Some(match mnemonic {
        // "On `i1`, add is or, multiply is and".
        Mnemonic::Add if element.is_boolean() => x | y,
        Mnemonic::Multiply if element.is_boolean() => x & y,
        Mnemonic::Add => element.wrap(x + y),
        Mnemonic::Subtract => element.wrap(x - y),
        // A product of two 64-bit numbers modulo 2^128 is right modulo 2^n.
        Mnemonic::Multiply => element.wrap(x.wrapping_mul(y)),
        // "Evaluation stops at the first element whose divisor is zero."
        Mnemonic::Divide | Mnemonic::Remainder if y == 0 => return None,
        // "divide drops the fraction toward zero; remainder has the dividend's sign. Lowest by -1:
        // quotient lowest, remainder 0": Rust's `/` and `%` on i128, then wrapping.
        Mnemonic::Divide => element.wrap(x / y),
        Mnemonic::Remainder => x % y,
        // "maximum, minimum, compare by value; on `i1` false is below true."
        Mnemonic::Maximum => x.max(y),
        Mnemonic::Minimum => x.min(y),
        Mnemonic::And => element.wrap((element.bits(x) & element.bits(y)) as i128),
        Mnemonic::Or => element.wrap((element.bits(x) | element.bits(y)) as i128),
        Mnemonic::Xor => element.wrap((element.bits(x) ^ element.bits(y)) as i128),
        Mnemonic::ShiftLeft | Mnemonic::ShiftRightArithmetic | Mnemonic::ShiftRightLogical => {
            shift(mnemonic, element, x, y)
        }
        _ => unreachable!("{} is not element by element on two operands", mnemonic.name()),
    })
}

/// "an amount below 0 or at least the width gives 0, and -1 for shift_right_arithmetic of a
/// negative; on unsigned types that op fills with zeros" (01 Element by element, OP-93).
fn shift(mnemonic: Mnemonic, element: ElementType, x: i128, amount: i128) -> i128 {
    let outside = amount < 0 || amount >= element.width() as i128;
    match mnemonic {
        Mnemonic::ShiftRightArithmetic if outside => -((x < 0) as i128),
        _ if outside => 0,
        Mnemonic::ShiftLeft => element.wrap(x << amount),
        Mnemonic::ShiftRightArithmetic => x >> amount,
        _ => element.wrap((element.bits(x) >> amount) as i128),
    }
}

/// "convert wrap[s] .. To `i1`, convert gives false for zero, else true" (OP-92).
pub fn convert(element: ElementType, x: i128) -> i128 {
    if element.is_boolean() {
        (x != 0) as i128
    } else {
        element.wrap(x)
    }
}

/// 000 compare: `EQ`: lhs = rhs ..
fn compare(op: &Op, x: i128, y: i128) -> i128 {
    let holds = match op.choice(A::ComparisonDirection) {
        Some((_, Choice::Eq)) => x == y,
        Some((_, Choice::Ne)) => x != y,
        Some((_, Choice::Ge)) => x >= y,
        Some((_, Choice::Gt)) => x > y,
        Some((_, Choice::Le)) => x <= y,
        _ => x < y,
    };
    holds as i128
}

/// "clamp is minimum(maximum(x, min), max), even if min exceeds max".
fn clamp(operands: &[&Tensor], index: &[i128]) -> i128 {
    let (min, x, max) = (at_or_only(operands[0], index), at(operands[1], index), at_or_only(operands[2], index));
    x.max(min).min(max)
}

/// 000 select: pred_element ? on_true[result_index] : on_false[result_index].
fn select(operands: &[&Tensor], index: &[i128]) -> i128 {
    if at_or_only(operands[0], index) == 1 {
        at(operands[1], index)
    } else {
        at(operands[2], index)
    }
}

// Shape by shape (01).

/// 000 constant: the dense value.
fn constant(op: &Op) -> Tensor {
    let elements = op.dense(A::Value).and_then(dense_elements).unwrap_or_default();
    Tensor { tensor: op.result_types[0].clone(), elements }
}

/// 000 iota: output[output_index] = output_index[iota_dimension], wrapped (01 "iota .. wrap").
fn iota(op: &Op, element: ElementType, index: &[i128]) -> i128 {
    element.wrap(index[op.number(A::IotaDimension).unwrap_or_default() as usize])
}

/// 000 broadcast_in_dim: operand_index[d] = 0 if dim(operand, d) = 1, otherwise
/// result_index[broadcast_dimensions[d]].
fn broadcast_index(op: &Op, operand: &Tensor, index: &[i128]) -> Vec<i128> {
    let dimensions = list(op, A::BroadcastDimensions);
    let shape = &operand.tensor.shape;
    (0..shape.len()).map(|d| if shape[d] == 1 { 0 } else { index[dimensions[d] as usize] }).collect()
}

/// "transpose: result_index[d] = operand_index[permutation[d]]" (01, 000).
fn transpose_index(op: &Op, index: &[i128]) -> Vec<i128> {
    let permutation = list(op, A::Permutation);
    let mut operand_index = vec![0; index.len()];
    for d in 0..index.len() {
        operand_index[permutation[d] as usize] = index[d];
    }
    operand_index
}

/// 000 slice: operand_index = start_indices + result_index * strides.
fn slice_index(op: &Op, index: &[i128]) -> Vec<i128> {
    let (start, strides) = (list(op, A::StartIndices), list(op, A::Strides));
    (0..index.len()).map(|d| start[d] + index[d] * strides[d]).collect()
}

/// 000 reverse: operand_index[d] = dim(result, d) - result_index[d] - 1 if d in dimensions.
fn reverse_index(op: &Op, index: &[i128]) -> Vec<i128> {
    let dimensions = list(op, A::Dimensions);
    let shape = &op.result_types[0].shape;
    let turned = |d: usize| if dimensions.contains(&(d as i128)) { shape[d] as i128 - index[d] - 1 } else { index[d] };
    (0..index.len()).map(turned).collect()
}

/// 000 dynamic_slice: operand_index = clamp(0, start_indices, shape(operand) - slice_sizes) +
/// result_index; "each start, read in its own type, is clamped to 0 .. size - slice size" (01).
fn dynamic_slice_index(op: &Op, operands: &[&Tensor], index: &[i128]) -> Vec<i128> {
    let slice_sizes = list(op, A::SliceSizes);
    let shape = &operands[0].tensor.shape;
    let start = |d: usize| operands[1 + d].elements[0].max(0).min(shape[d] as i128 - slice_sizes[d]);
    (0..index.len()).map(|d| start(d) + index[d]).collect()
}

/// 000 concatenate: result[.., id, ..] = inputs[k][.., kd, ..] where id = d0 + ... + dk-1 + kd.
fn concatenate(op: &Op, inputs: &[&Tensor], index: &[i128]) -> i128 {
    let d = op.number(A::Dimension).unwrap_or_default() as usize;
    let mut input_index = index.to_vec();
    for input in inputs {
        let size = input.tensor.shape[d] as i128;
        if input_index[d] < size {
            return at(input, &input_index);
        }
        input_index[d] -= size;
    }
    unreachable!("C6 of concatenate: the sizes add up to the result's")
}

/// 000 pad: operand[operand_index] if result_index = edge_padding_low + operand_index *
/// (interior_padding + 1), padding_value otherwise.
fn pad(op: &Op, operands: &[&Tensor], index: &[i128]) -> i128 {
    let (low, interior) = (list(op, A::EdgePaddingLow), list(op, A::InteriorPadding));
    let shape = &operands[0].tensor.shape;
    let mut operand_index = Vec::with_capacity(index.len());
    for d in 0..index.len() {
        let (distance, step) = (index[d] - low[d], interior[d] + 1);
        let inside = distance >= 0 && distance % step == 0 && distance / step < shape[d] as i128;
        if !inside {
            return operands[1].elements[0];
        }
        operand_index.push(distance / step);
    }
    at(operands[0], &operand_index)
}

// Reductions (01, 000 reduce).

/// The op of a reduction's body.
pub fn body_op(program: &Program, reduce: &Op) -> Mnemonic {
    program.bodies[reduce.bodies[0]].ops[0].mnemonic
}

/// The start value for which a body's op changes nothing: "0 for add, or, xor; 1 for multiply;
/// lowest for maximum; highest for minimum; all bits set for and; on `i1` by the logical meaning"
/// (01 Reductions).
pub fn identity(body: Mnemonic, element: ElementType) -> i128 {
    match body {
        Mnemonic::Multiply => 1,
        Mnemonic::Maximum => element.lowest(),
        Mnemonic::Minimum => element.highest(),
        Mnemonic::And => element.wrap(-1),
        _ => 0,
    }
}

/// How many elements of the input each result element of a reduction takes.
pub fn slice_elements(reduce: &Op) -> usize {
    slice_shape(reduce).iter().product()
}

/// The sizes of the dimensions reduced, in ascending order of the dimensions: the shape of the
/// tensor `inputs...[j0, ..., :, ..., jR-1]` of 000.
fn slice_shape(reduce: &Op) -> Vec<usize> {
    let shape = &reduce.operand_types[0].shape;
    (0..shape.len()).filter(|&d| is_reduced(reduce, d)).map(|d| shape[d]).collect()
}

fn is_reduced(reduce: &Op, dimension: usize) -> bool {
    list(reduce, A::Dimensions).contains(&(dimension as i128))
}

fn reduce(program: &Program, op: &Op, operands: &[&Tensor], schedule: Schedule) -> Tensor {
    let (body, element) = (body_op(program, op), op.result_types[0].element);
    // Total: none of the seven ops of a body divides.
    let combine = |x: i128, y: i128| binary(body, element, x, y).unwrap_or_default();
    let start = operands[1].elements[0];
    let reduced = tabulate(&op.result_types[0], |number, index| {
        let slice = slice_of(op, operands[0], index);
        Ok::<i128, ZeroDivisor>(schedule(number, start, &slice, &combine))
    });
    reduced.unwrap_or_else(|_| unreachable!("a reduction meets no divisor"))
}

/// "input_slices = inputs...[j0, ..., :, ..., jR-1], where `:` are inserted at `dimensions`", its
/// values "in the ascending lexicographic order of `index`" (000 reduce).
fn slice_of(op: &Op, input: &Tensor, result_index: &[i128]) -> Vec<i128> {
    let shape = slice_shape(op);
    let mut slice_index = vec![0i128; shape.len()];
    let mut values = Vec::new();
    for _ in 0..slice_elements(op) {
        values.push(at(input, &inserted(op, result_index, &slice_index)));
        advance(&mut slice_index, &shape);
    }
    values
}

/// The input's index: the slice's index at the dimensions reduced, the result's at the others.
fn inserted(op: &Op, result_index: &[i128], slice_index: &[i128]) -> Vec<i128> {
    let (mut kept, mut reduced) = (result_index.iter(), slice_index.iter());
    let rank = op.operand_types[0].rank();
    let next = |d: usize| if is_reduced(op, d) { reduced.next() } else { kept.next() };
    (0..rank).map(next).map(|place| place.copied().unwrap_or_default()).collect()
}
