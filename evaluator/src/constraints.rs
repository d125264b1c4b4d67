//! The constraints of each op: refusal 8 (000, each op's Constraints).
//!
//! Every function here speaks of an op that refusal 7 let through, takes the constraints in the
//! order of their numbers and gives the first broken one: "8 | constraint broken | op | its C number
//! in 000", "the lowest C number first". "A constraint that names a dimension or list place that
//! doesn't exist counts as broken. Shapes in constraints are whole numbers and never wrap": all
//! arithmetic is in `i128`, where numbers of 64 bits cannot overflow. Constraints that speak only of
//! quantized types hold (OP-71).

use crate::optable::{AttributeName as A, Mnemonic};
use crate::program::*;
use crate::verify::body_type;

/// The number of the first broken constraint.
pub fn first_broken(program: &Program, op: &Op) -> Option<usize> {
    match op.mnemonic {
        Mnemonic::Abs => abs(op),
        Mnemonic::BroadcastInDim => broadcast_in_dim(op),
        Mnemonic::Clamp => clamp(op),
        Mnemonic::Compare => compare(op),
        Mnemonic::Concatenate => concatenate(op),
        Mnemonic::Constant => constant(op),
        Mnemonic::Convert => convert(op),
        Mnemonic::DynamicSlice => dynamic_slice(op),
        Mnemonic::Iota => iota(op),
        Mnemonic::Pad => pad(op),
        Mnemonic::Reduce => reduce(program, op),
        Mnemonic::Reshape => reshape(op),
        Mnemonic::Reverse => reverse(op),
        Mnemonic::Select => select(op),
        Mnemonic::Slice => slice(op),
        Mnemonic::Transpose => transpose(op),
        Mnemonic::FuncReturn | Mnemonic::BodyReturn => None,
        _ => same_type(op),
    }
}

fn result(op: &Op) -> &TensorType {
    &op.result_types[0]
}

fn operand(op: &Op, place: usize) -> &TensorType {
    &op.operand_types[place]
}

fn list(op: &Op, name: A) -> Vec<i128> {
    op.list(name).unwrap_or_default().iter().map(|&number| number as i128).collect()
}

fn sizes(tensor: &TensorType) -> Vec<i128> {
    tensor.shape.iter().map(|&size| size as i128).collect()
}

/// The size of a dimension, if there is one of this number.
fn dim(tensor: &TensorType, dimension: i128) -> Option<i128> {
    let place = usize::try_from(dimension).ok()?;
    tensor.shape.get(place).map(|&size| size as i128)
}

fn all_below(numbers: &[i128], rank: usize) -> bool {
    numbers.iter().all(|&number| 0 <= number && number < rank as i128)
}

fn is_unique(numbers: &[i128]) -> bool {
    (0..numbers.len()).all(|place| !numbers[..place].contains(&numbers[place]))
}

/// C1 of add, and, count_leading_zeros, divide, maximum, minimum, multiply, negate, not, or, popcnt,
/// remainder, the shifts, sign, subtract and xor: all operands and the result have one type
/// (OP-70: multiply's and remainder's C1 are read so too).
fn same_type(op: &Op) -> Option<usize> {
    if op.operand_types.iter().any(|tensor| tensor != result(op)) {
        return Some(1);
    }
    None
}

fn abs(op: &Op) -> Option<usize> {
    // C1 shape(result) = shape(operand).
    if result(op).shape != operand(op, 0).shape {
        return Some(1);
    }
    // C2 baseline_element_type(result) is baseline_element_type(operand).
    if result(op).element != operand(op, 0).element {
        return Some(2);
    }
    None
}

fn broadcast_in_dim(op: &Op) -> Option<usize> {
    let dimensions = list(op, A::BroadcastDimensions);
    // C1 element_type(result) is element_type(operand).
    if result(op).element != operand(op, 0).element {
        return Some(1);
    }
    // C2 size(broadcast_dimensions) = rank(operand).
    if dimensions.len() != operand(op, 0).rank() {
        return Some(2);
    }
    // C3 0 <= broadcast_dimensions < rank(result).
    if !all_below(&dimensions, result(op).rank()) {
        return Some(3);
    }
    // C4 is_unique(broadcast_dimensions).
    if !is_unique(&dimensions) {
        return Some(4);
    }
    // C5 dim(operand, d) = 1 or dim(operand, d) = dim(result, broadcast_dimensions[d]).
    let fits = |(&size, &dimension): (&i128, &i128)| size == 1 || Some(size) == dim(result(op), dimension);
    if !sizes(operand(op, 0)).iter().zip(&dimensions).all(fits) {
        return Some(5);
    }
    None
}

fn clamp(op: &Op) -> Option<usize> {
    let (min, operand, max) = (operand(op, 0), operand(op, 1), operand(op, 2));
    // C1 rank(min) = 0 or shape(min) = shape(operand).
    if min.rank() != 0 && min.shape != operand.shape {
        return Some(1);
    }
    // C2 rank(max) = 0 or shape(max) = shape(operand).
    if max.rank() != 0 && max.shape != operand.shape {
        return Some(2);
    }
    // C3 the element types of min, operand and max are one.
    if min.element != operand.element || operand.element != max.element {
        return Some(3);
    }
    // C4 type(operand) = type(result).
    if operand != result(op) {
        return Some(4);
    }
    None
}

fn compare(op: &Op) -> Option<usize> {
    let (lhs, rhs) = (operand(op, 0), operand(op, 1));
    // C1 element_type(lhs) = element_type(rhs).
    if lhs.element != rhs.element {
        return Some(1);
    }
    // C2 shape(lhs) = shape(rhs) = shape(result).
    if lhs.shape != rhs.shape || rhs.shape != result(op).shape {
        return Some(2);
    }
    // C3 compare_type is SIGNED for signed types and UNSIGNED for the others (OP-74).
    let fitting = if lhs.element.is_signed() { Choice::Signed } else { Choice::Unsigned };
    match op.choice(A::CompareType) {
        Some((_, choice)) if choice != fitting => Some(3),
        _ => None,
    }
}

fn concatenate(op: &Op) -> Option<usize> {
    let inputs = &op.operand_types;
    let dimension = op.number(A::Dimension).unwrap_or_default() as i128;
    // C1 same(element_type(inputs...)).
    if inputs.iter().any(|input| input.element != inputs[0].element) {
        return Some(1);
    }
    // C2 same(shape(inputs...)) except for dim(inputs..., dimension), which must exist (OP-72).
    let rest: Vec<Option<Vec<i128>>> = inputs.iter().map(|input| without(input, dimension)).collect();
    if rest.iter().any(|shape| shape.is_none() || *shape != rest[0]) {
        return Some(2);
    }
    // C3 0 < size(inputs).
    if inputs.is_empty() {
        return Some(3);
    }
    // C4 0 <= dimension < rank(inputs[0]).
    if !all_below(&[dimension], inputs[0].rank()) {
        return Some(4);
    }
    // C5 element_type(result) = element_type(inputs[0]).
    if result(op).element != inputs[0].element {
        return Some(5);
    }
    // C6 shape(result) = shape(inputs[0]) except for dim(result, dimension) = dim(inputs[0], dimension) + ...
    let sum: Option<i128> = inputs.iter().map(|input| dim(input, dimension)).sum();
    if without(result(op), dimension) != rest[0] || dim(result(op), dimension) != sum {
        return Some(6);
    }
    None
}

/// The shape without one dimension, if that dimension exists.
fn without(tensor: &TensorType, dimension: i128) -> Option<Vec<i128>> {
    let mut shape = sizes(tensor);
    dim(tensor, dimension)?;
    shape.remove(dimension as usize);
    Some(shape)
}

fn constant(op: &Op) -> Option<usize> {
    // C1 type(value) = type(output).
    match op.dense(A::Value) {
        Some(dense) if dense.tensor == *result(op) => None,
        _ => Some(1),
    }
}

fn convert(op: &Op) -> Option<usize> {
    // C1 shape(operand) = shape(result).
    if operand(op, 0).shape != result(op).shape {
        return Some(1);
    }
    None
}

fn dynamic_slice(op: &Op) -> Option<usize> {
    let slice_sizes = list(op, A::SliceSizes);
    let starts = &op.operand_types[1..];
    // C1 element_type(operand) = element_type(result).
    if operand(op, 0).element != result(op).element {
        return Some(1);
    }
    // C2 size(start_indices) = size(slice_sizes) = rank(operand).
    if starts.len() != slice_sizes.len() || slice_sizes.len() != operand(op, 0).rank() {
        return Some(2);
    }
    // C3 same(type(start_indices...)).
    if starts.iter().any(|start| *start != starts[0]) {
        return Some(3);
    }
    // C4 0 <= slice_sizes <= shape(operand).
    let shape = sizes(operand(op, 0));
    if slice_sizes.iter().zip(&shape).any(|(&slice, &size)| slice < 0 || slice > size) {
        return Some(4);
    }
    // C5 shape(result) = slice_sizes.
    if sizes(result(op)) != slice_sizes {
        return Some(5);
    }
    None
}

fn iota(op: &Op) -> Option<usize> {
    // C1 0 <= iota_dimension < rank(output) (OP-79).
    let dimension = op.number(A::IotaDimension).unwrap_or_default() as i128;
    if !all_below(&[dimension], result(op).rank()) {
        return Some(1);
    }
    None
}

fn pad(op: &Op) -> Option<usize> {
    let (low, high, interior) =
        (list(op, A::EdgePaddingLow), list(op, A::EdgePaddingHigh), list(op, A::InteriorPadding));
    let shape = sizes(operand(op, 0));
    // C1 element_type(operand) = element_type(padding_value) = element_type(result).
    if operand(op, 0).element != operand(op, 1).element || operand(op, 1).element != result(op).element {
        return Some(1);
    }
    // C2 size(edge_padding_low) = size(edge_padding_high) = size(interior_padding) = rank(operand).
    if low.len() != shape.len() || high.len() != shape.len() || interior.len() != shape.len() {
        return Some(2);
    }
    // C3 0 <= interior_padding.
    if interior.iter().any(|&number| number < 0) {
        return Some(3);
    }
    // C4 shape(result) = shape(operand) + edge_padding_low + max(shape(operand) - 1, 0) *
    // interior_padding + edge_padding_high (OP-82: never below 0, as no result's size is).
    let padded: Vec<i128> =
        (0..shape.len()).map(|d| shape[d] + low[d] + (shape[d] - 1).max(0) * interior[d] + high[d]).collect();
    if sizes(result(op)) != padded {
        return Some(4);
    }
    None
}

fn reduce(program: &Program, op: &Op) -> Option<usize> {
    let (input, start) = (operand(op, 0), operand(op, 1));
    let dimensions = list(op, A::Dimensions);
    // C1 and C3 hold with one input (OP-75).
    // C2 element_type(inputs...) = element_type(init_values...): "a start that differs breaks C2".
    if input.element != start.element {
        return Some(2);
    }
    // C4 0 <= dimensions < rank(inputs[0]).
    if !all_below(&dimensions, input.rank()) {
        return Some(4);
    }
    // C5 is_unique(dimensions).
    if !is_unique(&dimensions) {
        return Some(5);
    }
    // C6 body has type (tensor<E>, tensor<E>) -> tensor<E>, E the input's: "body arguments C6" (OP-76).
    let argument = TensorType::new(input.element, &[]);
    if body_type(program, op) != Some(&argument) {
        return Some(6);
    }
    // C7 shape(results...) = shape(inputs...) except the dimensions reduced.
    let kept: Vec<usize> =
        (0..input.rank()).filter(|&d| !dimensions.contains(&(d as i128))).map(|d| input.shape[d]).collect();
    if result(op).shape != kept {
        return Some(7);
    }
    // C8 element_type(results[i]) = E: "a result C8".
    if result(op).element != input.element {
        return Some(8);
    }
    None
}

fn reshape(op: &Op) -> Option<usize> {
    // C1 element_type(result) is element_type(operand).
    if result(op).element != operand(op, 0).element {
        return Some(1);
    }
    // C2 size(operand) = size(result), the real sizes (OP-80).
    if operand(op, 0).elements() != result(op).elements() {
        return Some(2);
    }
    None
}

fn reverse(op: &Op) -> Option<usize> {
    let dimensions = list(op, A::Dimensions);
    // C1 type(operand) = type(result).
    if operand(op, 0) != result(op) {
        return Some(1);
    }
    // C2 is_unique(dimensions).
    if !is_unique(&dimensions) {
        return Some(2);
    }
    // C3 0 <= dimensions < rank(result).
    if !all_below(&dimensions, result(op).rank()) {
        return Some(3);
    }
    None
}

fn select(op: &Op) -> Option<usize> {
    let (pred, on_true, on_false) = (operand(op, 0), operand(op, 1), operand(op, 2));
    // C1 rank(pred) = 0 or shape(pred) = shape(on_true).
    if pred.rank() != 0 && pred.shape != on_true.shape {
        return Some(1);
    }
    // C2 type(on_true) = type(on_false) = type(result).
    if on_true != on_false || on_false != result(op) {
        return Some(2);
    }
    None
}

fn slice(op: &Op) -> Option<usize> {
    let (start, limit, strides) = (list(op, A::StartIndices), list(op, A::LimitIndices), list(op, A::Strides));
    let shape = sizes(operand(op, 0));
    // C1 element_type(operand) = element_type(result).
    if operand(op, 0).element != result(op).element {
        return Some(1);
    }
    // C2 size(start_indices) = size(limit_indices) = size(strides) = rank(operand).
    if start.len() != shape.len() || limit.len() != shape.len() || strides.len() != shape.len() {
        return Some(2);
    }
    // C3 0 <= start_indices <= limit_indices <= shape(operand).
    if (0..shape.len()).any(|d| start[d] < 0 || limit[d] < start[d] || shape[d] < limit[d]) {
        return Some(3);
    }
    // C4 0 < strides.
    if strides.iter().any(|&stride| stride <= 0) {
        return Some(4);
    }
    // C5 shape(result) = ceil((limit_indices - start_indices) / strides).
    let sliced: Vec<i128> = (0..shape.len()).map(|d| (limit[d] - start[d] + strides[d] - 1) / strides[d]).collect();
    if sizes(result(op)) != sliced {
        return Some(5);
    }
    None
}

fn transpose(op: &Op) -> Option<usize> {
    let permutation = list(op, A::Permutation);
    let rank = operand(op, 0).rank();
    // C1 element_type(result) is element_type(operand).
    if result(op).element != operand(op, 0).element {
        return Some(1);
    }
    // C2 permutation is a permutation of range(rank(operand)).
    if permutation.len() != rank || !all_below(&permutation, rank) || !is_unique(&permutation) {
        return Some(2);
    }
    // C3 shape(result) = dim(operand, permutation...).
    let permuted: Option<Vec<i128>> = permutation.iter().map(|&dimension| dim(operand(op, 0), dimension)).collect();
    if Some(sizes(result(op))) != permuted {
        return Some(3);
    }
    None
}
