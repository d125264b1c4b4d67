//! The sizes of paper 01 and their numbers for refusal 4 (01 Sizes).
//!
//! "At the limit is accepted, one beyond is refused at the token that passes it."

/// "Text up to 65,536 bytes" (refusal 1).
pub const TEXT: usize = 65_536;

/// 1. "Rank at most 6."
pub const RANK: usize = 6;
/// 2. "Each dimension, and the product of a shape's dimensions with every 0 counted as 1, at most
///    4,096."
pub const DIMENSION: i128 = 4_096;
/// 3. "Inputs and op results together at most 8,192 elements, body values not counted."
pub const ELEMENTS: usize = 8_192;
/// 4. "One function has at most 256 ops, its return and body ops not counted."
pub const OPS: usize = 256;
/// 5. "At most 8 operands of an op, inputs, or results."
pub const VALUES: usize = 8;
/// 6. "An attribute list has at most 6 numbers."
pub const LIST: usize = 6;
/// 8. "A sigil and its name have at most 32 characters."
pub const NAME: usize = 32;

/// Size 1 or 2, if a shape passes it: "Two at one token: the lower number."
pub fn passed_by_shape(sizes: &[i128]) -> Option<usize> {
    if sizes.len() > RANK {
        return Some(1);
    }
    let one_too_large = sizes.iter().any(|&size| size > DIMENSION);
    if one_too_large || product_of_nonzero(sizes) > DIMENSION {
        return Some(2);
    }
    None
}

/// "the product of a shape's dimensions with every 0 counted as 1".
fn product_of_nonzero(sizes: &[i128]) -> i128 {
    sizes.iter().fold(1i128, |product, &size| product.saturating_mul(size.max(1)))
}

/// 7. "An attribute number outside `dense` lies in the signed 64-bit range."
pub fn attribute_number(value: i128) -> Option<i64> {
    i64::try_from(value).ok()
}
