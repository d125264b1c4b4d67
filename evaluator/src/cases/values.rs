//! Element values, tensor values and shapes to try: the ends of each type's range, small numbers,
//! shift amounts around the width, sizes 0 and 1, ranks 0 to 6.

use super::model::{Dense, Element, Literal, Type, ELEMENTS};
use crate::random::Random;

/// A value of an element type, often one at an edge.
pub fn value(random: &mut Random, element: Element) -> i128 {
    let width = element.width as i128;
    let drawn = match random.below(14) {
        0 => element.lowest(),
        1 => element.highest(),
        2 => 0,
        3 => 1,
        4 => -1,
        5 => element.lowest() + 1,
        6 => element.highest() - 1,
        7 => *random.pick(&[width - 1, width, width + 1, -width]),
        8 => 1i128 << random.below(element.width as u64),
        9 => -(1i128 << random.below(element.width as u64)),
        10 | 11 => random.between(0, 14) as i128 - 5,
        _ => return any(random, element),
    };
    wrap(element, drawn)
}

/// Any value of the type, all alike likely.
fn any(random: &mut Random, element: Element) -> i128 {
    wrap(element, random.bits() as i128)
}

/// The value modulo 2^n in the type's range.
fn wrap(element: Element, value: i128) -> i128 {
    let rest = value.rem_euclid(1i128 << element.width);
    if rest > element.highest() {
        rest - (1i128 << element.width)
    } else {
        rest
    }
}

/// A value that is not zero (of `i1`: true).
pub fn nonzero(random: &mut Random, element: Element) -> i128 {
    match value(random, element) {
        0 => element.highest(),
        other => other,
    }
}

/// Values for all elements of a type.
pub fn values(random: &mut Random, tensor: &Type) -> Vec<i128> {
    (0..tensor.count()).map(|_| value(random, tensor.element)).collect()
}

/// An element type that a condition takes; it must take one.
pub fn element(random: &mut Random, takes: fn(Element) -> bool) -> Element {
    let list: Vec<Element> = ELEMENTS.iter().copied().filter(|e| takes(*e)).collect();
    *random.pick(&list)
}

/// Another element type that a condition takes; it must take two.
pub fn other_element(random: &mut Random, unlike: Element, takes: fn(Element) -> bool) -> Element {
    let list: Vec<Element> = ELEMENTS.iter().copied().filter(|e| takes(*e) && *e != unlike).collect();
    *random.pick(&list)
}

pub fn any_element(_: Element) -> bool {
    true
}

pub fn integer(element: Element) -> bool {
    !element.is_boolean()
}

pub fn signed(element: Element) -> bool {
    element.signed
}

/// Sizes of the dimensions, at most `most` elements, sometimes none.
pub fn shape(random: &mut Random, most: u64) -> Vec<u64> {
    let rank = *random.pick(&[0, 0, 1, 1, 1, 2, 2, 2, 2, 3, 3, 3, 4, 4, 5, 6, 6]);
    shape_of_rank(random, rank, most)
}

/// Sizes of `rank` dimensions, at most `most` elements, sometimes none.
pub fn shape_of_rank(random: &mut Random, rank: usize, most: u64) -> Vec<u64> {
    let mut left = most.max(1);
    let mut dims = Vec::new();
    for _ in 0..rank {
        let top = left.min(if random.chance(1, 6) { 600 } else { 4 });
        let dim = random.between(1, top);
        left /= dim;
        dims.push(dim);
    }
    random.shuffle(&mut dims);
    if rank > 0 && random.chance(1, 11) {
        let place = random.place(rank);
        dims[place] = 0;
        if random.chance(1, 3) {
            let place = random.place(rank);
            dims[place] = 0;
        }
    }
    dims
}

/// Another shape, at most `most` elements: a size changed, a dimension more or fewer, or any other.
pub fn other_shape(random: &mut Random, dims: &[u64], most: u64) -> Vec<u64> {
    loop {
        let found = changed_shape(random, dims, most);
        if found != dims && found.iter().product::<u64>() <= most && bounded(&found) {
            return found;
        }
    }
}

/// Sizes 1 and 2 hold.
pub fn bounded(dims: &[u64]) -> bool {
    dims.len() <= 6 && dims.iter().map(|d| (*d).max(1)).product::<u64>() <= 4096
}

fn changed_shape(random: &mut Random, dims: &[u64], most: u64) -> Vec<u64> {
    let mut found = dims.to_vec();
    match random.below(6) {
        0 => found.insert(random.place(dims.len() + 1), 1),
        1 if !dims.is_empty() => {
            found.remove(random.place(dims.len()));
        }
        2 => random.shuffle(&mut found),
        3 => found = shape(random, most),
        4 if !dims.is_empty() => {
            let place = random.place(dims.len());
            found[place] = found[place].saturating_sub(1);
        }
        _ if !dims.is_empty() => {
            let place = random.place(dims.len());
            found[place] += 1;
        }
        _ => {}
    }
    found
}

/// A shape with just so many elements.
pub fn shape_of_count(random: &mut Random, count: u64) -> Vec<u64> {
    let rank = random.place(7);
    if count == 0 {
        let mut dims = shape_of_rank(random, rank.max(1), 24);
        let place = random.place(dims.len());
        dims[place] = 0;
        return dims;
    }
    let mut dims = Vec::new();
    let mut left = count;
    while dims.len() < rank.max(1) - 1 {
        let divisors: Vec<u64> = (1..=left.min(64)).filter(|d| left.is_multiple_of(*d)).collect();
        let dim = *random.pick(&divisors);
        dims.push(dim);
        left /= dim;
    }
    if count == 1 && rank == 0 {
        return dims;
    }
    dims.push(left);
    random.shuffle(&mut dims);
    dims
}

/// The values as lists nested one level per dimension.
pub fn full_list(tensor: &Type, values: &[i128]) -> Dense {
    nested(tensor.element, &tensor.dims, values)
}

fn nested(element: Element, dims: &[u64], values: &[i128]) -> Dense {
    let Some((first, rest)) = dims.split_first() else {
        return Dense::One(Literal::of(element, values[0]));
    };
    let each = rest.iter().product::<u64>() as usize;
    let item = |i: u64| nested(element, rest, &values[i as usize * each..(i as usize + 1) * each]);
    Dense::List((0..*first).map(item).collect())
}
