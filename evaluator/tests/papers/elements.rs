//! 01 Element by element: every rule on every type, against Rust's own arithmetic of that width;
//! exhaustively on 8 bits, on edge values of the wider types. And the facts of the types.

use evaluator::element::ElementType;
use evaluator::ops::{binary, convert, identity, unary};
use evaluator::optable::Mnemonic::{self, *};

/// Compares every element op of one integer type with Rust's arithmetic on `$native`.
macro_rules! compares {
    ($test:ident, $element:expr, $native:ty, $unsigned:ty, $values:expr) => {
        #[test]
        fn $test() {
            let values: Vec<$native> = $values;
            let width = <$native>::BITS as i128;
            let signed = <$native>::MIN != 0;
            for &x in &values {
                check_unary($element, x as i128, Negate, x.wrapping_neg() as i128);
                check_unary($element, x as i128, Not, !x as i128);
                check_unary($element, x as i128, CountLeadingZeros, x.leading_zeros() as i128);
                check_unary($element, x as i128, Popcnt, x.count_ones() as i128);
                for &y in &values {
                    let (a, b) = (x as i128, y as i128);
                    let check =
                        |mnemonic, result: $native| check_binary($element, a, b, mnemonic, Some(result as i128));
                    check(Add, x.wrapping_add(y));
                    check(Subtract, x.wrapping_sub(y));
                    check(Multiply, x.wrapping_mul(y));
                    check(Maximum, x.max(y));
                    check(Minimum, x.min(y));
                    check(And, x & y);
                    check(Or, x | y);
                    check(Xor, x ^ y);
                    if y == 0 {
                        check_binary($element, a, b, Divide, None);
                        check_binary($element, a, b, Remainder, None);
                    } else {
                        check(Divide, x.wrapping_div(y));
                        check(Remainder, x.wrapping_rem(y));
                    }
                    if b < 0 || b >= width {
                        check(ShiftLeft, 0);
                        check(ShiftRightLogical, 0);
                        let negative = signed && a < 0;
                        check(ShiftRightArithmetic, if negative { !0 } else { 0 });
                    } else {
                        check(ShiftLeft, x << y);
                        check(ShiftRightLogical, ((x as $unsigned) >> y) as $native);
                        check(ShiftRightArithmetic, x >> y);
                    }
                }
            }
        }
    };
}

fn check_unary(element: ElementType, x: i128, mnemonic: Mnemonic, expected: i128) {
    assert_eq!(unary(mnemonic, element, x), expected, "{mnemonic:?} of {x} as {}", element.name());
}

fn check_binary(element: ElementType, x: i128, y: i128, mnemonic: Mnemonic, expected: Option<i128>) {
    assert_eq!(binary(mnemonic, element, x, y), expected, "{mnemonic:?} of {x}, {y} as {}", element.name());
}

/// Values around the ends, around zero, around each power of two.
macro_rules! edges {
    ($native:ty) => {{
        let mut values: Vec<$native> = vec![0, 1, 2, 3, 7, 10, 100];
        for bit in 0..<$native>::BITS {
            let power = (1 as $native) << bit;
            values.extend([power, power.wrapping_sub(1), power.wrapping_add(1), power.wrapping_neg()]);
        }
        values.extend([<$native>::MIN, <$native>::MAX, <$native>::MAX - 1, <$native>::MIN + 1]);
        values.sort();
        values.dedup();
        values
    }};
}

compares!(every_pair_of_i8, ElementType::I8, i8, u8, (i8::MIN..=i8::MAX).collect());
compares!(every_pair_of_ui8, ElementType::Ui8, u8, u8, (u8::MIN..=u8::MAX).collect());
compares!(edges_of_i16, ElementType::I16, i16, u16, edges!(i16));
compares!(edges_of_ui16, ElementType::Ui16, u16, u16, edges!(u16));
compares!(edges_of_i32, ElementType::I32, i32, u32, edges!(i32));
compares!(edges_of_ui32, ElementType::Ui32, u32, u32, edges!(u32));
compares!(edges_of_i64, ElementType::I64, i64, u64, edges!(i64));
compares!(edges_of_ui64, ElementType::Ui64, u64, u64, edges!(u64));

#[test]
fn abs_and_sign_of_signed_types() {
    for x in i8::MIN..=i8::MAX {
        check_unary(ElementType::I8, x as i128, Abs, x.saturating_abs() as i128);
        check_unary(ElementType::I8, x as i128, Sign, x.signum() as i128);
    }
    for x in edges!(i64) {
        check_unary(ElementType::I64, x as i128, Abs, x.saturating_abs() as i128);
        check_unary(ElementType::I64, x as i128, Sign, x.signum() as i128);
    }
    check_unary(ElementType::I16, -32768, Abs, 32767);
    check_unary(ElementType::I32, -2147483648, Abs, 2147483647);
}

#[test]
fn booleans() {
    for x in [false, true] {
        check_unary(ElementType::I1, x as i128, Not, !x as i128);
        for y in [false, true] {
            let check = |mnemonic, result: bool| {
                check_binary(ElementType::I1, x as i128, y as i128, mnemonic, Some(result as i128))
            };
            // "On `i1`, add is or, multiply is and"; "false is below true".
            check(Add, x | y);
            check(Multiply, x & y);
            check(Maximum, x | y);
            check(Minimum, x & y);
            check(And, x & y);
            check(Or, x | y);
            check(Xor, x ^ y);
        }
    }
}

#[test]
fn conversions_between_all_types() {
    for from in ElementType::ALL {
        for value in [from.lowest(), from.lowest() + 1, 0, 1, from.highest() - 1, from.highest(), from.highest() / 3] {
            for to in ElementType::ALL {
                let expected = match to {
                    ElementType::I1 => (value != 0) as i128,
                    ElementType::I8 => value as i8 as i128,
                    ElementType::I16 => value as i16 as i128,
                    ElementType::I32 => value as i32 as i128,
                    ElementType::I64 => value as i64 as i128,
                    ElementType::Ui8 => value as u8 as i128,
                    ElementType::Ui16 => value as u16 as i128,
                    ElementType::Ui32 => value as u32 as i128,
                    ElementType::Ui64 => value as u64 as i128,
                };
                assert_eq!(convert(to, value), expected, "{value} to {}", to.name());
            }
        }
    }
}

#[test]
fn facts_of_the_types() {
    for (element, name, width, lowest, highest) in [
        (ElementType::I1, "i1", 1, 0, 1),
        (ElementType::I8, "i8", 8, i8::MIN as i128, i8::MAX as i128),
        (ElementType::I16, "i16", 16, i16::MIN as i128, i16::MAX as i128),
        (ElementType::I32, "i32", 32, i32::MIN as i128, i32::MAX as i128),
        (ElementType::I64, "i64", 64, i64::MIN as i128, i64::MAX as i128),
        (ElementType::Ui8, "ui8", 8, 0, u8::MAX as i128),
        (ElementType::Ui16, "ui16", 16, 0, u16::MAX as i128),
        (ElementType::Ui32, "ui32", 32, 0, u32::MAX as i128),
        (ElementType::Ui64, "ui64", 64, 0, u64::MAX as i128),
    ] {
        assert_eq!(
            (element.name(), element.width(), element.lowest(), element.highest()),
            (name, width, lowest, highest)
        );
        assert_eq!(ElementType::of_name(name), Some(element));
        for value in [lowest, highest] {
            assert_eq!(element.of_slot(element.to_slot(value)), Some(value));
        }
    }
}

#[test]
fn identities_change_nothing() {
    for body in [Add, Multiply, Maximum, Minimum, And, Or, Xor] {
        for element in ElementType::ALL {
            let neutral = identity(body, element);
            assert!(element.holds(neutral));
            for x in [element.lowest(), 0, 1, element.highest()] {
                check_binary(element, neutral, x, body, Some(x));
                check_binary(element, x, neutral, body, Some(x));
            }
        }
    }
}

#[test]
fn the_reduction_ops_are_associative_and_commutative() {
    for body in [Add, Multiply, Maximum, Minimum, And, Or, Xor] {
        for element in ElementType::ALL {
            let values = [element.lowest(), 0, 1, element.highest(), element.highest() / 3 + 1];
            let combine = |x, y| binary(body, element, x, y).unwrap();
            for x in values {
                for y in values {
                    assert_eq!(combine(x, y), combine(y, x));
                    for z in values {
                        assert_eq!(combine(combine(x, y), z), combine(x, combine(y, z)));
                    }
                }
            }
        }
    }
}
