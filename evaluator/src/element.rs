//! Element types: width, lowest and highest value, slots, wrapping (01 Element types, The store).
//!
//! A value is a mathematical integer in an `i128`; a boolean is 0 or 1.

/// "`i1`, signed 8, 16, 32, 64 bits .. and unsigned `ui8` to `ui64`" (01 Element types).
#[derive(Clone, Copy, PartialEq, Eq, Hash, Debug)]
pub enum ElementType {
    I1,
    I8,
    I16,
    I32,
    I64,
    Ui8,
    Ui16,
    Ui32,
    Ui64,
}

use ElementType::*;

impl ElementType {
    pub const ALL: [ElementType; 9] = [I1, I8, I16, I32, I64, Ui8, Ui16, Ui32, Ui64];

    /// The type of this name: "written `i8` or `si8`, one meaning" (01 Element types). Every other
    /// word names a type that is not in paper 01 (OP-23).
    pub fn of_name(name: &str) -> Option<ElementType> {
        match name {
            "i1" => Some(I1),
            "i8" | "si8" => Some(I8),
            "i16" | "si16" => Some(I16),
            "i32" | "si32" => Some(I32),
            "i64" | "si64" => Some(I64),
            "ui8" => Some(Ui8),
            "ui16" => Some(Ui16),
            "ui32" => Some(Ui32),
            "ui64" => Some(Ui64),
            _ => None,
        }
    }

    /// "printed as `i8`" (01 Element types).
    pub fn name(self) -> &'static str {
        match self {
            I1 => "i1",
            I8 => "i8",
            I16 => "i16",
            I32 => "i32",
            I64 => "i64",
            Ui8 => "ui8",
            Ui16 => "ui16",
            Ui32 => "ui32",
            Ui64 => "ui64",
        }
    }

    pub fn width(self) -> u32 {
        match self {
            I1 => 1,
            I8 | Ui8 => 8,
            I16 | Ui16 => 16,
            I32 | Ui32 => 32,
            I64 | Ui64 => 64,
        }
    }

    pub fn is_boolean(self) -> bool {
        self == I1
    }

    pub fn is_signed(self) -> bool {
        matches!(self, I8 | I16 | I32 | I64)
    }

    pub fn is_unsigned(self) -> bool {
        matches!(self, Ui8 | Ui16 | Ui32 | Ui64)
    }

    /// 000's "integer type": signed or unsigned, not boolean.
    pub fn is_integer(self) -> bool {
        self.is_signed() || self.is_unsigned()
    }

    /// "`siN` .. from `-2^(N-1)`", "`uiN` .. from `0`" (000 Types).
    pub fn lowest(self) -> i128 {
        if self.is_signed() {
            -(1i128 << (self.width() - 1))
        } else {
            0
        }
    }

    /// ".. to `2^(N-1)-1` inclusive", ".. to `2^N-1` inclusive" (000 Types).
    pub fn highest(self) -> i128 {
        if self.is_signed() {
            (1i128 << (self.width() - 1)) - 1
        } else {
            (1i128 << self.width()) - 1
        }
    }

    pub fn holds(self, value: i128) -> bool {
        self.lowest() <= value && value <= self.highest()
    }

    /// "Integer results are taken modulo 2^n into the type's range" (01 Element by element).
    pub fn wrap(self, value: i128) -> i128 {
        let modulus = 1i128 << self.width();
        let rest = value.rem_euclid(modulus);
        if rest > self.highest() {
            rest - modulus
        } else {
            rest
        }
    }

    /// The value modulo 2^n, as the n bits that stand for it.
    pub fn bits(self, value: i128) -> u64 {
        value.rem_euclid(1i128 << self.width()) as u64
    }

    /// "A slot is 64 bits: an unsigned or boolean value as itself, a signed one modulo 2^64"
    /// (01 The store).
    pub fn to_slot(self, value: i128) -> u64 {
        value.rem_euclid(1i128 << 64) as u64
    }

    /// The value that a slot holds, if it is one of this type (refusal 11, OP-89).
    pub fn of_slot(self, slot: u64) -> Option<i128> {
        let value = if self.is_signed() { slot as i64 as i128 } else { slot as i128 };
        if self.holds(value) {
            Some(value)
        } else {
            None
        }
    }
}
