//! The op table: "one row per op: its name, operand count, attributes and body" (01 The text).

use Mnemonic::*;

/// The 34 ops of paper 01 and the two returns.
#[derive(Clone, Copy, PartialEq, Eq, Hash, Debug)]
pub enum Mnemonic {
    Abs,
    Add,
    And,
    BroadcastInDim,
    Clamp,
    Compare,
    Concatenate,
    Constant,
    Convert,
    CountLeadingZeros,
    Divide,
    DynamicSlice,
    Iota,
    Maximum,
    Minimum,
    Multiply,
    Negate,
    Not,
    Or,
    Pad,
    Popcnt,
    Reduce,
    Remainder,
    Reshape,
    Reverse,
    Select,
    ShiftLeft,
    ShiftRightArithmetic,
    ShiftRightLogical,
    Sign,
    Slice,
    Subtract,
    Transpose,
    Xor,
    /// `"func.return"`, the function's last op.
    FuncReturn,
    /// `"stablehlo.return"`, a body's last op.
    BodyReturn,
}

/// The 15 attributes that ops of this paper have in 000 (OP-25).
#[derive(Clone, Copy, PartialEq, Eq, Hash, Debug)]
pub enum AttributeName {
    Value,
    IotaDimension,
    BroadcastDimensions,
    Permutation,
    StartIndices,
    LimitIndices,
    Strides,
    Dimension,
    EdgePaddingLow,
    EdgePaddingHigh,
    InteriorPadding,
    Dimensions,
    SliceSizes,
    ComparisonDirection,
    CompareType,
}

impl AttributeName {
    pub const ALL: [AttributeName; 15] = [
        AttributeName::Value,
        AttributeName::IotaDimension,
        AttributeName::BroadcastDimensions,
        AttributeName::Permutation,
        AttributeName::StartIndices,
        AttributeName::LimitIndices,
        AttributeName::Strides,
        AttributeName::Dimension,
        AttributeName::EdgePaddingLow,
        AttributeName::EdgePaddingHigh,
        AttributeName::InteriorPadding,
        AttributeName::Dimensions,
        AttributeName::SliceSizes,
        AttributeName::ComparisonDirection,
        AttributeName::CompareType,
    ];

    pub fn name(self) -> &'static str {
        match self {
            AttributeName::Value => "value",
            AttributeName::IotaDimension => "iota_dimension",
            AttributeName::BroadcastDimensions => "broadcast_dimensions",
            AttributeName::Permutation => "permutation",
            AttributeName::StartIndices => "start_indices",
            AttributeName::LimitIndices => "limit_indices",
            AttributeName::Strides => "strides",
            AttributeName::Dimension => "dimension",
            AttributeName::EdgePaddingLow => "edge_padding_low",
            AttributeName::EdgePaddingHigh => "edge_padding_high",
            AttributeName::InteriorPadding => "interior_padding",
            AttributeName::Dimensions => "dimensions",
            AttributeName::SliceSizes => "slice_sizes",
            AttributeName::ComparisonDirection => "comparison_direction",
            AttributeName::CompareType => "compare_type",
        }
    }

    pub fn of_name(name: &str) -> Option<AttributeName> {
        AttributeName::ALL.into_iter().find(|attribute| attribute.name() == name)
    }
}

/// How many operands an op takes (01 refusal 7).
#[derive(Clone, Copy, PartialEq, Eq, Debug)]
pub enum Operands {
    Exactly(usize),
    /// "dynamic_slice: from 1"; "concatenate: any".
    AtLeast(usize),
}

/// The kind of value an attribute takes.
#[derive(Clone, Copy, PartialEq, Eq, Debug)]
pub enum AttributeKind {
    List,
    Number,
    Dense,
    /// A choice of `EQ` .. `LT`.
    Direction,
    /// A choice of `SIGNED`, `UNSIGNED`; "may be absent".
    OptionalType,
}

/// The types that an entry of an Inputs or Outputs table in 000 takes, within this paper.
#[derive(Clone, Copy, PartialEq, Eq, Debug)]
pub enum Takes {
    /// "tensor", "tensor of boolean or integer type".
    Any,
    /// "tensor of boolean type", "tensor of type `i1`".
    Boolean,
    /// "tensor of integer type" (with floating-point .. left out).
    Integer,
    /// "tensor of signed integer type" (with floating-point .. left out).
    Signed,
    /// "0-dimensional tensor".
    AnyRank0,
    /// "0-dimensional tensors of integer type".
    IntegerRank0,
}

/// One row of the table.
#[derive(Clone, Copy, Debug)]
pub struct Row {
    pub mnemonic: Mnemonic,
    /// The quoted name without its quotes.
    pub name: &'static str,
    pub operands: Operands,
    pub attributes: &'static [(AttributeName, AttributeKind)],
    pub bodies: usize,
    /// Inputs table: one entry for each operand, the last one for all further operands.
    pub takes: &'static [Takes],
    /// Outputs table.
    pub gives: Takes,
}

use AttributeKind as K;
use AttributeName as A;

const fn row(
    mnemonic: Mnemonic,
    name: &'static str,
    operands: Operands,
    attributes: &'static [(AttributeName, AttributeKind)],
    takes: &'static [Takes],
    gives: Takes,
) -> Row {
    Row { mnemonic, name, operands, attributes, bodies: 0, takes, gives }
}

use Operands::{AtLeast, Exactly};
use Takes::{Any, AnyRank0, Boolean, Integer, IntegerRank0, Signed};

/// In 01's alphabetical order, the returns last.
pub const TABLE: [Row; 36] = [
    row(Abs, "stablehlo.abs", Exactly(1), &[], &[Signed], Signed),
    row(Add, "stablehlo.add", Exactly(2), &[], &[Any], Any),
    row(And, "stablehlo.and", Exactly(2), &[], &[Any], Any),
    row(BroadcastInDim, "stablehlo.broadcast_in_dim", Exactly(1), &[(A::BroadcastDimensions, K::List)], &[Any], Any),
    row(Clamp, "stablehlo.clamp", Exactly(3), &[], &[Any], Any),
    row(
        Compare,
        "stablehlo.compare",
        Exactly(2),
        &[(A::ComparisonDirection, K::Direction), (A::CompareType, K::OptionalType)],
        &[Any],
        Boolean,
    ),
    row(Concatenate, "stablehlo.concatenate", AtLeast(0), &[(A::Dimension, K::Number)], &[Any], Any),
    row(Constant, "stablehlo.constant", Exactly(0), &[(A::Value, K::Dense)], &[], Any),
    row(Convert, "stablehlo.convert", Exactly(1), &[], &[Any], Any),
    row(CountLeadingZeros, "stablehlo.count_leading_zeros", Exactly(1), &[], &[Integer], Integer),
    row(Divide, "stablehlo.divide", Exactly(2), &[], &[Integer], Integer),
    row(DynamicSlice, "stablehlo.dynamic_slice", AtLeast(1), &[(A::SliceSizes, K::List)], &[Any, IntegerRank0], Any),
    row(Iota, "stablehlo.iota", Exactly(0), &[(A::IotaDimension, K::Number)], &[], Integer),
    row(Maximum, "stablehlo.maximum", Exactly(2), &[], &[Any], Any),
    row(Minimum, "stablehlo.minimum", Exactly(2), &[], &[Any], Any),
    row(Multiply, "stablehlo.multiply", Exactly(2), &[], &[Any], Any),
    row(Negate, "stablehlo.negate", Exactly(1), &[], &[Integer], Integer),
    row(Not, "stablehlo.not", Exactly(1), &[], &[Any], Any),
    row(Or, "stablehlo.or", Exactly(2), &[], &[Any], Any),
    row(
        Pad,
        "stablehlo.pad",
        Exactly(2),
        &[(A::EdgePaddingLow, K::List), (A::EdgePaddingHigh, K::List), (A::InteriorPadding, K::List)],
        &[Any, AnyRank0],
        Any,
    ),
    row(Popcnt, "stablehlo.popcnt", Exactly(1), &[], &[Integer], Integer),
    Row {
        bodies: 1,
        ..row(Reduce, "stablehlo.reduce", Exactly(2), &[(A::Dimensions, K::List)], &[Any, AnyRank0], Any)
    },
    row(Remainder, "stablehlo.remainder", Exactly(2), &[], &[Integer], Integer),
    row(Reshape, "stablehlo.reshape", Exactly(1), &[], &[Any], Any),
    row(Reverse, "stablehlo.reverse", Exactly(1), &[(A::Dimensions, K::List)], &[Any], Any),
    row(Select, "stablehlo.select", Exactly(3), &[], &[Boolean, Any], Any),
    row(ShiftLeft, "stablehlo.shift_left", Exactly(2), &[], &[Integer], Integer),
    row(ShiftRightArithmetic, "stablehlo.shift_right_arithmetic", Exactly(2), &[], &[Integer], Integer),
    row(ShiftRightLogical, "stablehlo.shift_right_logical", Exactly(2), &[], &[Integer], Integer),
    row(Sign, "stablehlo.sign", Exactly(1), &[], &[Signed], Signed),
    row(
        Slice,
        "stablehlo.slice",
        Exactly(1),
        &[(A::StartIndices, K::List), (A::LimitIndices, K::List), (A::Strides, K::List)],
        &[Any],
        Any,
    ),
    row(Subtract, "stablehlo.subtract", Exactly(2), &[], &[Integer], Integer),
    row(Transpose, "stablehlo.transpose", Exactly(1), &[(A::Permutation, K::List)], &[Any], Any),
    row(Xor, "stablehlo.xor", Exactly(2), &[], &[Any], Any),
    row(FuncReturn, "func.return", AtLeast(0), &[], &[Any], Any),
    row(BodyReturn, "stablehlo.return", AtLeast(0), &[], &[Any], Any),
];

impl Mnemonic {
    /// The 34 ops, without the returns.
    pub fn ops() -> impl Iterator<Item = Mnemonic> {
        TABLE.iter().map(|row| row.mnemonic).filter(|mnemonic| !mnemonic.is_return())
    }

    pub fn is_return(self) -> bool {
        matches!(self, FuncReturn | BodyReturn)
    }

    /// The row of the op table.
    pub fn row(self) -> &'static Row {
        TABLE.iter().find(|row| row.mnemonic == self).expect("every mnemonic has a row")
    }

    /// The op of this quoted name (quotes left out).
    pub fn of_name(name: &str) -> Option<Mnemonic> {
        TABLE.iter().find(|row| row.name == name).map(|row| row.mnemonic)
    }

    /// The quoted name without its quotes: `stablehlo.add`.
    pub fn name(self) -> &'static str {
        self.row().name
    }
}
