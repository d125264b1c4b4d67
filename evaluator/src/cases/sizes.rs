//! Programs at the sizes of 01 and one beyond (refusal 4), and texts at and beyond 65,536 bytes
//! (refusal 1).

use super::build::{Builder, Plan, Value, OPS};
use super::model::{Attr, Function, Op, Type, I1, I8, UI8};
use super::spell::{Piece, Role};
use super::values::{any_element, element, values};
use crate::random::Random;

/// "Text up to 65,536 bytes."
pub const TEXT: usize = 65_536;

/// The roles of tensor types.
pub const TYPE_ROLES: [Role; 6] =
    [Role::InputType, Role::OutputType, Role::OperandType, Role::ResultType, Role::ArgumentType, Role::DenseType];

/// The place of some piece of one of these roles.
pub fn some_piece(random: &mut Random, pieces: &[Piece], roles: &[Role]) -> Option<usize> {
    let fit: Vec<usize> = (0..pieces.len()).filter(|i| roles.contains(&pieces[*i].role)).collect();
    if fit.is_empty() {
        None
    } else {
        Some(*random.pick(&fit))
    }
}

/// Puts a type that passes size 1 or 2 into a valid program's pieces: the piece and the size.
pub fn pass_shape(random: &mut Random, pieces: &mut [Piece]) -> Option<(usize, u64)> {
    let place = some_piece(random, pieces, &TYPE_ROLES)?;
    let (shape, size) = match random.below(9) {
        0 => ("1x1x1x1x1x1x1x".to_string(), 1),
        1 => ("2x0x4x1x3x1x1x1x1x".to_string(), 1),
        2 => ("4097x1x1x1x1x1x1x".to_string(), 1),
        3 => ("4097x".to_string(), 2),
        4 => ("0x4097x".to_string(), 2),
        5 => ("64x65x".to_string(), 2),
        6 => ("0x2x2049x".to_string(), 2),
        7 => ("4294967296x4294967296x".to_string(), 2),
        _ => (format!("1{}x0x", "0".repeat(4 + random.place(300))), 2),
    };
    let element = element(random, any_element).name();
    pieces[place].bytes = format!("tensor<{shape}{element}>").into_bytes();
    Some((place, size))
}

/// Lengthens one name past 32 characters (size 8): the piece.
pub fn pass_name(random: &mut Random, pieces: &mut [Piece]) -> Option<usize> {
    let roles =
        [Role::FunctionName, Role::InputName, Role::ResultName, Role::OperandName, Role::ArgumentName, Role::Label];
    let role = *random.pick(&roles);
    let place = some_piece(random, pieces, &[role])?;
    let sigil = pieces[place].bytes[0] as char;
    let length = *random.pick(&[32, 32, 33, 64, 300]);
    let digits = random.chance(1, 3) && sigil != '@';
    let letters = if digits { "7" } else { "q" }.repeat(length);
    pieces[place].bytes = format!("{sigil}{letters}").into_bytes();
    Some(place)
}

/// Puts a number past 64 bits into an attribute outside `dense` (size 7): the piece.
pub fn pass_number(random: &mut Random, pieces: &mut [Piece]) -> Option<usize> {
    let place = some_piece(random, pieces, &[Role::ListNumber, Role::SingleNumber])?;
    let far = [
        "9223372036854775808",
        "-9223372036854775809",
        "18446744073709551616",
        "-18446744073709551615",
        "+0009223372036854775808",
        "340282366920938463463374607431768211456",
    ];
    let mut text = random.pick(&far).to_string();
    if random.chance(1, 6) {
        text = format!("-1{}", "0".repeat(20 + random.place(400)));
    }
    pieces[place].bytes = text.into_bytes();
    Some(place)
}

/// Lengthens a list of numbers past 6 (size 6): the seventh number's piece.
pub fn pass_list(random: &mut Random, pieces: &mut Vec<Piece>) -> Option<usize> {
    let place = some_piece(random, pieces, &[Role::ListNumber])?;
    let mut first = place;
    while pieces[first - 1].is(",") && pieces[first - 2].role == Role::ListNumber {
        first -= 2;
    }
    let mut last = first;
    while pieces[last + 1].is(",") && pieces[last + 2].role == Role::ListNumber {
        last += 2;
    }
    while last < first + 12 {
        let seventh = last + 2 == first + 12;
        let number = if seventh && random.chance(1, 3) { "-9223372036854775809" } else { "0" };
        pieces.insert(last + 1, Piece::new(",", Role::Mark));
        pieces.insert(last + 2, Piece::new(number, Role::ListNumber));
        last += 2;
    }
    Some(first + 12)
}

/// A function that may pass size 3, 4 or 5, and the piece at which it does, counted among the pieces
/// of a role.
pub struct Passed {
    pub function: Function,
    pub size: u64,
    /// The role of the piece, and how many of that role stand before it; nothing at the limit.
    pub at: Option<(Role, usize)>,
}

/// Inputs and results of just 8,192 elements, or more.
pub fn total(random: &mut Random, beyond: bool) -> Passed {
    let mut b = Builder::new(random, Plan { inputs: 0, ..Plan::SMALL });
    let element = element(b.random, any_element);
    let shapes: [&[u64]; 4] = [&[4096], &[64, 64], &[4, 4, 4, 4, 4, 4], &[2, 2048, 1]];
    let wide = Type::new(element, b.random.pick::<&[u64]>(&shapes));
    let as_input = b.random.chance(1, 2);
    let first = if as_input { b.input(&wide) } else { splat(&mut b, &wide) };
    let rest = if b.random.chance(1, 2) { 4096 } else { b.random.between(1, 4095) };
    let part = Type::new(element, &[rest]);
    let second = if b.random.chance(1, 2) { b.input(&part) } else { splat(&mut b, &part) };
    if rest < 4096 {
        let last = Type::new(element, &[4096 - rest]);
        splat(&mut b, &last);
    }
    let empty = Type::new(element, &[0, 4096]);
    splat(&mut b, &empty);
    let results = b.ops.len();
    if beyond {
        let shapes: [&[u64]; 4] = [&[], &[1], &[1, 1, 1, 1, 1, 1], &[4096]];
        let one = Type::new(element, b.random.pick::<&[u64]>(&shapes));
        splat(&mut b, &one);
    }
    let at = if beyond { Some((Role::ResultType, results)) } else { None };
    Passed { function: b.finish_with(&[second, first]), size: 3, at }
}

/// A constant of one literal.
pub fn splat(b: &mut Builder, tensor: &Type) -> Value {
    let one = values(b.random, &Type::scalar(tensor.element))[0];
    let name = b.fresh();
    let mut op = Op::plain("constant", &name, tensor);
    let literal = super::model::Literal::of(tensor.element, one);
    op.push_attribute("value", Attr::Dense(super::model::Dense::One(literal), tensor.clone()));
    b.push(op)
}

/// 256 ops, or 257.
pub fn many_ops(random: &mut Random, beyond: bool) -> Passed {
    let mut b = Builder::new(random, Plan { most: 2, inputs: 2, identity_starts: false, careless: 1 << 40 });
    while b.ops.len() < 240 {
        let mnemonic = if b.random.chance(1, 40) { *b.random.pick(&OPS) } else { *b.random.pick(&SHORT) };
        let op = b.make(mnemonic);
        b.push(op);
    }
    while b.ops.len() < if beyond { 257 } else { 256 } {
        let x = b.random.pick(&b.values).clone();
        let op = b.op_on("not", &[&x], &x.1);
        b.push(op);
    }
    let before: usize = b.ops[..256].iter().map(op_names).sum();
    let at = if beyond { Some((Role::OpName, before)) } else { None };
    Passed { function: b.finish(), size: 4, at }
}

/// Ops whose text is short, so that 257 of them fit into a text.
pub const SHORT: [&str; 8] = ["not", "and", "or", "xor", "add", "maximum", "minimum", "multiply"];

/// The quoted names written for an op, those in bodies included.
pub fn op_names(op: &Op) -> usize {
    let inner: usize = op.bodies.iter().map(|body| 1 + body.ops.iter().map(op_names).sum::<usize>()).sum();
    1 + inner
}

/// Eight or nine operands, inputs, outputs, results, operand types, result types or body arguments.
pub fn many_values(random: &mut Random, beyond: bool) -> Passed {
    let count = if beyond { 9 } else { 8 };
    let mut b = Builder::new(random, Plan { inputs: 0, ..Plan::SMALL });
    let way = b.random.below(if beyond { 8 } else { 3 });
    match way {
        0 => inputs_of(b, count),
        1 => outputs_of(b, count),
        2 => operands_of(b, count, count),
        3 => operands_of(b, 2, count),
        4 => {
            let x = splat(&mut b, &Type::new(I8, &[2]));
            let names = (0..count).map(|_| b.fresh()).collect();
            let mut op = b.op_on("abs", &[&x], &x.1);
            op.results = names;
            last_op(b, op, (Role::ResultName, 1 + 8))
        }
        5 => {
            let x = splat(&mut b, &Type::new(I8, &[2]));
            let mut op = b.op_on("abs", &[&x], &x.1);
            op.result_types = vec![x.1.clone(); count];
            let crowded = b.random.chance(1, 2);
            if crowded {
                // The ninth passes size 3 too, the lower number.
                op.result_types[0].dims = vec![4096];
                op.result_types[1].dims = vec![4000];
                op.result_types[8].dims = vec![4096];
            }
            let passed = last_op(b, op, (Role::ResultType, 1 + 8));
            Passed { size: if crowded { 3 } else { 5 }, ..passed }
        }
        6 => {
            let x = splat(&mut b, &Type::new(I8, &[2]));
            let mut op = b.reduce_of(&x, "add");
            op.bodies[0].arguments = (0..count).map(|_| (b.fresh(), Type::scalar(I1))).collect();
            last_op(b, op, (Role::ArgumentName, 8))
        }
        _ => {
            let x = splat(&mut b, &Type::new(I8, &[2]));
            let mut function = b.finish_with(std::slice::from_ref(&x));
            function.last = Op::last("func.return", &vec![x; count]);
            Passed { function, size: 5, at: Some((Role::OperandName, 8)) }
        }
    }
}

fn last_op(mut b: Builder, op: Op, at: (Role, usize)) -> Passed {
    b.ops.push(op);
    Passed { function: b.finish(), size: 5, at: Some(at) }
}

fn beyond_eight(count: usize, role: Role) -> Option<(Role, usize)> {
    if count > 8 {
        Some((role, 8))
    } else {
        None
    }
}

fn inputs_of(mut b: Builder, count: usize) -> Passed {
    for _ in 0..count {
        let tensor = b.draw_type(any_element);
        b.input(&tensor);
    }
    Passed { function: b.finish(), size: 5, at: beyond_eight(count, Role::InputName) }
}

fn outputs_of(mut b: Builder, count: usize) -> Passed {
    let tensor = b.draw_type(any_element);
    let x = splat(&mut b, &tensor);
    let returned = vec![x; count];
    Passed { function: b.finish_with(&returned), size: 5, at: beyond_eight(count, Role::OutputType) }
}

/// A concatenate with so many operand names and types.
fn operands_of(mut b: Builder, names: usize, types: usize) -> Passed {
    let element = element(b.random, any_element);
    let x = splat(&mut b, &Type::new(element, &[2]));
    let operands = vec![&x; names];
    let mut op = b.op_on("concatenate", &operands, &Type::new(element, &[2 * names as u64]));
    op.operand_types = vec![x.1.clone(); types];
    op.push_attribute("dimension", Attr::Number(0));
    b.push(op);
    let role = if names > 8 { Role::OperandName } else { Role::OperandType };
    Passed { function: b.finish(), size: 5, at: beyond_eight(types, role) }
}

/// Gives a token that passes size 3, 4 or 5 a second fault: the refusal and the size that answer, "at one
/// byte 2, 3, 4" and "the lower number".
pub fn second_fault(random: &mut Random, piece: &mut Piece, size: u64) -> (u64, u64) {
    let (text, refusal, answered) = match piece.role {
        Role::OpName => ("\"stablehlo.sort\"", 3, 0),
        Role::InputName | Role::ResultName | Role::OperandName | Role::ArgumentName => {
            ("%a23456789012345678901234567890123", 4, size)
        }
        _ => *random.pick(&[
            ("tensor<4097xf32>", 3, 0),
            ("tensor<4097xi8>", 4, 2),
            ("tensor<1x1x1x1x1x1x1xi8>", 4, 1),
            ("tensor<4097x1x1x1x1x1x1xi8>", 4, 1),
        ]),
    };
    piece.bytes = text.as_bytes().to_vec();
    (refusal, answered)
}

/// Shapes of many elements.
const LARGE: [&[u64]; 6] =
    [&[4096], &[64, 64], &[2, 1, 8, 16, 2, 4], &[1, 2048], &[4, 4, 4, 4, 4, 4], &[16, 1, 16, 1, 8]];

/// Ops that give a large tensor from one large operand, or from small ones.
const LARGE_OPS: [&str; 17] = [
    "add",
    "broadcast_in_dim",
    "clamp",
    "compare",
    "concatenate",
    "convert",
    "dynamic_slice",
    "iota",
    "multiply",
    "not",
    "pad",
    "reduce",
    "reshape",
    "reverse",
    "select",
    "slice",
    "transpose",
];

/// A large tensor through an op, or written out in full.
pub fn large(random: &mut Random) -> Function {
    if random.chance(1, 6) {
        return large_constant(random);
    }
    let plan = Plan { most: 4096, inputs: 3, identity_starts: false, careless: 4 };
    loop {
        let mut b = Builder::new(random, plan);
        let element = element(b.random, any_element);
        let dims = b.random.pick(&LARGE).to_vec();
        b.input(&Type { element, dims });
        let mnemonic = *b.random.pick(&LARGE_OPS);
        let op = b.make(mnemonic);
        b.push(op);
        let function = b.finish();
        if function.elements() <= 8192 && written_bound(&function) < 40_000 {
            return function;
        }
    }
}

/// A constant of 4,096 or 2,048 literals, short enough for a text.
fn large_constant(random: &mut Random) -> Function {
    let mut b = Builder::new(random, Plan::SMALL);
    let element = *b.random.pick(&[I1, I8, UI8]);
    let dims = b.random.pick(&LARGE).to_vec();
    let tensor = Type { element, dims };
    let list = values(b.random, &tensor);
    b.constant_of(&tensor, &list);
    b.finish()
}

/// A bound on the bytes of a function's constants.
fn written_bound(function: &Function) -> u64 {
    let constants = function.ops.iter().filter(|op| op.mnemonic() == "constant");
    constants.map(|op| op.result_types[0].count() * 22).sum()
}

/// A text lengthened to just so many bytes by white space and comments at its end or its start.
pub fn lengthen(random: &mut Random, mut bytes: Vec<u8>, length: usize) -> Vec<u8> {
    if bytes.len() >= length {
        return bytes;
    }
    let missing = length - bytes.len();
    let mut filler = vec![*random.pick(b" \n\t\r"); missing];
    if missing > 3 && random.chance(1, 2) {
        filler[0] = b'/';
        filler[1] = b'/';
        for byte in &mut filler[2..missing - 1] {
            *byte = b'x';
        }
        filler[missing - 1] = b'\n';
    }
    if random.chance(1, 2) {
        bytes.extend(filler);
        return bytes;
    }
    filler.extend(bytes);
    filler
}
