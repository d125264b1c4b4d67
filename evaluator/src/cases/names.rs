//! Programs with one fault of names: a value that is not defined before (refusal 5) or one that is
//! defined twice (refusal 6), in the header, at an op, inside a body or at the return.

use super::build::{Builder, Value, OPS};
use super::model::{Function, Op, Type, I8};
use super::spell::{Piece, Role};

/// Which piece the answer names.
#[derive(Clone, Debug)]
pub enum Spot {
    FirstUse(String),
    LastUse(String),
    /// The last one in the text: an earlier reduction may have lent its result the name of an argument of
    /// its body, which is no fault (OP-57), so it need not be the second.
    LastDefinition(String),
}

impl Spot {
    /// The place of the piece.
    pub fn find(&self, pieces: &[Piece]) -> usize {
        let found = match self {
            Spot::FirstUse(name) => places(pieces, name, &[Role::OperandName]).first().copied(),
            Spot::LastUse(name) => places(pieces, name, &[Role::OperandName]).last().copied(),
            Spot::LastDefinition(name) => {
                let defining = [Role::InputName, Role::ResultName, Role::ArgumentName];
                places(pieces, name, &defining).last().copied()
            }
        };
        found.expect("the faulty name is written")
    }
}

/// Where a name stands in one of these roles.
fn places(pieces: &[Piece], name: &str, roles: &[Role]) -> Vec<usize> {
    (0..pieces.len()).filter(|i| roles.contains(&pieces[*i].role) && pieces[*i].is(name)).collect()
}

/// A function with one fault of names, its refusal and the name's place.
pub fn faulty(mut builder: Builder) -> (Function, u64, Spot) {
    let body_fault = builder.random.chance(1, 2);
    let mut op = if body_fault { reduce_with_own_names(&mut builder) } else { any_op(&mut builder) };
    if body_fault {
        let (refusal, spot) = fault_in_body(&mut builder, &mut op);
        builder.push(op);
        return (builder.finish(), refusal, spot);
    }
    if builder.random.chance(1, 2) {
        not_defined(builder, op)
    } else {
        defined_twice(builder, op)
    }
}

/// An op with operands.
fn any_op(b: &mut Builder) -> Op {
    loop {
        let mark = b.mark();
        let mnemonic = *b.random.pick(&OPS);
        let op = b.make(mnemonic);
        if !op.operands.is_empty() && op.bodies.is_empty() {
            return op;
        }
        b.reset(mark);
    }
}

/// A reduction whose result has a name of its own.
pub fn reduce_with_own_names(b: &mut Builder) -> Op {
    let mut op = b.make("reduce");
    op.results[0] = b.fresh();
    op
}

/// A name that no value has.
pub fn unknown_name(b: &mut Builder) -> String {
    b.random.pick(&["%undefined", "%9999999", "%_", "%Z", "%0000"]).to_string()
}

/// The name of an earlier value.
pub fn reused_name(b: &mut Builder) -> String {
    b.random.pick(&b.values).0.clone()
}

fn not_defined(mut b: Builder, mut op: Op) -> (Function, u64, Spot) {
    let place = b.random.place(op.operands.len());
    let name = match b.random.below(4) {
        0 => op.results[0].clone(),
        1 => return not_defined_in_return(b, op),
        2 => return used_before(b, op),
        _ => unknown_name(&mut b),
    };
    op.operands[place] = name.clone();
    b.push(op);
    (b.finish(), 5, Spot::FirstUse(name))
}

fn not_defined_in_return(mut b: Builder, op: Op) -> (Function, u64, Spot) {
    let known = b.push(op);
    let name = unknown_name(&mut b);
    let returned = [known, (name.clone(), Type::scalar(I8))];
    (b.finish_with(&returned), 5, Spot::FirstUse(name))
}

/// An op that uses what a later op defines.
fn used_before(mut b: Builder, mut op: Op) -> (Function, u64, Spot) {
    let later = any_op(&mut b);
    let name = later.results[0].clone();
    let place = b.random.place(op.operands.len());
    op.operands[place] = name.clone();
    b.push(op);
    b.push(later);
    (b.finish(), 5, Spot::FirstUse(name))
}

fn defined_twice(mut b: Builder, mut op: Op) -> (Function, u64, Spot) {
    let earlier = reused_name(&mut b);
    match b.random.below(4) {
        0 => {
            let mut twin = b.random.pick(&b.values).clone();
            twin.0 = b.fresh();
            b.inputs.push(twin.clone());
            b.inputs.insert(b.random.place(b.inputs.len()), twin.clone());
            b.push(op);
            return (b.finish(), 6, Spot::LastDefinition(twin.0));
        }
        1 => {
            // two results of one op with one name
            let name = op.results[0].clone();
            op.results.push(name.clone());
            b.push(op);
            return (b.finish(), 6, Spot::LastDefinition(name));
        }
        2 => {
            b.push(op);
            let mut function = b.finish();
            function.last.results.push(earlier.clone());
            return (function, 6, Spot::LastDefinition(earlier));
        }
        _ => op.results[0] = earlier.clone(),
    }
    b.push(op);
    (b.finish(), 6, Spot::LastDefinition(earlier))
}

/// A fault inside the body of a reduction, or a use of a body's name after it.
pub fn fault_in_body(b: &mut Builder, op: &mut Op) -> (u64, Spot) {
    let outer = b.random.pick(&b.values).0.clone();
    let own = op.results[0].clone();
    let unknown = unknown_name(b);
    let side = b.random.place(2);
    let body = &mut op.bodies[0];
    let inner = body.ops[0].results[0].clone();
    let argument = body.arguments[side].0.clone();
    match b.random.below(9) {
        0 => {
            body.ops[0].operands[side] = unknown.clone();
            (5, Spot::FirstUse(unknown))
        }
        1 => {
            body.last.operands[0] = unknown.clone();
            (5, Spot::FirstUse(unknown))
        }
        2 => {
            // the reduction's own result inside its body
            body.ops[0].operands[side] = own.clone();
            (5, Spot::FirstUse(own))
        }
        3 => {
            // the body op's own result as its operand
            body.ops[0].operands[side] = inner.clone();
            (5, Spot::FirstUse(inner))
        }
        4 => {
            body.arguments[side].0 = outer.clone();
            rename_operands(&mut body.ops[0], &argument, &outer);
            (6, Spot::LastDefinition(outer))
        }
        5 => {
            let first = body.arguments[0].0.clone();
            body.arguments[1].0 = first.clone();
            (6, Spot::LastDefinition(first))
        }
        6 => {
            body.ops[0].results[0] = argument.clone();
            (6, Spot::LastDefinition(argument))
        }
        7 => {
            body.ops[0].results[0] = outer.clone();
            (6, Spot::LastDefinition(outer))
        }
        _ => used_after_body(b, op, side),
    }
}

fn rename_operands(op: &mut Op, from: &str, to: &str) {
    for operand in &mut op.operands {
        if operand == from {
            *operand = to.to_string();
        }
    }
}

/// "body names are forgotten at its closing brace": a use in a second op.
fn used_after_body(b: &mut Builder, op: &mut Op, side: usize) -> (u64, Spot) {
    let body = &op.bodies[0];
    let name = if b.random.chance(1, 2) { body.arguments[side].0.clone() } else { body.ops[0].results[0].clone() };
    let forgotten: Value = (name.clone(), body.arguments[0].1.clone());
    let after = b.op_on("not", &[&forgotten], &forgotten.1);
    let first = std::mem::replace(op, after);
    b.push(first);
    (5, Spot::LastUse(name))
}
