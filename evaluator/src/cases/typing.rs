//! Programs with one fault of typing (refusal 7): each of the reasons that 01 lists, at an op, inside
//! a reduction's body or at the return.

use super::broken::taken;
use super::build::{choice, Builder, Value, DIRECTIONS, OPS};
use super::model::{Attr, Attribute, Body, Dense, Element, Function, Literal, Op, Type, I1, I64, UI8};
use super::values::{any_element, element, integer, other_element, other_shape};

/// A function with one fault of typing and the number of the op that has it.
pub fn faulty(mut builder: Builder) -> (Function, usize) {
    if builder.random.chance(1, 8) {
        return faulty_return(builder);
    }
    let op = faulty_op(&mut builder);
    let place = builder.ops.len();
    builder.ops.push(op);
    (after_fault(builder), place)
}

/// An op with a fault of typing, not yet added.
pub fn faulty_op(builder: &mut Builder) -> Op {
    for _ in 0..200 {
        let mark = builder.mark();
        if let Some(op) = drawn_fault(builder) {
            return op;
        }
        builder.reset(mark);
    }
    panic!("no fault of typing in 200 attempts")
}

/// The rest of the function after a faulty op: sometimes another op, then a return of earlier values.
fn after_fault(mut builder: Builder) -> Function {
    if builder.random.chance(1, 3) {
        let mnemonic = *builder.random.pick(&OPS);
        let op = builder.make(mnemonic);
        builder.push(op);
    }
    builder.finish()
}

/// An op with a fault of typing, or nothing where the op drawn cannot have the fault drawn.
fn drawn_fault(b: &mut Builder) -> Option<Op> {
    match b.random.below(15) {
        0 => wrong_operand_count(b),
        1 => wrong_results(b),
        2 => wrong_bodies(b),
        3 => wrong_operand_type(b),
        4 => wrong_operand_type_count(b),
        5 => attribute_missing(b),
        6 => attribute_doubled(b),
        7 => attribute_foreign(b),
        8 => attribute_kind(b),
        9 => wrong_dense(b),
        10 => element_not_taken(b),
        11 => rank_not_taken(b),
        12 => choice_of_other_kind(b),
        _ => wrong_body(b),
    }
}

fn any_op(b: &mut Builder) -> Op {
    let mnemonic = *b.random.pick(&OPS);
    b.make(mnemonic)
}

/// "a wrong number of operands (concatenate: any, none breaks C3; dynamic_slice: from 1)".
fn wrong_operand_count(b: &mut Builder) -> Option<Op> {
    let mut op = any_op(b);
    match op.mnemonic() {
        "concatenate" => return None,
        "dynamic_slice" => {
            op.operands.clear();
            op.operand_types.clear();
        }
        _ if !op.operands.is_empty() && b.random.chance(1, 2) => {
            let place = b.random.place(op.operands.len());
            op.operands.remove(place);
            op.operand_types.remove(place);
        }
        _ => {
            let extra = b.operand(any_element);
            op.push_operand(&extra);
        }
    }
    Some(op)
}

/// "of results (one; return: none)": names and types must each be one.
fn wrong_results(b: &mut Builder) -> Option<Op> {
    let mut op = any_op(b);
    let name = b.fresh();
    let tensor = op.result_types[0].clone();
    match b.random.below(6) {
        0 => op.results.clear(),
        1 => op.result_types.clear(),
        2 => op.results.push(name),
        3 => op.result_types.push(tensor),
        4 => {
            op.results.clear();
            op.result_types.clear();
        }
        _ => {
            op.results.push(name);
            op.result_types.push(tensor);
        }
    }
    Some(op)
}

/// "or of bodies".
fn wrong_bodies(b: &mut Builder) -> Option<Op> {
    let reduction = b.random.chance(1, 2);
    let mut op = if reduction { b.make("reduce") } else { any_op(b) };
    if op.mnemonic() == "reduce" && b.random.chance(1, 2) {
        op.bodies.clear();
        return Some(op);
    }
    let body = b.body("add", &Type::scalar(op.result_types[0].element));
    op.bodies.push(body);
    Some(op)
}

/// "a written operand type that isn't that of its definition".
fn wrong_operand_type(b: &mut Builder) -> Option<Op> {
    let mut op = any_op(b);
    if op.operands.is_empty() {
        return None;
    }
    let place = b.random.place(op.operands.len());
    let written = &mut op.operand_types[place];
    if b.random.chance(1, 2) {
        written.element = other_element(b.random, written.element, any_element);
    } else {
        written.dims = other_shape(b.random, &written.dims, 64);
    }
    Some(op)
}

/// More or fewer written operand types than operands (OP-62).
fn wrong_operand_type_count(b: &mut Builder) -> Option<Op> {
    let mut op = any_op(b);
    if !op.operand_types.is_empty() && b.random.chance(1, 2) {
        op.operand_types.remove(b.random.place(op.operand_types.len()));
    } else if op.operand_types.len() < 8 {
        let tensor = op.operand_types.first().cloned().unwrap_or(Type::scalar(I64));
        op.operand_types.insert(b.random.place(op.operand_types.len() + 1), tensor);
    }
    if op.operand_types.len() == op.operands.len() {
        return None;
    }
    Some(op)
}

/// An op that has attributes.
fn op_with_attributes(b: &mut Builder) -> Op {
    let with = [
        "broadcast_in_dim",
        "compare",
        "concatenate",
        "constant",
        "dynamic_slice",
        "iota",
        "pad",
        "reduce",
        "reverse",
        "slice",
        "transpose",
    ];
    let mnemonic = *b.random.pick(&with);
    b.make(mnemonic)
}

/// "No other attribute may be absent."
fn attribute_missing(b: &mut Builder) -> Option<Op> {
    let mut op = op_with_attributes(b);
    let place = b.random.place(op.attributes.len());
    if op.attributes[place].name == "compare_type" {
        return None;
    }
    op.attributes.remove(place);
    Some(op)
}

fn attribute_doubled(b: &mut Builder) -> Option<Op> {
    let mut op = if b.random.chance(1, 4) { b.make("compare") } else { op_with_attributes(b) };
    let again = op.attributes[b.random.place(op.attributes.len())].clone();
    op.attributes.push(again);
    Some(op)
}

/// The attributes that ops of 01 have, with a value of the right kind.
fn known_attribute(b: &mut Builder) -> Attribute {
    let lists = [
        "broadcast_dimensions",
        "permutation",
        "start_indices",
        "limit_indices",
        "strides",
        "edge_padding_low",
        "edge_padding_high",
        "interior_padding",
        "dimensions",
        "slice_sizes",
    ];
    let (name, value) = match b.random.below(8) {
        0 => ("value", Attr::Dense(Dense::One(Literal::Number(1)), Type::scalar(UI8))),
        1 => ("iota_dimension", Attr::Number(0)),
        2 => ("dimension", Attr::Number(0)),
        3 => ("comparison_direction", choice("comparison_direction", "LT")),
        4 => ("compare_type", choice("comparison_type", "SIGNED")),
        _ => (*b.random.pick(&lists), Attr::List(vec![0])),
    };
    Attribute { name: name.to_string(), value }
}

/// An attribute that other ops have (OP-25).
fn attribute_foreign(b: &mut Builder) -> Option<Op> {
    let mut op = any_op(b);
    let foreign = known_attribute(b);
    let optional = op.mnemonic() == "compare" && foreign.name == "compare_type";
    if optional || op.attributes.iter().any(|a| a.name == foreign.name) {
        return None;
    }
    op.attributes.push(foreign);
    Some(op)
}

/// A value of another of the four forms.
fn attribute_kind(b: &mut Builder) -> Option<Op> {
    let mut op = op_with_attributes(b);
    let place = b.random.place(op.attributes.len());
    let attribute = &mut op.attributes[place];
    let other = match b.random.below(5) {
        0 => Attr::Number(0),
        1 => Attr::List(vec![0]),
        2 => Attr::Dense(Dense::List(vec![Dense::One(Literal::Number(0))]), Type::new(I64, &[1])),
        3 => choice("comparison_type", "SIGNED"),
        _ => choice("comparison_direction", "EQ"),
    };
    if same_kind(&attribute.value, &other) {
        return None;
    }
    attribute.value = other;
    Some(op)
}

/// A choice of the other kind, with a word of either, or of its own kind with a word of the other (OP-27):
/// `comparison_direction = #stablehlo<comparison_type SIGNED>`, `#stablehlo<comparison_direction SIGNED>`.
fn choice_of_other_kind(b: &mut Builder) -> Option<Op> {
    let mut op = b.make("compare");
    let directions = ("comparison_direction", *b.random.pick(&DIRECTIONS));
    let types = ("comparison_type", *b.random.pick(&["SIGNED", "UNSIGNED"]));
    let way = b.random.below(3);
    let name = *b.random.pick(&["comparison_direction", "compare_type"]);
    if op.attributes.iter().all(|attribute| attribute.name != name) {
        op.push_attribute(name, choice(types.0, types.1));
    }
    let attribute = op.attributes.iter_mut().find(|attribute| attribute.name == name)?;
    let (own, other) = if name == "comparison_direction" { (directions, types) } else { (types, directions) };
    attribute.value = match way {
        0 => choice(other.0, other.1),
        1 => choice(other.0, own.1),
        _ => choice(own.0, other.1),
    };
    Some(op)
}

fn same_kind(one: &Attr, other: &Attr) -> bool {
    let known = |c: &str| c == "SIGNED" || c == "UNSIGNED";
    match (one, other) {
        (Attr::Dense(..), Attr::Dense(..)) | (Attr::List(_), Attr::List(_)) | (Attr::Number(_), Attr::Number(_)) => {
            true
        }
        (Attr::Choice(kind, choice), Attr::Choice(kind_too, choice_too)) => {
            kind == kind_too && known(choice) == known(choice_too)
        }
        _ => false,
    }
}

/// "a dense value of other sizes, kind or range than its type".
fn wrong_dense(b: &mut Builder) -> Option<Op> {
    let mut op = b.make("constant");
    let way = b.random.below(6);
    let Attr::Dense(dense, tensor) = &mut op.attributes[0].value else { return None };
    let literal = literal_of_other_kind(b, tensor.element, way);
    match way {
        0 | 1 => *some_literal(b, dense)? = literal,
        2 => *dense = Dense::One(literal),
        3 => {
            let list = some_list(b, dense)?;
            let extra = list.last().cloned().unwrap_or(Dense::One(Literal::of(tensor.element, 1)));
            list.push(extra);
        }
        4 => {
            some_list(b, dense)?.pop()?;
        }
        // One level more; a single element in a list is the form of rank 1 and size 1.
        _ if tensor.dims == [1] => return None,
        _ => *dense = Dense::List(vec![dense.clone()]),
    }
    Some(op)
}

/// A literal that is no value of the type: of the other kind or out of range.
fn literal_of_other_kind(b: &mut Builder, element: Element, way: u64) -> Literal {
    if element.is_boolean() {
        return Literal::Number(b.random.below(2) as i128);
    }
    if way == 0 {
        return Literal::Boolean(b.random.chance(1, 2));
    }
    let beyond = [element.highest() + 1, element.lowest() - 1, 1i128 << 64, -(1i128 << 64), 1i128 << 100];
    Literal::Number(*b.random.pick(&beyond))
}

/// A literal inside a dense value.
fn some_literal<'d>(b: &mut Builder, dense: &'d mut Dense) -> Option<&'d mut Literal> {
    match dense {
        Dense::One(literal) => Some(literal),
        Dense::List(items) => {
            let place = b.random.place(items.len());
            some_literal(b, items.get_mut(place)?)
        }
    }
}

/// A list inside a dense value.
fn some_list<'d>(b: &mut Builder, dense: &'d mut Dense) -> Option<&'d mut Vec<Dense>> {
    let Dense::List(items) = dense else { return None };
    let deeper = matches!(items.first(), Some(Dense::List(_)));
    if deeper && b.random.chance(1, 2) {
        let place = b.random.place(items.len());
        return some_list(b, &mut items[place]);
    }
    Some(items)
}

/// "an element type .. that the op's Inputs or Outputs table in 000 doesn't take".
fn element_not_taken(b: &mut Builder) -> Option<Op> {
    let mut op = any_op(b);
    let mnemonic = op.mnemonic().to_string();
    match mnemonic.as_str() {
        "compare" => op.result_type().element = element(b.random, integer),
        "select" => {
            let element = element(b.random, integer);
            let pred = b.value(&op.operand_types[0].with_element(element));
            op.set_operand(0, &pred);
        }
        "dynamic_slice" => {
            let start = b.value(&Type::scalar(I1));
            let last = op.operands.len() - 1;
            if last == 0 {
                return None;
            }
            op.set_operand(1 + b.random.place(last), &start);
        }
        _ => return element_of_all(b, op, taken(&mnemonic)),
    }
    Some(op)
}

/// An element type that the table does not take, for one value of the op or for all.
fn element_of_all(b: &mut Builder, mut op: Op, takes: fn(Element) -> bool) -> Option<Op> {
    let refused: Vec<Element> = super::model::ELEMENTS.iter().copied().filter(|e| !takes(*e)).collect();
    if refused.is_empty() {
        return None;
    }
    let element = *b.random.pick(&refused);
    let whole = b.random.chance(1, 2);
    let one = b.random.place(op.operands.len() + 1);
    for place in 0..op.operands.len() {
        if whole || one == place {
            let other = b.value(&op.operand_types[place].with_element(element));
            op.set_operand(place, &other);
        }
    }
    if whole || one == op.operands.len() {
        op.result_type().element = element;
    }
    Some(op)
}

/// "or rank": padding_value, init_values and start_indices have rank 0.
fn rank_not_taken(b: &mut Builder) -> Option<Op> {
    let mnemonic = *b.random.pick(&["pad", "reduce", "dynamic_slice"]);
    let mut op = b.make(mnemonic);
    if op.operands.len() < 2 {
        return None;
    }
    let place = 1 + b.random.place(op.operands.len() - 1);
    let rank = 1 + b.random.place(2);
    let dims = super::values::shape_of_rank(b.random, rank, 4);
    let ranked = b.value(&op.operand_types[place].with_dims(dims));
    op.set_operand(place, &ranked);
    Some(op)
}

/// "a reduction body faulty inside or not of the form".
fn wrong_body(b: &mut Builder) -> Option<Op> {
    let mut op = b.make("reduce");
    let mut body = op.bodies.pop()?;
    let scalar = Type::scalar(op.operand_types[0].element);
    match b.random.below(17) {
        0 => {
            // one argument, on both sides
            let first = body.arguments[0].clone();
            body.arguments.truncate(1);
            body.ops[0].set_operand(0, &first);
            body.ops[0].set_operand(1, &first);
        }
        1 => body.arguments.push((b.fresh(), scalar)),
        2 => {
            body.ops.clear();
            body.last = Op::last("stablehlo.return", &[body.arguments[0].clone()]);
        }
        3 => add_body_op(b, &mut body, &scalar),
        4 => other_body_op(b, &mut body, &scalar)?,
        5 => {
            let first = body.arguments[b.random.place(2)].clone();
            body.ops[0].set_operand(0, &first);
            body.ops[0].set_operand(1, &first);
        }
        6 => {
            let outer = b.value(&scalar);
            body.ops[0].set_operand(b.random.place(2), &outer);
        }
        7 => body.last = Op::last("stablehlo.return", &[body.arguments[b.random.place(2)].clone()]),
        8 => {
            let result = (body.ops[0].results[0].clone(), scalar.clone());
            body.last = Op::last("stablehlo.return", &[result.clone(), result]);
        }
        9 => body.last = Op::last("stablehlo.return", &[]),
        10 => body.ops[0].operand_types[b.random.place(2)].dims.push(1),
        11 => {
            let unlike = other_element(b.random, scalar.element, any_element);
            body.ops[0].result_types[0].element = unlike;
            body.last.operand_types[0].element = unlike;
        }
        12 => {
            let unlike = other_element(b.random, scalar.element, any_element);
            body.last.operand_types[0].element = unlike;
        }
        13 => unlike_arguments(b, &mut body),
        14 => body.ops[0].attributes.push(known_attribute(b)),
        15 => wrong_body_return(b, &mut body),
        _ => {
            let inner = b.body("or", &scalar);
            body.ops[0].bodies.push(inner);
        }
    }
    op.bodies.push(body);
    Some(op)
}

/// A second op in the body, on the first one's result.
fn add_body_op(b: &mut Builder, body: &mut Body, scalar: &Type) {
    let first: Value = (body.ops[0].results[0].clone(), scalar.clone());
    let second = b.op_on("maximum", &[&first, &body.arguments[1].clone()], scalar);
    if b.random.chance(1, 2) {
        body.last = Op::last("stablehlo.return", &[(second.results[0].clone(), scalar.clone())]);
    }
    body.ops.push(second);
}

/// One op on both arguments that is not one of the seven.
fn other_body_op(b: &mut Builder, body: &mut Body, scalar: &Type) -> Option<()> {
    if scalar.element.is_boolean() {
        return None;
    }
    let name = *b.random.pick(&["subtract", "divide", "remainder", "shift_left", "shift_right_logical"]);
    body.ops[0].name = format!("stablehlo.{name}");
    Some(())
}

/// Arguments of two types: the op inside breaks its own C1 (OP-77).
fn unlike_arguments(b: &mut Builder, body: &mut Body) {
    let place = b.random.place(2);
    let unlike = other_element(b.random, body.arguments[place].1.element, any_element);
    body.arguments[place].1.element = unlike;
    let name = body.arguments[place].0.clone();
    for side in 0..2 {
        if body.ops[0].operands[side] == name {
            body.ops[0].operand_types[side].element = unlike;
        }
    }
}

/// A body's return with a result or an attribute.
fn wrong_body_return(b: &mut Builder, body: &mut Body) {
    match b.random.below(3) {
        0 => body.last.results.push(b.fresh()),
        1 => body.last.result_types.push(Type::scalar(I1)),
        _ => body.last.attributes.push(known_attribute(b)),
    }
}

/// "return types that aren't the header's", or a return with results, attributes or bodies (OP-63).
fn faulty_return(mut builder: Builder) -> (Function, usize) {
    let mnemonic = *builder.random.pick(&OPS);
    let op = builder.make(mnemonic);
    let returned = builder.push(op);
    let name = builder.fresh();
    let attribute = known_attribute(&mut builder);
    let body = builder.body("xor", &Type::scalar(UI8));
    let way = builder.random.below(8);
    let dims = other_shape(builder.random, &returned.1.dims, 64);
    let unlike = other_element(builder.random, returned.1.element, any_element);
    let mut function = builder.finish_with(&[returned]);
    match way {
        0 => function.outputs[0].element = unlike,
        1 => function.outputs[0].dims = dims,
        2 => function.outputs.clear(),
        3 => function.outputs.push(function.outputs[0].clone()),
        4 => function.last.results.push(name),
        5 => function.last.result_types.push(Type::scalar(I1)),
        6 => function.last.attributes.push(attribute),
        _ => function.last.bodies.push(body),
    }
    let place = function.ops.len();
    (function, place)
}
