//! Programs near sizes 3 and 4: "Inputs and op results together at most 8,192 elements", "One function has at
//! most 256 ops". Just below, at the limit and one beyond, with ops that write no result type or several (in the
//! grammar, and 7), and with every kind of fault that a later rule answers.

use super::broken::{self, PAIRS};
use super::build::{Builder, Plan, Value, OPS};
use super::model::{Function, Op, Type, I8};
use super::names::{self, Spot};
use super::sizes::{op_names, splat, SHORT, TEXT};
use super::spell::{lay_out, pieces_of, Layout, Piece, Role, Style, Text};
use super::values::{any_element, element};
use super::{answer, edges, mutate, other_length, seal, seal_with, short_store, typing};
use super::{Case, Expected, Kind, EVALUATED};
use crate::random::Random;

/// "Inputs and op results together at most 8,192 elements".
const MOST_ELEMENTS: u64 = 8192;

/// "One function has at most 256 ops".
const MOST_OPS: usize = 256;

/// "at most 4,096": the most elements of one tensor.
const WIDEST: u64 = 4096;

/// The kinds of the family, each with its share of 1,000.
pub const KINDS: [Kind; 12] = [
    (120, "limits: accepted", accepted),
    (30, "limits: zero divisor", zero_divisor),
    (80, "limits: store and inputs", store_and_inputs),
    (60, "limits: header", |random| faulty(random, header)),
    (120, "limits: name not defined", |random| faulty(random, not_defined)),
    (100, "limits: name twice", |random| faulty(random, defined_twice)),
    (100, "limits: names in bodies", |random| faulty(random, body_names)),
    (110, "limits: typing", |random| faulty(random, wrong_typing)),
    (120, "limits: constraint", |random| faulty(random, constraint)),
    (90, "limits: results", |random| faulty(random, wrong_results)),
    (40, "limits: return", wrong_return),
    (30, "limits: mutated tokens", mutated),
];

/// The first fault of a function that reading passes.
enum Fault {
    None,
    /// 5 or 6 at a name.
    Name(u64, Spot),
    /// 7 at an op.
    Typing(usize),
    /// 8 at an op, with its C number.
    Constraint(usize, u64),
    /// 12 at an op and its element.
    ZeroDivisor(u64, u64),
}

impl Fault {
    fn answer(&self, pieces: &[Piece], text: &Text) -> Expected {
        match self {
            Fault::None => EVALUATED,
            Fault::Name(refusal, spot) => answer(*refusal, text.starts[spot.find(pieces)] as u64, 0),
            Fault::Typing(op) => answer(7, *op as u64, 0),
            Fault::Constraint(op, c) => answer(8, *op as u64, *c),
            Fault::ZeroDivisor(op, element) => answer(12, *op, *element),
        }
    }
}

/// How many ops and elements a function shall have; nothing where it does not matter.
#[derive(Clone, Copy)]
struct Target {
    ops: Option<usize>,
    elements: Option<u64>,
}

impl Target {
    fn random(random: &mut Random) -> Target {
        let ops = *random.pick(&[MOST_OPS - 1, MOST_OPS, MOST_OPS, MOST_OPS, MOST_OPS + 1]);
        let most = MOST_ELEMENTS;
        let beyond = most + 1 + random.below(WIDEST);
        let elements = *random.pick(&[most - 2, most - 1, most, most, most, most, most + 1, beyond]);
        // Texts of many ops are long, and take both evaluators long.
        match random.below(16) {
            0 => Target { ops: Some(ops), elements: None },
            1 => Target { ops: Some(ops), elements: Some(elements) },
            _ => Target { ops: None, elements: Some(elements) },
        }
    }
}

/// Small tensors, and divisors that may be zero.
const CARELESS: Plan = Plan { most: 4, inputs: 3, identity_starts: false, careless: 3 };

/// Small tensors, and no divisor that is zero by accident.
const CAREFUL: Plan = Plan { careless: 1 << 40, ..CARELESS };

/// A builder with some valid ops, of which a few are wide.
fn started(random: &mut Random, plan: Plan, target: Target) -> Builder<'_> {
    let mut b = Builder::new(random, plan);
    let before = match target.ops {
        Some(_) => b.random.place(MOST_OPS - 30),
        None => *b.random.pick(&[0, 0, 0, 1, 3]),
    };
    while b.ops.len() < before {
        let mnemonic = if b.random.chance(1, 10) { *b.random.pick(&OPS) } else { *b.random.pick(&SHORT) };
        let op = b.make(mnemonic);
        b.push(op);
    }
    if target.elements.is_some() && b.random.chance(1, 3) {
        let tensor = wide_type(b.random, WIDEST);
        splat(&mut b, &tensor);
    }
    b
}

/// A type of so many elements.
fn wide_type(random: &mut Random, count: u64) -> Type {
    let element = element(random, any_element);
    let dims = match random.below(4) {
        0 => vec![1, count],
        1 => vec![count, 1, 1],
        2 if count.is_multiple_of(2) => vec![2, count / 2],
        _ => vec![count],
    };
    Type { element, dims }
}

// ---- First faults: each adds an op that has it ----

/// Gives an op another number of result names or types than one.
fn change_results(b: &mut Builder, op: &mut Op) {
    let tensor = op.result_types.first().cloned().unwrap_or(Type::scalar(I8));
    match b.random.below(8) {
        0..=2 => op.result_types.clear(),
        3 | 4 => {
            op.results.clear();
            op.result_types.clear();
        }
        5 => op.results.clear(),
        6 => op.result_types = vec![tensor; *b.random.pick(&[2, 2, 3, 8])],
        _ => {
            op.results.push(b.fresh());
            op.result_types.push(tensor);
        }
    }
}

/// An op of any kind that is sound, with operands where one is wanted.
fn sound(b: &mut Builder, operands: bool) -> Op {
    loop {
        let mark = b.mark();
        let mnemonic = *b.random.pick(&OPS);
        let op = b.make(mnemonic);
        if !operands || !op.operands.is_empty() {
            return op;
        }
        b.reset(mark);
    }
}

fn header(b: &mut Builder) -> Fault {
    let tensor = b.draw_type(any_element);
    let twin: Value = (b.fresh(), tensor);
    b.inputs.push(twin.clone());
    b.inputs.insert(b.random.place(b.inputs.len()), twin.clone());
    Fault::Name(6, Spot::LastDefinition(twin.0))
}

fn not_defined(b: &mut Builder) -> Fault {
    let mut op = sound(b, true);
    let name = if b.random.chance(1, 4) { op.results[0].clone() } else { names::unknown_name(b) };
    let place = b.random.place(op.operands.len());
    op.operands[place] = name.clone();
    if b.random.chance(1, 3) {
        op.operands.truncate(place + 1);
    }
    if b.random.chance(2, 3) {
        change_results(b, &mut op);
    }
    b.ops.push(op);
    Fault::Name(5, Spot::FirstUse(name))
}

fn defined_twice(b: &mut Builder) -> Fault {
    let mut op = sound(b, true);
    let name = if b.random.chance(1, 3) {
        op.results[0] = b.fresh();
        op.results.push(op.results[0].clone());
        op.results[0].clone()
    } else {
        let earlier = names::reused_name(b);
        op.results = vec![earlier.clone()];
        earlier
    };
    if b.random.chance(2, 3) {
        op.result_types = vec![op.result_types[0].clone(); *b.random.pick(&[0, 0, 0, 2])];
    }
    b.ops.push(op);
    Fault::Name(6, Spot::LastDefinition(name))
}

fn body_names(b: &mut Builder) -> Fault {
    let mut op = names::reduce_with_own_names(b);
    let (refusal, spot) = names::fault_in_body(b, &mut op);
    if b.random.chance(2, 3) {
        op.result_types.clear();
    }
    b.ops.push(op);
    Fault::Name(refusal, spot)
}

fn wrong_typing(b: &mut Builder) -> Fault {
    let op = typing::faulty_op(b);
    b.ops.push(op);
    Fault::Typing(b.ops.len() - 1)
}

fn constraint(b: &mut Builder) -> Fault {
    let (mnemonic, c) = *b.random.pick(&PAIRS);
    let mut op = broken::broken(b, mnemonic, c);
    let place = b.ops.len();
    let odd = b.random.chance(1, 5);
    if odd {
        change_results(b, &mut op);
    }
    b.ops.push(op);
    if odd {
        Fault::Typing(place)
    } else {
        Fault::Constraint(place, c)
    }
}

fn wrong_results(b: &mut Builder) -> Fault {
    let mut op = sound(b, false);
    change_results(b, &mut op);
    b.ops.push(op);
    Fault::Typing(b.ops.len() - 1)
}

// ---- What follows a first fault ----

/// Ops after the fault, up to the number wanted: sound, or with faults of their own.
fn add_later_ops(b: &mut Builder, target: Target) {
    let wanted = target.ops.unwrap_or(0);
    for _ in 0..b.random.place(5) {
        if target.ops.is_some() && b.ops.len() + 24 > wanted {
            break;
        }
        let op = later_op(b);
        b.ops.push(op);
    }
    let sound_parts = *b.random.pick(&[0, 1, 4]);
    while b.ops.len() < wanted {
        let sound = b.random.below(4) < sound_parts;
        let op = filler(b, sound);
        b.ops.push(op);
    }
}

/// An op with any fault, or none.
fn later_op(b: &mut Builder) -> Op {
    let mut op = match b.random.below(4) {
        0 => typing::faulty_op(b),
        1 => {
            let (mnemonic, c) = *b.random.pick(&PAIRS);
            broken::broken(b, mnemonic, c)
        }
        _ => sound(b, false),
    };
    if b.random.chance(1, 4) && !op.operands.is_empty() {
        op.operands[0] = "%nowhere".to_string();
    }
    if b.random.chance(2, 3) {
        change_results(b, &mut op);
    }
    op
}

/// An op with a short text that adds nothing before it: `not` of a small value, or one without result types.
fn filler(b: &mut Builder, sound: bool) -> Op {
    let small: Vec<&Value> = b.values.iter().filter(|v| v.1.count() <= 4).collect();
    if small.is_empty() || (!sound && b.random.chance(1, 2)) {
        return Op { results: Vec::new(), result_types: Vec::new(), ..Op::plain("add", "", &Type::scalar(I8)) };
    }
    let x = (*b.random.pick(&small)).clone();
    let mut op = b.op_on("not", &[&x], &x.1);
    if !sound {
        op.result_types.clear();
    }
    op
}

// ---- Numbers of ops and elements ----

/// The result types in the order of their tokens, those of body ops as nothing.
fn result_types<'t>(op: &'t Op, outermost: bool, list: &mut Vec<Option<&'t Type>>) {
    for body in &op.bodies {
        for inner in body.ops.iter().chain([&body.last]) {
            result_types(inner, false, list);
        }
    }
    list.extend(op.result_types.iter().map(|tensor| Some(tensor).filter(|_| outermost)));
}

/// All result types of a function, its return's too.
fn all_result_types(function: &Function) -> Vec<Option<&Type>> {
    let mut list = Vec::new();
    for op in function.ops.iter().chain([&function.last]) {
        result_types(op, true, &mut list);
    }
    list
}

/// The elements that size 3 counts.
fn counted(function: &Function) -> u64 {
    function.input_elements() + all_result_types(function).into_iter().flatten().map(Type::count).sum::<u64>()
}

/// Piece number `count` of a role.
fn piece_of(pieces: &[Piece], role: Role, count: usize) -> usize {
    let mut alike = (0..pieces.len()).filter(|i| pieces[*i].role == role);
    alike.nth(count).expect("a piece for each part of the function")
}

/// The type at which the elements pass size 3.
fn element_passed(function: &Function, pieces: &[Piece]) -> Option<usize> {
    let inputs = function.inputs.iter().map(|input| Some(&input.1));
    let results = all_result_types(function);
    let mut sum = 0;
    for (i, tensor) in inputs.chain(results).enumerate() {
        sum += tensor.map_or(0, Type::count);
        if sum > MOST_ELEMENTS {
            let before = function.inputs.len();
            let (role, count) = if i < before { (Role::InputType, i) } else { (Role::ResultType, i - before) };
            return Some(piece_of(pieces, role, count));
        }
    }
    None
}

/// The op's name that passes size 4.
fn op_passed(function: &Function, pieces: &[Piece]) -> Option<usize> {
    if function.ops.len() <= MOST_OPS {
        return None;
    }
    let before = function.ops[..MOST_OPS].iter().map(op_names).sum();
    Some(piece_of(pieces, Role::OpName, before))
}

/// "Refusals 1 to 4 come first: 1, then the earliest byte": the piece and the size that it passes.
fn size_passed(function: &Function, pieces: &[Piece]) -> Option<(usize, u64)> {
    let elements = element_passed(function, pieces).map(|piece| (piece, 3));
    let ops = op_passed(function, pieces).map(|piece| (piece, 4));
    elements.into_iter().chain(ops).min()
}

/// Adds inputs, or result types of ops from number `after` on, until size 3 counts so many elements.
fn fill(random: &mut Random, function: &mut Function, after: usize, target: Target) {
    let wanted = target.elements.unwrap_or(0);
    let later = function.ops.len() - after.min(function.ops.len());
    for attempt in 0..40 {
        let missing = wanted.saturating_sub(counted(function));
        if missing == 0 {
            break;
        }
        let whole = missing.min(WIDEST);
        let count = if attempt < 4 && random.chance(1, 3) { random.between(1, whole) } else { whole };
        let tensor = wide_type(random, count);
        let op = after + random.place(later);
        let roomy = later > 0 && function.ops[op].result_types.len() < 8;
        if roomy && random.chance(1, 2) {
            function.ops[op].result_types.push(tensor);
        } else if function.inputs.len() < 8 {
            let input = (format!("%w{attempt}"), tensor);
            function.inputs.insert(random.place(function.inputs.len() + 1), input);
        }
    }
    if function.inputs.len() < 8 && random.chance(1, 4) {
        let empty = element(random, any_element);
        function.inputs.push(("%w_".to_string(), Type::new(empty, &[0, WIDEST])));
    }
}

// ---- Cases ----

/// The text of a function, short where there are many ops, with its pieces.
fn written(random: &mut Random, function: &Function) -> (Vec<Piece>, Text) {
    let style = if function.ops.len() > 20 { super::tidy_style(random) } else { Style::random(random) };
    let pieces = pieces_of(function, style, random);
    let text = lay_out(&pieces, style.layout, random);
    (pieces, text)
}

/// A case of a function with a first fault; nothing where its text is too long.
fn sealed(random: &mut Random, function: &Function, fault: &Fault) -> Option<(Case, Expected)> {
    let (pieces, text) = written(random, function);
    if text.bytes.len() > TEXT {
        return None;
    }
    let expected = match size_passed(function, &pieces) {
        Some((piece, size)) => answer(4, text.starts[piece] as u64, size),
        None => fault.answer(&pieces, &text),
    };
    let evaluated = matches!(fault, Fault::None | Fault::ZeroDivisor(..));
    if evaluated || random.chance(1, 4) {
        return Some(seal(random, text.bytes, function, expected));
    }
    // A text that is refused is so on any inputs and over any store.
    let count = random.below(4);
    let inputs = (0..count).map(|_| random.bits()).collect();
    let store_length = random.place(40);
    Some(seal_with(random, text.bytes, inputs, store_length, expected))
}

/// A case of a function whose first fault is the one that `add` adds.
fn faulty(random: &mut Random, add: fn(&mut Builder) -> Fault) -> (Case, Expected) {
    loop {
        let target = Target::random(random);
        let mut b = started(random, CARELESS, target);
        let fault = add(&mut b);
        let after = b.ops.len();
        add_later_ops(&mut b, target);
        let mut function = b.finish();
        if random.chance(1, 4) {
            function.last.result_types.push(Type::scalar(I8));
        }
        fill(random, &mut function, after, target);
        if let Some(case) = sealed(random, &function, &fault) {
            return case;
        }
    }
}

/// A function without faults but, for some targets, of its sizes.
fn sound_function(random: &mut Random) -> Function {
    let target = Target::random(random);
    let mut b = started(random, CARELESS, target);
    if b.random.chance(1, 4) {
        let mnemonic = *b.random.pick(&["divide", "remainder"]);
        let op = b.make(mnemonic);
        b.push(op);
    }
    add_sound_ops(&mut b, target);
    let function = b.finish();
    widened(random, function, target)
}

/// Sound ops up to the number wanted, and a small value for them.
fn add_sound_ops(b: &mut Builder, target: Target) {
    b.new_value(&Type::scalar(I8));
    while b.ops.len() < target.ops.unwrap_or(0) {
        let op = filler(b, true);
        b.push(op);
    }
}

/// The function with inputs up to the elements wanted.
fn widened(random: &mut Random, mut function: Function, target: Target) -> Function {
    let end = function.ops.len();
    fill(random, &mut function, end, target);
    function
}

fn zero_divisor(random: &mut Random) -> (Case, Expected) {
    loop {
        let target = Target::random(random);
        let mut b = started(random, CAREFUL, target);
        let (op, element) = edges::push_zero_divisor(&mut b);
        add_sound_ops(&mut b, target);
        let function = b.finish();
        let function = widened(random, function, target);
        if let Some(case) = sealed(random, &function, &Fault::ZeroDivisor(op, element)) {
            return case;
        }
    }
}

fn accepted(random: &mut Random) -> (Case, Expected) {
    loop {
        let function = sound_function(random);
        if let Some(case) = sealed(random, &function, &Fault::None) {
            return case;
        }
    }
}

/// Stores and inputs that do not fit a program at the limits.
fn store_and_inputs(random: &mut Random) -> (Case, Expected) {
    loop {
        let function = sound_function(random);
        let (pieces, text) = written(random, &function);
        let needed = function.elements();
        if text.bytes.len() > TEXT || size_passed(&function, &pieces).is_some() || needed == 0 {
            continue;
        }
        let mut inputs = edges::input_slots(random, &function);
        match random.below(3) {
            0 => return short_store(random, text.bytes, inputs, needed),
            1 => return other_length(random, text.bytes, inputs, needed),
            _ => {}
        }
        if let Some(slot) = edges::spoil_inputs(random, &function, &mut inputs) {
            return seal_with(random, text.bytes, inputs, needed as usize, answer(11, slot, 0));
        }
    }
}

/// A fault of the return of a function that has no other one.
fn wrong_return(random: &mut Random) -> (Case, Expected) {
    loop {
        let mut function = sound_function(random);
        let fault = change_return(random, &mut function);
        if let Some(case) = sealed(random, &function, &fault) {
            return case;
        }
    }
}

/// Gives the return a name that is not defined, one that is defined twice, results, or other types.
fn change_return(random: &mut Random, function: &mut Function) -> Fault {
    let place = function.ops.len();
    let scalar = Type::scalar(I8);
    match random.below(5) {
        0 => {
            function.last.operands.truncate(7);
            function.last.operands.push("%undefined".to_string());
            return Fault::Name(5, Spot::FirstUse("%undefined".to_string()));
        }
        1 => {
            function.last.results = vec!["%w".to_string(), "%w".to_string()];
            return Fault::Name(6, Spot::LastDefinition("%w".to_string()));
        }
        2 => function.last.results.push("%w".to_string()),
        3 => function.last.result_types = vec![scalar; *random.pick(&[1, 2, 8])],
        _ if function.outputs.len() == 8 => function.outputs.clear(),
        _ => function.outputs.push(scalar),
    }
    Fault::Typing(place)
}

/// A text of the family with other tokens.
fn mutated(random: &mut Random) -> (Case, Expected) {
    let target = Target::random(random);
    let mut b = started(random, CARELESS, target);
    wrong_results(&mut b);
    let after = b.ops.len();
    add_later_ops(&mut b, target);
    let mut function = b.finish();
    fill(random, &mut function, after, target);
    let (mut pieces, _) = written(random, &function);
    mutate::pieces(random, &mut pieces);
    let text = lay_out(&pieces, Layout::Lines, random);
    seal(random, text.bytes, &function, Expected::Open)
}
