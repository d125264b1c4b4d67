//! Generated cases, in two families: valid programs over all ops, single faults of every kind, evaluations
//! at their edges and mutated texts; and programs near the sizes of elements and ops (`limits`). A case
//! depends on nothing but its family, the seed and its number.
//!
//! Most cases carry the answer that the papers give them, worked out from how they were made and not
//! by the evaluator, so that the evaluator can be held against it.

mod broken;
mod build;
mod edges;
mod limits;
mod model;
mod mutate;
mod names;
mod readings;
mod sizes;
mod spell;
mod tokens;
mod typing;
mod values;

use crate::random::Random;
use crate::stream::{self, Case};
use crate::Answer;
use build::{Builder, Plan};
use model::Function;
use spell::{lay_out, pieces_of, Layout, Piece, Style, Text};
use std::io::Write;
use tokens::Where;

pub use broken::PAIRS;
pub use build::OPS;

/// What the papers say about a case.
#[derive(Clone, Copy, PartialEq, Eq, Debug)]
pub enum Expected {
    /// The whole answer.
    Answer(Answer),
    /// One of these refusals.
    Among(&'static [u64]),
    /// Not worked out.
    Open,
}

impl Expected {
    pub fn allows(&self, answer: Answer) -> bool {
        match self {
            Expected::Answer(expected) => *expected == answer,
            Expected::Among(refusals) => refusals.contains(&answer.refusal),
            Expected::Open => true,
        }
    }
}

/// A case, what it was made for and what the papers say about it.
#[derive(Clone, Debug)]
pub struct Generated {
    pub kind: &'static str,
    pub case: Case,
    pub expected: Expected,
}

/// A family of cases.
#[derive(Clone, Copy, PartialEq, Eq, Debug)]
pub enum Family {
    /// Cases of every kind.
    General,
    /// Programs near sizes 3 and 4, with ops that write no result type or several.
    Limits,
}

impl Family {
    /// The family that a command's last word names.
    pub fn named(word: &str) -> Result<Family, String> {
        match word {
            "limits" => Ok(Family::Limits),
            _ => Err(format!("`{}` is no family of cases (there is `limits`)", word.escape_default())),
        }
    }

    fn kinds(self) -> &'static [Kind] {
        match self {
            Family::General => &KINDS,
            Family::Limits => &limits::KINDS,
        }
    }
}

/// A kind of case: its share of 1,000, its name and its maker.
type Kind = (u64, &'static str, fn(&mut Random) -> (Case, Expected));

const KINDS: [Kind; 18] = [
    (240, "valid", valid),
    (12, "large", large),
    (12, "at a size", at_size),
    (70, "edge values", edge_values),
    (40, "zero divisor", zero_divisor),
    (60, "store and inputs", store_and_inputs),
    (150, "constraint", constraint),
    (60, "extreme number", extreme_number),
    (100, "typing", typing_fault),
    (50, "names", name_fault),
    (60, "beyond a size", beyond_size),
    (80, "token", token_fault),
    (40, "two faults", two_faults),
    (110, "reading", reading),
    (60, "mutated tokens", mutated_tokens),
    (70, "mutated bytes", mutated_bytes),
    (5, "long text", long_text),
    (3, "deep text", deep_text),
];

/// Case number `index` of a family under `seed`.
pub fn generate(family: Family, seed: u64, index: u64) -> Generated {
    let mut random = Random::for_case(seed, index);
    let kinds = family.kinds();
    let whole = kinds.iter().map(|kind| kind.0).sum();
    let mut drawn = random.below(whole);
    for (share, kind, make) in kinds {
        if drawn < *share {
            let (case, expected) = make(&mut random);
            return Generated { kind, case, expected };
        }
        drawn -= share;
    }
    unreachable!("the shares add up to the whole")
}

/// `cases SEED COUNT` or `cases SEED COUNT FAMILY`.
pub fn command(arguments: &[String]) -> Result<u8, String> {
    let (family, seed, count) = family_seed_count(arguments, "cases")?;
    let mut output = std::io::BufWriter::new(std::io::stdout().lock());
    write(&mut output, family, seed, count).map_err(|error| error.to_string())?;
    Ok(0)
}

/// The first `count` cases of a family in the stream form.
pub fn write(output: &mut dyn Write, family: Family, seed: u64, count: u64) -> std::io::Result<()> {
    for index in 0..count {
        stream::write_case(output, &generate(family, seed, index).case)?;
    }
    output.flush()
}

/// The two numbers of a command, and the family that a third word names.
pub fn family_seed_count(arguments: &[String], name: &str) -> Result<(Family, u64, u64), String> {
    let (numbers, family) = match arguments {
        [_, _] => (arguments, Family::General),
        [_, _, word] => (&arguments[..2], Family::named(word)?),
        _ => return Err(format!("expected `{name} SEED COUNT` or `{name} SEED COUNT limits`")),
    };
    let (seed, count) = seed_and_count(numbers, name)?;
    Ok((family, seed, count))
}

/// The two numbers of a command.
pub fn seed_and_count(arguments: &[String], name: &str) -> Result<(u64, u64), String> {
    let [seed, count] = arguments else {
        return Err(format!("expected `{name} SEED COUNT`"));
    };
    Ok((stream::parse_number(seed)?, stream::parse_number(count)?))
}

// ---- From a function to a case ----

fn answer(refusal: u64, a: u64, b: u64) -> Expected {
    Expected::Answer(Answer { refusal, a, b })
}

/// The answer at a place of a text.
fn answer_at(text: &Text, refusal: u64, place: Where, b: u64) -> Expected {
    let a = match place {
        Where::Piece(piece) => text.starts[piece] as u64,
        Where::End => text.bytes.len() as u64,
    };
    answer(refusal, a, b)
}

/// A case of a text with fitting inputs and a store that is long enough.
fn seal(random: &mut Random, text: Vec<u8>, function: &Function, expected: Expected) -> (Case, Expected) {
    let inputs = edges::input_slots(random, function);
    let more = *random.pick(&[0, 0, 0, 1, 7, 100]);
    let store_length = function.elements() as usize + more;
    seal_with(random, text, inputs, store_length, expected)
}

/// A case; a text that is too long answers 1 whatever it holds.
fn seal_with(
    random: &mut Random,
    text: Vec<u8>,
    inputs: Vec<u64>,
    store_length: usize,
    expected: Expected,
) -> (Case, Expected) {
    let length = text.len();
    let expected = if length > sizes::TEXT { answer(1, length as u64, 0) } else { expected };
    (Case { text, inputs, store_length, seed: random.bits() }, expected)
}

/// The function in a random spelling.
fn spelled(random: &mut Random, function: &Function) -> (Vec<Piece>, Layout) {
    let style = Style::random(random);
    (pieces_of(function, style, random), style.layout)
}

/// A case of a function in a random spelling, its answer at an op or not worked out.
fn sealed_function(random: &mut Random, function: &Function, expected: Expected) -> (Case, Expected) {
    let (pieces, layout) = spelled(random, function);
    let text = lay_out(&pieces, layout, random);
    seal(random, text.bytes, function, expected)
}

/// A spelling without needless length, so that a long text stays within its limit.
fn tidy_style(random: &mut Random) -> Style {
    Style { layout: *random.pick(&[Layout::Compact, Layout::Lines]), ..Style::TIDY }
}

/// A case of a function whose text is long.
fn sealed_tidily(random: &mut Random, function: &Function, expected: Expected) -> (Case, Expected) {
    let style = tidy_style(random);
    let pieces = pieces_of(function, style, random);
    let text = lay_out(&pieces, style.layout, random);
    seal(random, text.bytes, function, expected)
}

/// A case of pieces with a fault at a place.
fn sealed_pieces(
    random: &mut Random,
    pieces: &[Piece],
    layout: Layout,
    function: &Function,
    fault: (u64, Where, u64),
) -> (Case, Expected) {
    let text = lay_out(pieces, layout, random);
    let expected = answer_at(&text, fault.0, fault.1, fault.2);
    seal(random, text.bytes, function, expected)
}

// ---- Valid programs ----

/// Adds up to `most` random ops and what they need.
fn some_ops(b: &mut Builder, most: u64) {
    for _ in 0..b.random.between(0, most) {
        if b.elements() > 3000 {
            return;
        }
        let mnemonic = *b.random.pick(&OPS);
        let op = b.make(mnemonic);
        b.push(op);
    }
}

/// A valid function of a few ops.
fn valid_function(random: &mut Random) -> Function {
    let most = *random.pick(&[1, 6, 24, 24, 24, 60]);
    let inputs = random.place(5);
    let mut b = Builder::new(random, Plan { most, inputs, ..Plan::SMALL });
    let count = *b.random.pick(&[1, 2, 4, 8]);
    some_ops(&mut b, count);
    if b.random.chance(19, 20) {
        let mnemonic = *b.random.pick(&OPS);
        let op = b.make(mnemonic);
        b.push(op);
    }
    b.finish()
}

/// The refusals that a valid program with fitting inputs and store may meet.
const EVALUATED: Expected = Expected::Among(&[0, 12]);

fn valid(random: &mut Random) -> (Case, Expected) {
    let function = valid_function(random);
    sealed_function(random, &function, EVALUATED)
}

fn large(random: &mut Random) -> (Case, Expected) {
    let function = sizes::large(random);
    sealed_tidily(random, &function, EVALUATED)
}

/// Programs at a size that 01 still accepts.
fn at_size(random: &mut Random) -> (Case, Expected) {
    let passed = match random.below(3) {
        0 => sizes::total(random, false),
        1 => sizes::many_ops(random, false),
        _ => sizes::many_values(random, false),
    };
    sealed_tidily(random, &passed.function, EVALUATED)
}

fn edge_values(random: &mut Random) -> (Case, Expected) {
    let function = edges::accepted(random);
    sealed_function(random, &function, answer(0, 0, 0))
}

fn zero_divisor(random: &mut Random) -> (Case, Expected) {
    let (function, op, element) = edges::zero_divisor(random);
    sealed_function(random, &function, answer(12, op, element))
}

// ---- Stores and inputs that do not fit ----

fn store_and_inputs(random: &mut Random) -> (Case, Expected) {
    let function = function_with_inputs(random);
    let (pieces, layout) = spelled(random, &function);
    let text = lay_out(&pieces, layout, random).bytes;
    let needed = function.elements();
    let mut inputs = edges::input_slots(random, &function);
    match random.below(3) {
        0 if needed > 0 => short_store(random, text, inputs, needed),
        1 => match edges::spoil_inputs(random, &function, &mut inputs) {
            Some(slot) => seal_with(random, text, inputs, needed as usize, answer(11, slot, 0)),
            None => other_length(random, text, inputs, needed),
        },
        _ => other_length(random, text, inputs, needed),
    }
}

/// A valid function, mostly with inputs that have elements.
fn function_with_inputs(random: &mut Random) -> Function {
    for _ in 0..6 {
        let function = valid_function(random);
        if function.input_elements() > 0 {
            return function;
        }
    }
    valid_function(random)
}

/// "store shorter than the elements of size 3".
fn short_store(random: &mut Random, text: Vec<u8>, mut inputs: Vec<u64>, needed: u64) -> (Case, Expected) {
    let length = *random.pick(&[0, needed - 1, needed - 1, needed / 2]);
    if random.chance(1, 3) {
        inputs.push(random.bits());
    }
    seal_with(random, text, inputs, length as usize, answer(9, needed, 0))
}

/// "input slice of another length than the inputs together".
fn other_length(random: &mut Random, text: Vec<u8>, mut inputs: Vec<u64>, needed: u64) -> (Case, Expected) {
    let right = inputs.len() as u64;
    if !inputs.is_empty() && random.chance(1, 2) {
        let left = random.place(inputs.len());
        inputs.truncate(*random.pick(&[left, inputs.len() - 1, 0]));
    } else {
        for _ in 0..random.between(1, 3) {
            inputs.push(random.bits());
        }
    }
    let more = random.place(3);
    seal_with(random, text, inputs, needed as usize + more, answer(10, right, 0))
}

// ---- Faults of verification ----

/// A builder with some ops before the fault.
fn before_fault<'r>(random: &'r mut Random) -> Builder<'r> {
    let mut b = Builder::new(random, Plan { most: 12, ..Plan::SMALL });
    let count = *b.random.pick(&[0, 0, 1, 3]);
    some_ops(&mut b, count);
    b
}

fn constraint(random: &mut Random) -> (Case, Expected) {
    let (mnemonic, c) = *random.pick(&PAIRS);
    let mut b = before_fault(random);
    let op = broken::broken(&mut b, mnemonic, c);
    let place = b.ops.len() as u64;
    b.ops.push(op);
    some_ops(&mut b, 1);
    let function = b.finish();
    sealed_function(random, &function, answer(8, place, c))
}

/// An attribute number out to both ends of 64 bits.
fn extreme_number(random: &mut Random) -> (Case, Expected) {
    let with =
        ["broadcast_in_dim", "concatenate", "dynamic_slice", "iota", "pad", "reduce", "reverse", "slice", "transpose"];
    let mnemonic = *random.pick(&with);
    let mut b = before_fault(random);
    let op = loop {
        let mark = b.mark();
        let mut op = b.make(mnemonic);
        if broken::extreme_number(b.random, &mut op) {
            break op;
        }
        b.reset(mark);
    };
    b.push(op);
    let function = b.finish();
    sealed_function(random, &function, Expected::Among(&[0, 8, 12]))
}

fn typing_fault(random: &mut Random) -> (Case, Expected) {
    let (function, op) = typing::faulty(before_fault(random));
    sealed_function(random, &function, answer(7, op as u64, 0))
}

fn name_fault(random: &mut Random) -> (Case, Expected) {
    let (function, refusal, spot) = names::faulty(before_fault(random));
    let (pieces, layout) = spelled(random, &function);
    let place = Where::Piece(spot.find(&pieces));
    sealed_pieces(random, &pieces, layout, &function, (refusal, place, 0))
}

// ---- Faults of reading ----

fn beyond_size(random: &mut Random) -> (Case, Expected) {
    if random.chance(1, 3) {
        return beyond_count(random);
    }
    loop {
        let function = valid_function(random);
        let (mut pieces, layout) = spelled(random, &function);
        let found = match random.below(4) {
            0 => sizes::pass_shape(random, &mut pieces),
            1 => sizes::pass_name(random, &mut pieces).map(|place| (place, 8)),
            2 => sizes::pass_number(random, &mut pieces).map(|place| (place, 7)),
            _ => sizes::pass_list(random, &mut pieces).map(|place| (place, 6)),
        };
        if let Some((place, size)) = found {
            return sealed_pieces(random, &pieces, layout, &function, (4, Where::Piece(place), size));
        }
    }
}

/// One element, op or value too many.
fn beyond_count(random: &mut Random) -> (Case, Expected) {
    let passed = match random.below(5) {
        0 | 1 => sizes::total(random, true),
        2 => sizes::many_ops(random, true),
        _ => sizes::many_values(random, true),
    };
    let style = tidy_style(random);
    let mut pieces = pieces_of(&passed.function, style, random);
    let (role, before) = passed.at.expect("beyond the size");
    let alike: Vec<usize> = (0..pieces.len()).filter(|i| pieces[*i].role == role).collect();
    let place = alike[before];
    let mut fault = (4, Where::Piece(place), passed.size);
    if random.chance(1, 4) {
        let (refusal, size) = sizes::second_fault(random, &mut pieces[place], passed.size);
        fault = (refusal, Where::Piece(place), size);
    }
    sealed_pieces(random, &pieces, style.layout, &passed.function, fault)
}

fn token_fault(random: &mut Random) -> (Case, Expected) {
    loop {
        let function = valid_function(random);
        let (mut pieces, layout) = spelled(random, &function);
        if let Some((refusal, place)) = tokens::faulty(random, &mut pieces) {
            return sealed_pieces(random, &pieces, layout, &function, (refusal, place, 0));
        }
    }
}

fn reading(random: &mut Random) -> (Case, Expected) {
    let chosen = random.pick(readings::READINGS);
    let (text, expected) = readings::text_of(chosen);
    let inputs = vec![1; readings::input_count(chosen.0)];
    seal_with(random, text, inputs, 16, Expected::Answer(expected))
}

/// Every reading as a case.
pub fn all_readings() -> Vec<Generated> {
    let mut list = Vec::new();
    for reading in readings::READINGS {
        let (text, expected) = readings::text_of(reading);
        let inputs = vec![1; readings::input_count(reading.0)];
        let case = Case { text, inputs, store_length: 16, seed: 0 };
        list.push(Generated { kind: "reading", case, expected: Expected::Answer(expected) });
    }
    list
}

// ---- Two faults, of which one answers ----

fn two_faults(random: &mut Random) -> (Case, Expected) {
    match random.below(4) {
        0 => constraint_and_token(random),
        1 => names_and_constraint(random),
        2 => typing_and_constraint(random),
        _ => earlier_op(random),
    }
}

/// A function whose last op breaks a constraint, the op's place and its C number.
fn with_broken_op<'r>(random: &'r mut Random) -> (Builder<'r>, usize, u64) {
    let (mnemonic, c) = *random.pick(&PAIRS);
    let mut b = before_fault(random);
    let op = broken::broken(&mut b, mnemonic, c);
    let place = b.ops.len();
    b.ops.push(op);
    (b, place, c)
}

/// "Refusals 1 to 4 come first".
fn constraint_and_token(random: &mut Random) -> (Case, Expected) {
    loop {
        let (b, _, _) = with_broken_op(random);
        let function = b.finish();
        let (mut pieces, layout) = spelled(random, &function);
        if let Some((refusal, place)) = tokens::faulty(random, &mut pieces) {
            return sealed_pieces(random, &pieces, layout, &function, (refusal, place, 0));
        }
    }
}

/// "op by op names (5, 6), 7, 8".
fn names_and_constraint(random: &mut Random) -> (Case, Expected) {
    loop {
        let (mut b, place, _) = with_broken_op(random);
        let operands = b.ops[place].operands.len();
        if operands == 0 {
            continue;
        }
        let name = "%nowhere".to_string();
        b.ops[place].operands[b.random.place(operands)] = name.clone();
        let function = b.finish();
        let (pieces, layout) = spelled(random, &function);
        let found = names::Spot::FirstUse(name).find(&pieces);
        return sealed_pieces(random, &pieces, layout, &function, (5, Where::Piece(found), 0));
    }
}

/// An attribute too many at the op that breaks a constraint.
fn typing_and_constraint(random: &mut Random) -> (Case, Expected) {
    let (mut b, place, _) = with_broken_op(random);
    let foreign = if b.ops[place].mnemonic() == "iota" { "dimension" } else { "iota_dimension" };
    b.ops[place].push_attribute(foreign, model::Attr::Number(0));
    let function = b.finish();
    sealed_function(random, &function, answer(7, place as u64, 0))
}

/// A broken constraint before an op with a fault of another kind.
fn earlier_op(random: &mut Random) -> (Case, Expected) {
    let (b, place, c) = with_broken_op(random);
    let (function, later) = typing::faulty(b);
    assert!(place < later);
    sealed_function(random, &function, answer(8, place as u64, c))
}

// ---- Mutations and great texts ----

/// A function to mutate: mostly valid, sometimes with a fault of typing.
fn function_to_mutate(random: &mut Random) -> Function {
    if random.chance(1, 6) {
        return typing::faulty(before_fault(random)).0;
    }
    valid_function(random)
}

fn mutated_tokens(random: &mut Random) -> (Case, Expected) {
    let function = function_to_mutate(random);
    let (mut pieces, layout) = spelled(random, &function);
    mutate::pieces(random, &mut pieces);
    let text = lay_out(&pieces, layout, random);
    seal(random, text.bytes, &function, Expected::Open)
}

fn mutated_bytes(random: &mut Random) -> (Case, Expected) {
    let function = function_to_mutate(random);
    let (pieces, layout) = spelled(random, &function);
    let mut text = lay_out(&pieces, layout, random).bytes;
    mutate::bytes(random, &mut text);
    seal(random, text, &function, Expected::Open)
}

/// A text at its limit of bytes, one beyond, or far beyond; whatever it holds.
fn long_text(random: &mut Random) -> (Case, Expected) {
    let function = valid_function(random);
    let (pieces, layout) = spelled(random, &function);
    let text = lay_out(&pieces, layout, random).bytes;
    let length = *random.pick(&[sizes::TEXT, sizes::TEXT, sizes::TEXT + 1, sizes::TEXT + 1, sizes::TEXT + 5000]);
    let mut text = sizes::lengthen(random, text, length);
    if length > sizes::TEXT && random.chance(1, 3) {
        text[0] = b'$';
    }
    seal(random, text, &function, EVALUATED)
}

/// Lists and bodies nested as deep as a text can, bodies as long as one can: in the grammar and refused by
/// 7, or unfinished.
fn deep_text(random: &mut Random) -> (Case, Expected) {
    let closed = random.chance(1, 2);
    let text = match random.below(3) {
        0 => deep_lists(random, closed),
        1 => deep_bodies(random, closed),
        _ => wide_body(random, closed),
    };
    let expected = if closed { answer(7, 0, 0) } else { answer(2, text.len() as u64, 0) };
    seal_with(random, text.into_bytes(), Vec::new(), 4, expected)
}

fn deep_lists(random: &mut Random, closed: bool) -> String {
    let depth = if closed { 32_000 } else { 64_000 } - random.place(1000);
    let before = "func.func @m() { %c = \"stablehlo.constant\"() {value = dense<";
    let open = "[".repeat(depth);
    if !closed {
        return format!("{before}{open}");
    }
    let close = "]".repeat(depth);
    format!("{before}{open}{close}> : tensor<i8>}} : () -> tensor<i8> \"func.return\"() : () -> () }}")
}

fn deep_bodies(random: &mut Random, closed: bool) -> String {
    let depth = if closed { 1100 } else { 2700 } - random.place(100);
    let open = "\"stablehlo.or\"()({^b():".repeat(depth);
    if !closed {
        return format!("func.func@m(){{{open}");
    }
    let close = "\"stablehlo.return\"():()->()}):()->()".repeat(depth);
    format!("func.func@m(){{{open}{close}\"func.return\"():()->()}}")
}

/// More body ops than size 4 lets a function have: they are not counted.
fn wide_body(random: &mut Random, closed: bool) -> String {
    let ops = "\"stablehlo.or\"():()->()".repeat(257 + random.place(1000));
    let before = format!("func.func@m(){{\"stablehlo.reduce\"()({{^b():{ops}");
    if !closed {
        return before;
    }
    format!("{before}\"stablehlo.return\"():()->()}}):()->()\"func.return\"():()->()}}")
}

// ---- Programs for free runs ----

/// A function with reductions, all of which start at identities, and now and then a division by values
/// that may be zero.
fn function_for_free_runs(random: &mut Random) -> Function {
    let plan =
        Plan { most: *random.pick(&[6, 24, 60, 60, 600]), inputs: random.place(5), identity_starts: true, careless: 2 };
    let mut b = Builder::new(random, plan);
    for _ in 0..b.random.between(1, 4) {
        some_ops(&mut b, 4);
        let op = b.make("reduce");
        b.push(op);
        if b.random.chance(1, 8) {
            let op = b.make("divide");
            b.push(op);
        }
    }
    b.finish()
}

/// An accepted program whose reductions start at identities, with its inputs.
pub fn for_free_runs(random: &mut Random) -> (Vec<u8>, Vec<u64>) {
    let function = loop {
        let function = function_for_free_runs(random);
        if function.elements() <= 8192 {
            break function;
        }
    };
    let pieces = pieces_of(&function, Style::TIDY, random);
    let text = lay_out(&pieces, Layout::Lines, random);
    let slots = edges::input_slots(random, &function);
    (text.bytes, slots)
}
