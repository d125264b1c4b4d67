//! The coverage of generated cases: how often each refusal, each size number, each op of accepted
//! programs, each constraint number of each op and each choice of the wrong kind occurs; and near sizes 3
//! and 4 how often each refusal that reading does not give.

use crate::cases::{self, Family, OPS, PAIRS};
use crate::optable::AttributeName;
use crate::program::{AttributeValue, Choice, ChoiceKind, Op, Program};
use crate::stream::{old_store, Case};
use crate::{sizes, Answer};
use std::collections::BTreeMap;

/// What was counted of a family's cases, each with a name of its own.
#[derive(Clone, Debug)]
pub struct Coverage {
    family: Family,
    counts: BTreeMap<String, u64>,
}

fn refusal_name(refusal: u64) -> String {
    format!("refusal {refusal}")
}

fn size_name(size: u64) -> String {
    format!("size {size}")
}

fn op_name(mnemonic: &str) -> String {
    format!("op {mnemonic}")
}

fn constraint_name(mnemonic: &str, c: u64) -> String {
    format!("constraint {mnemonic} C{c}")
}

/// Choices of the wrong kind, at the op that refusal 7 names: the attribute, the choice's kind, and whether
/// its word is one of EQ .. LT or one of SIGNED, UNSIGNED (OP-27).
const CHOICES: [(AttributeName, ChoiceKind, bool); 6] = [
    (AttributeName::ComparisonDirection, ChoiceKind::ComparisonType, true),
    (AttributeName::ComparisonDirection, ChoiceKind::ComparisonType, false),
    (AttributeName::ComparisonDirection, ChoiceKind::ComparisonDirection, false),
    (AttributeName::CompareType, ChoiceKind::ComparisonDirection, true),
    (AttributeName::CompareType, ChoiceKind::ComparisonDirection, false),
    (AttributeName::CompareType, ChoiceKind::ComparisonType, true),
];

fn choice_name((attribute, kind, direction): (AttributeName, ChoiceKind, bool)) -> String {
    let kind = match kind {
        ChoiceKind::ComparisonDirection => "comparison_direction",
        ChoiceKind::ComparisonType => "comparison_type",
    };
    let word = if direction { "LT" } else { "SIGNED" };
    format!("refusal 7 {} = #stablehlo<{kind} {word}> or alike", attribute.name())
}

/// The choices of the wrong kind that a compare has.
fn wrong_choices(op: &Op) -> Vec<String> {
    let choice_of = |value: &AttributeValue| match value {
        AttributeValue::Choice(kind, choice) => Some((*kind, !matches!(choice, Choice::Signed | Choice::Unsigned))),
        _ => None,
    };
    let choices = op.attributes.iter().filter_map(|a| choice_of(&a.value).map(|(kind, word)| (a.name, kind, word)));
    choices.filter(|found| CHOICES.contains(found)).map(choice_name).collect()
}

/// What a text is near to.
const NEAR: [&str; 4] = [
    "near 8,192 elements",
    "near 256 ops",
    "near 8,192 elements, an op without result types",
    "near 256 ops, an op without result types",
];

fn near_name(refusal: u64, near: &str) -> String {
    format!("refusal {refusal} {near}")
}

/// The refusals of texts that reading passes, each with what they have to occur near to. An op without
/// result types is refused, so the last two stand beside refusals 5 to 8.
fn near_names() -> Vec<String> {
    let beside = |refusal: u64| if (5..=8).contains(&refusal) { 4 } else { 2 };
    let of = |refusal: u64| NEAR[..beside(refusal)].iter().map(move |near| near_name(refusal, near));
    [0].into_iter().chain(5..=12).flat_map(of).collect()
}

/// Which of `NEAR` a program is: at most two elements below size 3, at most one op below size 4.
fn near(program: &Program) -> Vec<&'static str> {
    let inputs = program.inputs.iter().map(|input| input.tensor.elements());
    let results = program.ops.iter().flat_map(|op| &op.result_types).map(|tensor| tensor.elements());
    let elements = inputs.chain(results).sum::<usize>() + 2 >= sizes::ELEMENTS;
    let ops = program.ops.len() + 1 >= sizes::OPS;
    let without = program.ops.iter().any(|op| op.result_types.is_empty());
    let which = [elements, ops, elements && without, ops && without];
    NEAR.into_iter().zip(which).filter(|pair| pair.1).map(|pair| pair.0).collect()
}

impl Coverage {
    /// The coverage of the first `count` cases of a family under `seed`.
    pub fn of(family: Family, seed: u64, count: u64) -> Coverage {
        let mut coverage = Coverage { family, counts: BTreeMap::new() };
        for index in 0..count {
            let case = cases::generate(family, seed, index).case;
            let mut store = old_store(case.seed, case.store_length);
            let answer = crate::evaluate(&case.text, &case.inputs, &mut store);
            coverage.add(&case, answer);
        }
        coverage
    }

    fn count(&mut self, name: String) {
        *self.counts.entry(name).or_insert(0) += 1;
    }

    /// Counts one case and its answer.
    pub fn add(&mut self, case: &Case, answer: Answer) {
        self.count(refusal_name(answer.refusal));
        if answer.refusal == 4 {
            self.count(size_name(answer.b));
        }
        if answer.refusal == 8 {
            self.add_constraint(case, answer);
        }
        let Ok(program) = crate::read(&case.text) else { return };
        if answer.refusal == 7 {
            for name in program.ops.get(answer.a as usize).map(wrong_choices).unwrap_or_default() {
                self.count(name);
            }
        }
        if self.family == Family::Limits {
            for near in near(&program) {
                self.count(near_name(answer.refusal, near));
            }
        }
        if answer.refusal == 0 || answer.refusal > 8 {
            for op in &program.ops {
                self.count(op_name(short(op.mnemonic.name())));
            }
        }
    }

    fn add_constraint(&mut self, case: &Case, answer: Answer) {
        let program = crate::read(&case.text).expect("refusal 8 is of a text that was read");
        let name = program.ops.get(answer.a as usize).map_or("return", |op| short(op.mnemonic.name()));
        self.count(constraint_name(name, answer.b));
    }

    /// Everything that has to occur in a family, in the order in which it is printed. Near sizes 3 and 4 a
    /// text may be refused for any reason, where its tokens were mutated, but only those two have to occur.
    pub fn wanted(family: Family) -> Vec<String> {
        let (refusals, sizes): (Vec<u64>, Vec<u64>) = match family {
            Family::General => ((0..=12).collect(), (1..=8).collect()),
            Family::Limits => ([0].into_iter().chain(4..=12).collect(), vec![3, 4]),
        };
        let refusals = refusals.into_iter().map(refusal_name);
        let sizes = sizes.into_iter().map(size_name);
        let ops = OPS.iter().map(|op| op_name(op));
        let constraints = PAIRS.iter().map(|(op, c)| constraint_name(op, *c));
        let near = if family == Family::Limits { near_names() } else { Vec::new() };
        let choices = if family == Family::General { CHOICES.map(choice_name).to_vec() } else { Vec::new() };
        refusals.chain(sizes).chain(choices).chain(near).chain(ops).chain(constraints).collect()
    }

    pub fn occurred(&self, name: &str) -> u64 {
        self.counts.get(name).copied().unwrap_or(0)
    }

    /// What has to occur and did not.
    pub fn missing(&self) -> Vec<String> {
        Coverage::wanted(self.family).into_iter().filter(|name| self.occurred(name) == 0).collect()
    }

    /// What occurred although no case can have it.
    pub fn unforeseen(&self) -> Vec<String> {
        let possible = [Coverage::wanted(Family::General), Coverage::wanted(self.family)].concat();
        self.counts.keys().filter(|name| !possible.contains(name)).cloned().collect()
    }
}

/// The mnemonic of a quoted name.
fn short(name: &'static str) -> &'static str {
    name.strip_prefix("stablehlo.").unwrap_or(name)
}

/// `coverage SEED COUNT` or `coverage SEED COUNT FAMILY`: one line each; exit status 1 where one that has to
/// occur does not.
pub fn command(arguments: &[String]) -> Result<u8, String> {
    let (family, seed, count) = cases::family_seed_count(arguments, "coverage")?;
    let coverage = Coverage::of(family, seed, count);
    for name in Coverage::wanted(family) {
        println!("{name}: {}", coverage.occurred(&name));
    }
    for name in coverage.unforeseen() {
        println!("{name}: {} (unforeseen)", coverage.occurred(&name));
    }
    for name in coverage.missing() {
        println!("missing: {name}");
    }
    let complete = coverage.missing().is_empty() && coverage.unforeseen().is_empty();
    Ok(if complete { 0 } else { 1 })
}
