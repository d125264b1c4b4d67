//! The check of demand 3 by running: accepted programs whose reductions start at identities, each
//! evaluated and run freely in random orders with random trees. Where the evaluation answered results,
//! every op's tensor and every result of a free run are the same; where it answered 12, every free run
//! meets a zero divisor. Where a start is no identity, a run that differs is shown.

use crate::cases;
use crate::free::{self, End, Outcome, Step, Tree};
use crate::program::{Program, Tensor};
use crate::random::Random;
use crate::Answer;
use std::cell::RefCell;

/// The free runs of each program.
const RUNS: u64 = 3;

/// What was run.
#[derive(Clone, Copy, PartialEq, Eq, Debug, Default)]
pub struct Summary {
    pub programs: u64,
    pub runs: u64,
    /// Programs that the evaluation answered with 12.
    pub zero_divisors: u64,
    /// Trees, one for each result element of each reduction that ran.
    pub trees: u64,
    /// Trees in which the start value stands more than once.
    pub repeated_starts: u64,
    /// Runs in another order than that of the text.
    pub other_orders: u64,
}

impl Summary {
    fn line(&self) -> String {
        format!(
            "{} programs ({} with a zero divisor), {} free runs ({} in another order), {} trees ({} with the start \
             more than once): no difference",
            self.programs, self.zero_divisors, self.runs, self.other_orders, self.trees, self.repeated_starts
        )
    }
}

/// An evaluation in text order: the answer, and the elements of every value in the store.
struct Evaluated {
    answer: Answer,
    values: Vec<Vec<i128>>,
}

/// Checks `count` programs under `seed`: a summary, or the first difference.
pub fn check(seed: u64, count: u64) -> Result<Summary, String> {
    let mut summary = Summary::default();
    for index in 0..count {
        let mut random = Random::for_case(seed, index);
        let (text, inputs) = cases::for_free_runs(&mut random);
        check_program(&mut random, &text, &inputs, &mut summary)
            .map_err(|reason| format!("program {index}: {reason}\n{}", String::from_utf8_lossy(&text)))?;
    }
    Ok(summary)
}

fn check_program(random: &mut Random, text: &[u8], inputs: &[u64], summary: &mut Summary) -> Result<(), String> {
    let program = crate::accept(text).map_err(|answer| format!("refused: {answer:?}"))?;
    let evaluated = evaluate(&program, text, inputs);
    if evaluated.answer.refusal != 0 && evaluated.answer.refusal != 12 {
        return Err(format!("not evaluated: {:?}", evaluated.answer));
    }
    summary.programs += 1;
    summary.zero_divisors += (evaluated.answer.refusal == 12) as u64;
    let text_order: Vec<usize> = (0..program.ops.len()).collect();
    let folded = free::run(&program, inputs, &text_order, &|_, _, leaves| Tree::fold(leaves))?;
    compare(&program, &evaluated, &folded)?;
    compare_zero_divisor(&evaluated, &folded)?;
    for _ in 0..RUNS {
        let order = random_order(random, &program);
        summary.runs += 1;
        summary.other_orders += order.windows(2).any(|pair| pair[0] > pair[1]) as u64;
        let outcome = run_with_random_trees(random, &program, inputs, &order, summary)?;
        compare(&program, &evaluated, &outcome)?;
    }
    Ok(())
}

/// The evaluation, its values read back from the store.
fn evaluate(program: &Program, text: &[u8], inputs: &[u64]) -> Evaluated {
    let mut store = vec![0; program.elements()];
    let answer = crate::evaluate(text, inputs, &mut store);
    let mut values = Vec::new();
    let mut at = 0;
    for value in 0..program.value_count() {
        let tensor = program.value_type(value);
        let slots = &store[at..at + tensor.elements()];
        at += tensor.elements();
        values.push(slots.iter().map(|slot| tensor.element.of_slot(*slot).unwrap_or(i128::MAX)).collect());
    }
    Evaluated { answer, values }
}

/// A random order in which each op stands after those that define its operands.
fn random_order(random: &mut Random, program: &Program) -> Vec<usize> {
    let inputs = program.inputs.len();
    let sources: Vec<Vec<usize>> = program.ops.iter().map(|op| program.sources(op)).collect();
    let mut done = vec![false; program.ops.len()];
    let mut order = Vec::new();
    while order.len() < done.len() {
        let ready: Vec<usize> = (0..done.len())
            .filter(|op| !done[*op] && sources[*op].iter().all(|value| *value < inputs || done[*value - inputs]))
            .collect();
        let next = *random.pick(&ready);
        done[next] = true;
        order.push(next);
    }
    order
}

fn run_with_random_trees(
    random: &mut Random,
    program: &Program,
    inputs: &[u64],
    order: &[usize],
    summary: &mut Summary,
) -> Result<Outcome, String> {
    let state = RefCell::new((random, summary));
    let trees = |_op: usize, _element: usize, leaves: usize| {
        let mut held = state.borrow_mut();
        let (random, summary) = &mut *held;
        let tree = random_tree(random, leaves);
        summary.trees += 1;
        summary.repeated_starts += (tree.steps.iter().filter(|step| **step == Step::Start).count() > 1) as u64;
        tree
    };
    free::run(program, inputs, order, &trees)
}

/// A full binary tree whose leaves are so many elements in ascending order, with the start value strewn
/// among them any number of times; at least one leaf.
pub fn random_tree(random: &mut Random, elements: usize) -> Tree {
    let mut leaves = Vec::new();
    let (part, whole) = *random.pick(&[(0, 1), (1, 8), (1, 2), (2, 3)]);
    for _ in 0..elements {
        strew(random, &mut leaves, part, whole);
        leaves.push(Step::Element);
    }
    strew(random, &mut leaves, part, whole);
    if leaves.is_empty() {
        leaves.push(Step::Start);
    }
    let mut steps = Vec::new();
    let shape = random.below(4);
    grow(random, shape, &leaves, &mut steps);
    Tree { steps }
}

fn strew(random: &mut Random, leaves: &mut Vec<Step>, part: u64, whole: u64) {
    while random.chance(part, whole) {
        leaves.push(Step::Start);
    }
}

/// The steps of a tree over these leaves in postfix order. Shape 0 leans left, 1 leans right, 2 is
/// balanced, 3 splits anywhere.
fn grow(random: &mut Random, shape: u64, leaves: &[Step], steps: &mut Vec<Step>) {
    // What is still to do: a stretch of leaves to split, or a node to write.
    let mut work = vec![Some((0, leaves.len()))];
    while let Some(next) = work.pop() {
        match next {
            None => steps.push(Step::Node),
            Some((from, to)) if to - from == 1 => steps.push(leaves[from]),
            Some((from, to)) => {
                let middle = match shape {
                    0 => to - 1,
                    1 => from + 1,
                    2 => from + (to - from) / 2,
                    _ => from + 1 + random.place(to - from - 1),
                };
                work.push(None);
                work.push(Some((middle, to)));
                work.push(Some((from, middle)));
            }
        }
    }
}

/// Demand 3's comparison of one free run with the evaluation.
fn compare(program: &Program, evaluated: &Evaluated, outcome: &Outcome) -> Result<(), String> {
    match (&outcome.end, evaluated.answer.refusal) {
        (End::ZeroDivisor { .. }, 12) => Ok(()),
        (End::ZeroDivisor { op, element }, _) => {
            Err(format!("a free run met a zero divisor at op {op}, element {element}; the evaluation did not"))
        }
        (End::Results(_), 12) => Err("a free run met no zero divisor; the evaluation did".to_string()),
        (End::Results(results), _) => compare_results(program, evaluated, outcome, results),
    }
}

/// The run in text order with the trees of the fixed order is the evaluation: it stops at the same element.
fn compare_zero_divisor(evaluated: &Evaluated, folded: &Outcome) -> Result<(), String> {
    match folded.end {
        End::ZeroDivisor { op, element } if evaluated.answer != Answer::new(12, op, element) => {
            Err(format!("{:?} evaluated, op {op} and element {element} in text order", evaluated.answer))
        }
        _ => Ok(()),
    }
}

fn compare_results(
    program: &Program,
    evaluated: &Evaluated,
    outcome: &Outcome,
    results: &[Tensor],
) -> Result<(), String> {
    for (value, expected) in evaluated.values.iter().enumerate() {
        match &outcome.table[value] {
            Some(tensor) if tensor.elements == *expected => {}
            other => return Err(format!("value {value}: {expected:?} evaluated, {other:?} in a free run")),
        }
    }
    let returned = program.sources(&program.ret);
    if results.len() != returned.len() {
        return Err(format!("{} results where the return names {}", results.len(), returned.len()));
    }
    for (result, value) in results.iter().zip(returned) {
        if result.elements != evaluated.values[value] {
            return Err(format!("result {result:?} is not value {value}"));
        }
    }
    Ok(())
}

/// A program whose reduction starts at 5, no identity of add.
pub const FROM_FIVE: &str = r#"func.func @main() -> tensor<i32> {
  %x = "stablehlo.constant"() {value = dense<[1, 2, 3]> : tensor<3xi32>} : () -> tensor<3xi32>
  %s = "stablehlo.constant"() {value = dense<5> : tensor<i32>} : () -> tensor<i32>
  %r = "stablehlo.reduce"(%x, %s) ({
    ^bb0(%a: tensor<i32>, %b: tensor<i32>):
      %c = "stablehlo.add"(%a, %b) : (tensor<i32>, tensor<i32>) -> tensor<i32>
      "stablehlo.return"(%c) : (tensor<i32>) -> ()
  }) {dimensions = array<i64: 0>} : (tensor<3xi32>, tensor<i32>) -> tensor<i32>
  "func.return"(%r) : (tensor<i32>) -> ()
}
"#;

/// A free run that differs from the evaluation where the start is no identity: what both gave and how
/// often the tree used the start.
pub fn counterexample(seed: u64) -> Result<String, String> {
    let text = FROM_FIVE.as_bytes();
    let program = crate::accept(text).map_err(|answer| format!("refused: {answer:?}"))?;
    let evaluated = evaluate(&program, text, &[]);
    let mut random = Random::new(seed);
    for _ in 0..100 {
        let tree = random_tree(&mut random, 3);
        let starts = tree.steps.iter().filter(|step| **step == Step::Start).count();
        let outcome = free::run(&program, &[], &[0, 1, 2], &|_, _, _| tree.clone())?;
        if compare(&program, &evaluated, &outcome).is_err() {
            let End::Results(results) = &outcome.end else { continue };
            return Ok(format!(
                "add of [1, 2, 3] from 5: {} evaluated, {} by a tree with {starts} starts",
                evaluated.values[2][0], results[0].elements[0]
            ));
        }
    }
    Err("no counterexample where the start is no identity".to_string())
}

/// `free SEED COUNT`: a summary line; exit status 1 on a difference or without a counterexample.
pub fn command(arguments: &[String]) -> Result<u8, String> {
    let (seed, count) = cases::seed_and_count(arguments, "free")?;
    let status = report(check(seed, count).map(|summary| summary.line()));
    let other = report(counterexample(seed).map(|shown| format!("counterexample: {shown}")));
    Ok(status.max(other))
}

fn report(outcome: Result<String, String>) -> u8 {
    match outcome {
        Ok(line) => {
            println!("{line}");
            0
        }
        Err(reason) => {
            println!("difference: {reason}");
            1
        }
    }
}
