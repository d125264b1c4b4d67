//! Free runs: an accepted program in any order of its ops, each reduction by any tree
//! (01 Free runs).

use crate::optable::Mnemonic;
use crate::program::{Op, Program, Tensor};
use crate::{ops, store};

/// One step of a tree in postfix order: left subtree, right subtree, node.
#[derive(Clone, Copy, PartialEq, Eq, Debug)]
pub enum Step {
    /// A leaf that is the start value.
    Start,
    /// A leaf that is the next element of the slice, in ascending order.
    Element,
    /// The body on the left and the right value.
    Node,
}

/// A full binary tree with at least one leaf, as its steps in postfix order: flat, so that trees of
/// any depth are safe to build, run and drop.
#[derive(Clone, PartialEq, Eq, Debug)]
pub struct Tree {
    pub steps: Vec<Step>,
}

impl Tree {
    pub fn start() -> Tree {
        Tree { steps: vec![Step::Start] }
    }

    pub fn element() -> Tree {
        Tree { steps: vec![Step::Element] }
    }

    pub fn node(left: Tree, right: Tree) -> Tree {
        let mut steps = left.steps;
        steps.extend(right.steps);
        steps.push(Step::Node);
        Tree { steps }
    }

    /// The tree of the fixed order: the start value once, then every element to the right.
    pub fn fold(elements: usize) -> Tree {
        let mut steps = vec![Step::Start];
        for _ in 0..elements {
            steps.push(Step::Element);
            steps.push(Step::Node);
        }
        Tree { steps }
    }

    /// "any full binary tree with at least one leaf whose leaves are the elements in that order,
    /// with the start value strewn among them any number of times" (01 Reductions): every node has
    /// two subtrees, one tree remains, and as many leaves are elements as the slice has.
    pub fn is_allowed(&self, elements: usize) -> bool {
        let mut open = 0usize;
        for step in &self.steps {
            match step {
                Step::Start | Step::Element => open += 1,
                Step::Node if open >= 2 => open -= 1,
                Step::Node => return false,
            }
        }
        let leaves = self.steps.iter().filter(|&&step| step == Step::Element).count();
        open == 1 && leaves == elements
    }
}

/// How a run ended.
#[derive(Clone, PartialEq, Eq, Debug)]
pub enum End {
    /// What the return names.
    Results(Vec<Tensor>),
    /// The op that met a zero divisor, and its first such element; it added nothing.
    ZeroDivisor { op: usize, element: usize },
}

/// A run's table (inputs first, then a place for each op's result) and its end.
#[derive(Clone, PartialEq, Eq, Debug)]
pub struct Outcome {
    pub table: Vec<Option<Tensor>>,
    pub end: End,
}

/// The tree of result element `element` of reduction `op`, over `leaves` elements of the input.
pub type Trees<'a> = &'a dyn Fn(usize, usize, usize) -> Tree;

/// A free run of an accepted program. Inputs that refusals 10 or 11 refuse, an order or a tree that
/// 01 does not allow are an error with its reason.
pub fn run(program: &Program, inputs: &[u64], order: &[usize], trees: Trees) -> Result<Outcome, String> {
    check_order(program, order)?;
    let mut table = first_table(program, inputs)?;
    for &number in order {
        let op = &program.ops[number];
        let operands = operands(program, op, &table)?;
        let own = trees_of(op, number, trees)?;
        let schedule = |element: usize, start: i128, slice: &[i128], body: &dyn Fn(i128, i128) -> i128| {
            value_of(&own[element], start, slice, body)
        };
        match ops::apply(program, op, &operands, &schedule) {
            Ok(result) => table[program.inputs.len() + number] = Some(result),
            // "An op with a zero divisor meets it, adds nothing and ends the run."
            Err(zero) => {
                let end = End::ZeroDivisor { op: number, element: zero.element };
                return Ok(Outcome { table, end });
            }
        }
    }
    let results = operands(program, &program.ret, &table)?.into_iter().cloned().collect();
    Ok(Outcome { table, end: End::Results(results) })
}

/// "Its table holds the inputs at first, and only the run writes it."
fn first_table(program: &Program, inputs: &[u64]) -> Result<Vec<Option<Tensor>>, String> {
    let tensors = store::check_slots(program, inputs, program.elements())
        .map_err(|answer| format!("inputs refused: {} {} {}", answer.refusal, answer.a, answer.b))?;
    let mut table: Vec<Option<Tensor>> = tensors.into_iter().map(Some).collect();
    table.resize(program.value_count(), None);
    Ok(table)
}

/// "Each op in turn reads its operands there".
fn operands<'a>(program: &Program, op: &Op, table: &'a [Option<Tensor>]) -> Result<Vec<&'a Tensor>, String> {
    let read = |value: usize| table[value].as_ref().ok_or_else(|| format!("value {value} is not in the table"));
    program.sources(op).into_iter().map(read).collect()
}

/// "The order lists each op once, return and body ops aside, after those that define its operands".
pub fn check_order(program: &Program, order: &[usize]) -> Result<(), String> {
    let mut listed = vec![false; program.ops.len()];
    for &number in order {
        let Some(op) = program.ops.get(number) else { return Err(format!("there is no op {number}")) };
        if listed[number] {
            return Err(format!("op {number} is listed twice"));
        }
        let inputs = program.inputs.len();
        let early = |&value: &usize| value >= inputs && !listed[value - inputs];
        if let Some(value) = program.sources(op).into_iter().find(early) {
            return Err(format!("op {number} is listed before op {} that it reads", value - inputs));
        }
        listed[number] = true;
    }
    match listed.iter().position(|&there| !there) {
        None => Ok(()),
        Some(number) => Err(format!("op {number} is not listed")),
    }
}

/// "each result element of a reduction has its own tree", and each is one that 000 allows. Other
/// ops have none.
fn trees_of(op: &Op, number: usize, trees: Trees) -> Result<Vec<Tree>, String> {
    if op.mnemonic != Mnemonic::Reduce {
        return Ok(Vec::new());
    }
    let leaves = ops::slice_elements(op);
    let own = |element: usize| {
        let tree = trees(number, element, leaves);
        let reason = || format!("the tree of op {number}, element {element} is not allowed");
        if tree.is_allowed(leaves) {
            Ok(tree)
        } else {
            Err(reason())
        }
    };
    (0..op.result_types[0].elements()).map(own).collect()
}

/// "a leaf is its value, a node the body on its left and right value", for an allowed tree.
fn value_of(tree: &Tree, start: i128, slice: &[i128], body: &dyn Fn(i128, i128) -> i128) -> i128 {
    let mut elements = slice.iter();
    let mut values: Vec<i128> = Vec::new();
    for step in &tree.steps {
        let value = match step {
            Step::Start => start,
            Step::Element => elements.next().copied().unwrap_or(start),
            Step::Node => {
                let right = values.pop().unwrap_or(start);
                let left = values.pop().unwrap_or(start);
                body(left, right)
            }
        };
        values.push(value);
    }
    values.pop().unwrap_or(start)
}
