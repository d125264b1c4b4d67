//! 01 Free runs: any order, any tree.

use crate::common::*;
use evaluator::free::{run, End, Outcome, Step, Tree};
use evaluator::program::{Program, Tensor};

/// A sum and a product over the rows of the input, then their difference.
const TWO_REDUCTIONS: &str = "func.func @m(%a: tensor<2x3xi8>) -> tensor<2xi8> {
  %zero = \"stablehlo.constant\"() {value = dense<0> : tensor<i8>} : () -> tensor<i8>
  %one = \"stablehlo.constant\"() {value = dense<1> : tensor<i8>} : () -> tensor<i8>
  %s = \"stablehlo.reduce\"(%a, %zero) ({
    ^b(%x: tensor<i8>, %y: tensor<i8>):
      %z = \"stablehlo.add\"(%x, %y) : (tensor<i8>, tensor<i8>) -> tensor<i8>
      \"stablehlo.return\"(%z) : (tensor<i8>) -> ()
  }) {dimensions = array<i64: 1>} : (tensor<2x3xi8>, tensor<i8>) -> tensor<2xi8>
  %p = \"stablehlo.reduce\"(%a, %one) ({
    ^b(%x: tensor<i8>, %y: tensor<i8>):
      %z = \"stablehlo.multiply\"(%y, %x) : (tensor<i8>, tensor<i8>) -> tensor<i8>
      \"stablehlo.return\"(%z) : (tensor<i8>) -> ()
  }) {dimensions = array<i64: 1>} : (tensor<2x3xi8>, tensor<i8>) -> tensor<2xi8>
  %d = \"stablehlo.subtract\"(%s, %p) : (tensor<2xi8>, tensor<2xi8>) -> tensor<2xi8>
  \"func.return\"(%d) : (tensor<2xi8>) -> ()
}";

fn accept(text: &str) -> Program {
    evaluator::accept(text.as_bytes()).unwrap()
}

fn fold(_op: usize, _element: usize, leaves: usize) -> Tree {
    Tree::fold(leaves)
}

fn results(outcome: Outcome) -> Vec<Tensor> {
    match outcome.end {
        End::Results(results) => results,
        zero => panic!("{zero:?}"),
    }
}

const INPUTS: [u64; 6] = [1, 2, 3, 4, 5, 100];

/// A small deterministic sequence of numbers.
fn numbers(seed: u64) -> impl FnMut(usize) -> usize {
    let mut state = seed;
    move |below| {
        state = state.wrapping_mul(6364136223846793005).wrapping_add(1442695040888963407);
        ((state >> 33) as usize) % below
    }
}

/// Some tree over this many elements: random splits, with start values strewn in.
fn some_tree(leaves: usize, seed: u64) -> Tree {
    let mut next = numbers(seed);
    let mut parts: Vec<Tree> = (0..leaves).map(|_| Tree::element()).collect();
    for _ in 0..next(4) + usize::from(leaves == 0) {
        let place = next(parts.len() + 1);
        parts.insert(place, Tree::start());
    }
    while parts.len() > 1 {
        let place = next(parts.len() - 1);
        let right = parts.remove(place + 1);
        let left = parts.remove(place);
        parts.insert(place, Tree::node(left, right));
    }
    parts.remove(0)
}

#[test]
fn text_order_and_folds_give_what_evaluation_gives() {
    let program = accept(TWO_REDUCTIONS);
    let outcome = run(&program, &INPUTS, &[0, 1, 2, 3, 4], &fold).unwrap();
    let mut store = vec![0; program.elements()];
    assert_eq!(evaluator::evaluate(TWO_REDUCTIONS.as_bytes(), &INPUTS, &mut store), evaluator::Answer::ACCEPTED);
    for value in 0..program.value_count() {
        assert_eq!(outcome.table[value], Some(evaluator::store::value(&program, &store, value)));
    }
    // 1 + 2 + 3 - 6 = 0; 4 + 5 + 100 - 2000 = -1891, which is -99 modulo 2^8.
    assert_eq!(results(outcome)[0].elements, [0, -99]);
}

#[test]
fn every_order_and_many_trees_agree() {
    let program = accept(TWO_REDUCTIONS);
    let expected = run(&program, &INPUTS, &[0, 1, 2, 3, 4], &fold).unwrap();
    let mut orders = 0;
    for code in 0..5usize.pow(5) {
        let order: Vec<usize> = (0..5).map(|place| code / 5usize.pow(place) % 5).collect();
        let trees =
            |op: usize, element: usize, leaves: usize| some_tree(leaves, (code * 100 + op * 10 + element) as u64);
        if let Ok(outcome) = run(&program, &INPUTS, &order, &trees) {
            orders += 1;
            assert_eq!(outcome, expected, "{order:?}");
        }
    }
    // Of 120 permutations those with 0 before 2, 1 before 3, and 4 last.
    assert_eq!(orders, 6);
}

#[test]
fn orders_that_are_not_allowed() {
    let program = accept(TWO_REDUCTIONS);
    for order in [
        vec![],
        vec![0, 1, 2, 3],
        vec![0, 1, 2, 3, 4, 4],
        vec![2, 0, 1, 3, 4],
        vec![0, 1, 2, 4, 3],
        vec![0, 1, 2, 3, 5],
    ] {
        assert!(run(&program, &INPUTS, &order, &fold).is_err(), "{order:?}");
    }
}

#[test]
fn trees_that_are_not_allowed() {
    use Step::*;
    let tree = |steps: &[Step]| Tree { steps: steps.to_vec() };
    for (steps, elements) in [
        (vec![], 0),
        (vec![Node], 0),
        (vec![Start, Node], 0),
        (vec![Element], 0),
        (vec![Start], 1),
        (vec![Element, Element], 2),
        (vec![Element, Element, Node, Node], 2),
        (vec![Element, Node, Element], 2),
        (vec![Element, Element, Node], 3),
    ] {
        assert!(!tree(&steps).is_allowed(elements), "{steps:?}");
    }
    for (steps, elements) in [
        (vec![Start], 0),
        (vec![Start, Start, Node], 0),
        (vec![Element], 1),
        (vec![Start, Element, Node], 1),
        (vec![Element, Element, Element, Node, Node], 3),
        (vec![Element, Element, Node, Element, Node], 3),
    ] {
        assert!(tree(&steps).is_allowed(elements), "{steps:?}");
    }
    let program = accept(TWO_REDUCTIONS);
    assert!(run(&program, &INPUTS, &[0, 1, 2, 3, 4], &|_, _, _| Tree::start()).is_err());
}

#[test]
fn start_values_count_as_often_as_they_stand() {
    // The start is no identity here: the sum of 1, 2, 3 and k starts of 10.
    let text = TWO_REDUCTIONS.replace("dense<0>", "dense<10>");
    let program = accept(&text);
    for starts in 0..4 {
        let tree = |_op: usize, _element: usize, leaves: usize| {
            let elements = (1..leaves).fold(Tree::element(), |tree, _| Tree::node(tree, Tree::element()));
            (0..starts).fold(elements, |tree, _| Tree::node(Tree::start(), tree))
        };
        let outcome = run(&program, &INPUTS, &[0, 1, 2, 3, 4], &tree).unwrap();
        assert_eq!(outcome.table[3].as_ref().unwrap().elements[0], 6 + 10 * starts);
    }
}

#[test]
fn each_result_element_has_its_own_tree() {
    let text = TWO_REDUCTIONS.replace("dense<0>", "dense<10>");
    let program = accept(&text);
    let tree = |_op: usize, element: usize, leaves: usize| match element {
        0 => Tree::fold(leaves),
        _ => Tree::node(Tree::start(), Tree::fold(leaves)),
    };
    let outcome = run(&program, &[1, 2, 3, 1, 2, 3], &[0, 1, 2, 3, 4], &tree).unwrap();
    assert_eq!(outcome.table[3].as_ref().unwrap().elements, [16, 26]);
}

#[test]
fn over_no_elements_at_least_one_start() {
    let text = "func.func @m(%a: tensor<0xi8>, %s: tensor<i8>) -> tensor<i8> {
  %r = \"stablehlo.reduce\"(%a, %s) ({
    ^b(%x: tensor<i8>, %y: tensor<i8>):
      %z = \"stablehlo.add\"(%x, %y) : (tensor<i8>, tensor<i8>) -> tensor<i8>
      \"stablehlo.return\"(%z) : (tensor<i8>) -> ()
  }) {dimensions = array<i64: 0>} : (tensor<0xi8>, tensor<i8>) -> tensor<i8>
  \"func.return\"(%r) : (tensor<i8>) -> ()
}";
    let program = accept(text);
    let one = run(&program, &[7], &[0], &fold).unwrap();
    assert_eq!(results(one)[0].elements, [7]);
    let two = run(&program, &[7], &[0], &|_, _, _| Tree::node(Tree::start(), Tree::start())).unwrap();
    assert_eq!(results(two)[0].elements, [14]);
    assert!(run(&program, &[7], &[0], &|_, _, _| Tree { steps: vec![] }).is_err());
}

#[test]
fn a_zero_divisor_ends_the_run_and_adds_nothing() {
    let text = function(
        "%a: tensor<2xi8>, %b: tensor<2xi8>",
        "%q = \"stablehlo.divide\"(%a, %b) : (tensor<2xi8>, tensor<2xi8>) -> tensor<2xi8>
%r = \"stablehlo.remainder\"(%b, %a) : (tensor<2xi8>, tensor<2xi8>) -> tensor<2xi8>
%n = \"stablehlo.negate\"(%a) : (tensor<2xi8>) -> tensor<2xi8>",
    );
    let program = accept(&text);
    let inputs = [0, 1, 1, 0];
    // The order decides which op meets its zero divisor.
    let first = run(&program, &inputs, &[2, 0, 1], &fold).unwrap();
    assert_eq!(first.end, End::ZeroDivisor { op: 0, element: 1 });
    assert_eq!(first.table.iter().map(Option::is_some).collect::<Vec<_>>(), [true, true, false, false, true]);
    let second = run(&program, &inputs, &[1, 2, 0], &fold).unwrap();
    assert_eq!(second.end, End::ZeroDivisor { op: 1, element: 0 });
    assert_eq!(second.table.iter().map(Option::is_some).collect::<Vec<_>>(), [true, true, false, false, false]);
}

#[test]
fn inputs_must_be_allowed() {
    let program = accept(TWO_REDUCTIONS);
    assert!(run(&program, &INPUTS[1..], &[0, 1, 2, 3, 4], &fold).is_err());
    assert!(run(&program, &[1, 2, 3, 4, 5, 128], &[0, 1, 2, 3, 4], &fold).is_err());
}

#[test]
fn deep_trees_are_safe() {
    let text = "func.func @m(%a: tensor<4096xi8>, %s: tensor<i8>) -> tensor<i8> {
  %r = \"stablehlo.reduce\"(%a, %s) ({
    ^b(%x: tensor<i8>, %y: tensor<i8>):
      %z = \"stablehlo.xor\"(%x, %y) : (tensor<i8>, tensor<i8>) -> tensor<i8>
      \"stablehlo.return\"(%z) : (tensor<i8>) -> ()
  }) {dimensions = array<i64: 0>} : (tensor<4096xi8>, tensor<i8>) -> tensor<i8>
  \"func.return\"(%r) : (tensor<i8>) -> ()
}";
    let program = accept(text);
    // A comb to the right with 100,000 start values before its elements.
    let tree = |_op: usize, _element: usize, leaves: usize| {
        let mut steps = vec![Step::Start; 100_000];
        steps.extend(vec![Step::Element; leaves]);
        steps.extend(vec![Step::Node; 100_000 + leaves - 1]);
        Tree { steps }
    };
    let mut inputs = vec![3; 4095];
    inputs.extend([3, 5]);
    let outcome = run(&program, &inputs, &[0], &tree).unwrap();
    assert_eq!(results(outcome)[0].elements, [0]);
}
