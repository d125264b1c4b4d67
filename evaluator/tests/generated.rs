//! The generated cases: determinism, coverage, the answers that the papers give them, free runs; and
//! every op on elements over all values of 8 bits against the machine's own arithmetic.

use evaluator::cases::{self, Family, Generated, OPS};
use evaluator::coverage::Coverage;
use evaluator::freecheck;
use evaluator::stream::{old_store, read_case};
use evaluator::Answer;
use std::collections::BTreeSet;

const SEED: u64 = 1;

const FAMILIES: [Family; 2] = [Family::General, Family::Limits];

fn stream_of(family: Family, seed: u64, count: u64) -> Vec<u8> {
    let mut bytes = Vec::new();
    cases::write(&mut bytes, family, seed, count).expect("a vector takes every byte");
    bytes
}

/// FNV-1a 64 of bytes.
fn hash(bytes: &[u8]) -> u64 {
    bytes.iter().fold(0xcbf29ce484222325, |hash, byte| (hash ^ *byte as u64).wrapping_mul(0x100000001b3))
}

#[test]
fn the_same_seed_gives_the_same_cases() {
    for family in FAMILIES {
        assert_eq!(stream_of(family, 7, 300), stream_of(family, 7, 300));
        assert_ne!(stream_of(family, 7, 30), stream_of(family, 8, 30));
        assert!(stream_of(family, 7, 300).starts_with(&stream_of(family, 7, 100)));
    }
    assert_ne!(stream_of(Family::General, 7, 30), stream_of(Family::Limits, 7, 30));
}

/// A change of the generator is noticed here: the hash of the first 1,000 cases of seed 1 of each family.
#[test]
fn the_first_cases_are_known() {
    let known = |family| format!("{:016x}", hash(&stream_of(family, SEED, 1000)));
    assert_eq!(FAMILIES.map(known), ["d6b9db413d72a9d4", "1425940aa0b62ec0"]);
}

#[test]
fn the_stream_can_be_read_back() {
    for family in FAMILIES {
        let bytes = stream_of(family, 3, 400);
        let mut input = &bytes[..];
        for index in 0..400 {
            let read = read_case(&mut input).expect("the stream is in the form").expect("a case is there");
            assert_eq!(read, cases::generate(family, 3, index).case);
        }
        assert_eq!(read_case(&mut input), Ok(None));
    }
}

// ---- Coverage ----

#[test]
fn ten_thousand_cases_reach_everything() {
    for family in FAMILIES {
        let coverage = Coverage::of(family, SEED, 10_000);
        assert_eq!(coverage.missing(), Vec::<String>::new());
        assert_eq!(coverage.unforeseen(), Vec::<String>::new());
    }
}

#[test]
fn a_few_cases_do_not_reach_everything() {
    assert!(Coverage::of(Family::General, SEED, 20).missing().len() > 20);
}

const ELEMENTS: [&str; 9] = ["i1", "i8", "i16", "i32", "i64", "ui8", "ui16", "ui32", "ui64"];

/// The element types that an op's result may have.
fn result_elements(mnemonic: &str) -> Vec<&'static str> {
    let takes = |element: &&str| match mnemonic {
        "abs" | "sign" => element.starts_with("i") && *element != "i1",
        "compare" => *element == "i1",
        "count_leading_zeros" | "divide" | "iota" | "negate" | "popcnt" | "remainder" | "subtract" => *element != "i1",
        "shift_left" | "shift_right_arithmetic" | "shift_right_logical" => *element != "i1",
        _ => true,
    };
    ELEMENTS.into_iter().filter(|element| takes(element)).collect()
}

/// The ranks that an op's result may have.
fn result_ranks(mnemonic: &str) -> std::ops::RangeInclusive<usize> {
    match mnemonic {
        "iota" | "concatenate" => 1..=6,
        _ => 0..=6,
    }
}

/// "all element types, ranks 0 to 6, zero-size dimensions": in accepted programs, for every op.
#[test]
fn every_op_meets_its_element_types_and_ranks() {
    let mut met = BTreeSet::new();
    for index in 0..10_000 {
        let case = cases::generate(Family::General, SEED, index).case;
        let Ok(program) = evaluator::accept(&case.text) else { continue };
        for op in &program.ops {
            let mnemonic = op.mnemonic.name().trim_start_matches("stablehlo.");
            let tensor = &op.result_types[0];
            met.insert(format!("{mnemonic} {}", tensor.element.name()));
            met.insert(format!("{mnemonic} rank {}", tensor.rank()));
            met.insert(format!("{mnemonic} empty {}", tensor.elements() == 0));
        }
    }
    let mut wanted = BTreeSet::new();
    for mnemonic in OPS {
        wanted.extend(result_elements(mnemonic).iter().map(|element| format!("{mnemonic} {element}")));
        wanted.extend(result_ranks(mnemonic).map(|rank| format!("{mnemonic} rank {rank}")));
        wanted.extend([true, false].map(|empty| format!("{mnemonic} empty {empty}")));
    }
    assert_eq!(wanted.difference(&met).collect::<Vec<_>>(), Vec::<&String>::new());
    assert_eq!(met.difference(&wanted).collect::<Vec<_>>(), Vec::<&String>::new());
}

// ---- The papers' answers ----

/// What is wrong with the answer of a case, by what the papers say about it.
fn fault_of(generated: &Generated) -> Option<String> {
    let case = &generated.case;
    let old = old_store(case.seed, case.store_length);
    let mut store = old.clone();
    let answer = evaluator::evaluate(&case.text, &case.inputs, &mut store);
    if !generated.expected.allows(answer) {
        return Some(describe(generated, answer, "the papers' answer"));
    }
    if (1..=11).contains(&answer.refusal) && old != store {
        return Some(describe(generated, answer, "an unchanged store"));
    }
    None
}

fn describe(generated: &Generated, answer: Answer, wanted: &str) -> String {
    let text = String::from_utf8_lossy(&generated.case.text[..generated.case.text.len().min(3000)]).into_owned();
    format!("{}: {answer:?} against {wanted}, {:?}\n{text}", generated.kind, generated.expected)
}

fn first_faults(list: impl Iterator<Item = Generated>) -> Vec<String> {
    list.filter_map(|generated| fault_of(&generated)).take(10).collect()
}

#[test]
fn answers_are_those_of_the_papers() {
    for family in FAMILIES {
        let faults = first_faults((0..10_000).map(|index| cases::generate(family, SEED, index)));
        assert!(faults.is_empty(), "{}", faults.join("\n----\n"));
    }
}

#[test]
fn readings_have_their_answers() {
    let faults = first_faults(cases::all_readings().into_iter());
    assert!(faults.is_empty(), "{}", faults.join("\n----\n"));
}

// ---- Free runs ----

#[test]
fn free_runs_agree_with_the_evaluation() {
    let summary = freecheck::check(SEED, 400).unwrap_or_else(|reason| panic!("{reason}"));
    assert_eq!(summary.programs, 400);
    assert!(summary.zero_divisors > 10 && summary.zero_divisors < 200, "{summary:?}");
    assert!(summary.other_orders > 100 && summary.repeated_starts > 100, "{summary:?}");
}

#[test]
fn a_start_that_is_no_identity_differs() {
    let shown = freecheck::counterexample(SEED).unwrap_or_else(|reason| panic!("{reason}"));
    assert!(shown.contains("11 evaluated"), "{shown}");
}

// ---- All values of 8 bits ----

/// The slots of a program's one result, given its inputs' slots.
fn result_of(text: &str, inputs: &[u64], elements: usize) -> Vec<u64> {
    let mut store = vec![0; inputs.len() + elements];
    let answer = evaluator::evaluate(text.as_bytes(), inputs, &mut store);
    assert_eq!(answer, Answer::ACCEPTED, "{text}");
    store.split_off(inputs.len())
}

fn text_of(mnemonic: &str, operands: usize, from: &str, to: &str, elements: usize) -> String {
    let (x, r) = (format!("tensor<{elements}x{from}>"), format!("tensor<{elements}x{to}>"));
    let (header, names, types) = match operands {
        1 => (format!("%a: {x}"), "%a", x.clone()),
        _ => (format!("%a: {x}, %b: {x}"), "%a, %b", format!("{x}, {x}")),
    };
    format!(
        "func.func @m({header}) -> {r} {{ %r = \"stablehlo.{mnemonic}\"({names}) : ({types}) -> {r} \
         \"func.return\"(%r) : ({r}) -> () }}"
    )
}

/// A signed value's slot.
fn slot(value: i8) -> u64 {
    value as i64 as u64
}

fn all_signed() -> Vec<i8> {
    (i8::MIN..=i8::MAX).collect()
}

fn all_unsigned() -> Vec<u8> {
    (0..=u8::MAX).collect()
}

/// An op's name and its rule on two values, or on one.
type OnTwo<T> = (&'static str, fn(T, T) -> T);
type OnOne<T> = (&'static str, fn(T) -> T);

/// Every pair of signed bytes under an op; zero divisors left out where the op divides.
fn signed_pairs(mnemonic: &str, rule: fn(i8, i8) -> i8) {
    let divides = mnemonic == "divide" || mnemonic == "remainder";
    let right: Vec<i8> = all_signed().into_iter().filter(|y| !divides || *y != 0).collect();
    let text = text_of(mnemonic, 2, "i8", "i8", right.len());
    for x in all_signed() {
        let mut inputs = vec![slot(x); right.len()];
        inputs.extend(right.iter().map(|y| slot(*y)));
        let wanted: Vec<u64> = right.iter().map(|y| slot(rule(x, *y))).collect();
        assert_eq!(result_of(&text, &inputs, right.len()), wanted, "{mnemonic} of {x}");
    }
}

/// Every pair of unsigned bytes under an op; zero divisors left out where the op divides.
fn unsigned_pairs(mnemonic: &str, rule: fn(u8, u8) -> u8) {
    let divides = mnemonic == "divide" || mnemonic == "remainder";
    let right: Vec<u8> = all_unsigned().into_iter().filter(|y| !divides || *y != 0).collect();
    let text = text_of(mnemonic, 2, "ui8", "ui8", right.len());
    for x in all_unsigned() {
        let mut inputs = vec![x as u64; right.len()];
        inputs.extend(right.iter().map(|y| *y as u64));
        let wanted: Vec<u64> = right.iter().map(|y| rule(x, *y) as u64).collect();
        assert_eq!(result_of(&text, &inputs, right.len()), wanted, "{mnemonic} of {x}");
    }
}

#[test]
fn signed_bytes_pair_by_pair() {
    let rules: [OnTwo<i8>; 13] = [
        ("add", i8::wrapping_add),
        ("subtract", i8::wrapping_sub),
        ("multiply", i8::wrapping_mul),
        ("divide", i8::wrapping_div),
        ("remainder", i8::wrapping_rem),
        ("maximum", |x, y| x.max(y)),
        ("minimum", |x, y| x.min(y)),
        ("and", |x, y| x & y),
        ("or", |x, y| x | y),
        ("xor", |x, y| x ^ y),
        ("shift_left", |x, y| if (0..8).contains(&y) { x << y } else { 0 }),
        ("shift_right_logical", |x, y| if (0..8).contains(&y) { (x as u8 >> y) as i8 } else { 0 }),
        ("shift_right_arithmetic", |x, y| if (0..8).contains(&y) { x >> y } else { x >> 7 }),
    ];
    for (mnemonic, rule) in rules {
        signed_pairs(mnemonic, rule);
    }
}

#[test]
fn unsigned_bytes_pair_by_pair() {
    let rules: [OnTwo<u8>; 13] = [
        ("add", u8::wrapping_add),
        ("subtract", u8::wrapping_sub),
        ("multiply", u8::wrapping_mul),
        ("divide", |x, y| x / y),
        ("remainder", |x, y| x % y),
        ("maximum", |x, y| x.max(y)),
        ("minimum", |x, y| x.min(y)),
        ("and", |x, y| x & y),
        ("or", |x, y| x | y),
        ("xor", |x, y| x ^ y),
        ("shift_left", |x, y| if y < 8 { x << y } else { 0 }),
        ("shift_right_logical", |x, y| if y < 8 { x >> y } else { 0 }),
        ("shift_right_arithmetic", |x, y| if y < 8 { x >> y } else { 0 }),
    ];
    for (mnemonic, rule) in rules {
        unsigned_pairs(mnemonic, rule);
    }
}

#[test]
fn bytes_one_by_one() {
    let signed: [OnOne<i8>; 6] = [
        ("abs", i8::saturating_abs),
        ("sign", i8::signum),
        ("negate", i8::wrapping_neg),
        ("not", |x| !x),
        ("count_leading_zeros", |x| x.leading_zeros() as i8),
        ("popcnt", |x| x.count_ones() as i8),
    ];
    for (mnemonic, rule) in signed {
        let inputs: Vec<u64> = all_signed().into_iter().map(slot).collect();
        let wanted: Vec<u64> = all_signed().into_iter().map(|x| slot(rule(x))).collect();
        assert_eq!(result_of(&text_of(mnemonic, 1, "i8", "i8", 256), &inputs, 256), wanted, "{mnemonic}");
    }
    let unsigned: [OnOne<u8>; 4] = [
        ("negate", u8::wrapping_neg),
        ("not", |x| !x),
        ("count_leading_zeros", |x| x.leading_zeros() as u8),
        ("popcnt", |x| x.count_ones() as u8),
    ];
    for (mnemonic, rule) in unsigned {
        let inputs: Vec<u64> = all_unsigned().into_iter().map(u64::from).collect();
        let wanted: Vec<u64> = all_unsigned().into_iter().map(|x| rule(x) as u64).collect();
        assert_eq!(result_of(&text_of(mnemonic, 1, "ui8", "ui8", 256), &inputs, 256), wanted, "{mnemonic}");
    }
}

/// A 64-bit value converted to a type, as a slot.
fn converted(value: i128, to: &str) -> u64 {
    match to {
        "i1" => (value != 0) as u64,
        "i8" => value as i8 as i64 as u64,
        "i16" => value as i16 as i64 as u64,
        "i32" => value as i32 as i64 as u64,
        "i64" => value as i64 as u64,
        "ui8" => value as u8 as u64,
        "ui16" => value as u16 as u64,
        "ui32" => value as u32 as u64,
        _ => value as u64,
    }
}

/// Values at and around every power of two, converted from 64 bits to every type.
#[test]
fn conversions_from_64_bits() {
    let near = |k: u32| (-2..=2).map(move |d| (1i128 << k) + d);
    let values: Vec<i128> = (0..64).flat_map(near).chain((0..64).flat_map(near).map(|v| -v)).collect();
    for from in ["i64", "ui64"] {
        let (low, high) = if from == "i64" { (i64::MIN as i128, i64::MAX as i128) } else { (0, u64::MAX as i128) };
        let fit: Vec<i128> = values.iter().copied().filter(|v| low <= *v && *v <= high).collect();
        let inputs: Vec<u64> = fit.iter().map(|v| *v as u64).collect();
        for to in ELEMENTS {
            let wanted: Vec<u64> = fit.iter().map(|v| converted(*v, to)).collect();
            assert_eq!(result_of(&text_of("convert", 1, from, to, fit.len()), &inputs, fit.len()), wanted, "{to}");
        }
    }
}
