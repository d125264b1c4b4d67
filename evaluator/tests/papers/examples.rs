//! Every examples/NAME.mlir prints examples/NAME.out.

use std::collections::BTreeSet;
use std::fs;
use std::path::PathBuf;

fn directory() -> PathBuf {
    PathBuf::from(env!("CARGO_MANIFEST_DIR")).join("../examples")
}

/// The example texts, by name.
fn examples() -> Vec<(String, Vec<u8>)> {
    let files = fs::read_dir(directory()).unwrap().map(|entry| entry.unwrap().path());
    let texts = files.filter(|path| path.extension().is_some_and(|extension| extension == "mlir"));
    let mut examples: Vec<(String, Vec<u8>)> = texts
        .map(|path| (path.file_stem().unwrap().to_string_lossy().into_owned(), fs::read(&path).unwrap()))
        .collect();
    examples.sort();
    examples
}

#[test]
fn every_example_prints_its_expected_output() {
    for (name, text) in examples() {
        let expected = fs::read_to_string(directory().join(format!("{name}.out"))).expect(&name);
        assert_eq!(evaluator::print::program_output(&text), expected, "{name}");
        // "refused" in the name says which refusal.
        let refusal = name.strip_prefix("refused_").map(|rest| rest.split('_').next().unwrap().to_string());
        match refusal {
            Some(number) => assert!(expected.starts_with(&format!("refused {number} ")), "{name}"),
            // The texts of the command `ops` have no results.
            None if name.ends_with("_ops") => assert!(expected.is_empty(), "{name}"),
            None => assert!(expected.starts_with("dense<"), "{name}"),
        }
    }
}

/// Each refusal that the evaluating program can answer. It lends 8,192 slots and size 3 lets no text need more, so 9
/// does not occur; it feeds no inputs, so no slot of theirs can be wrong, and 11 does not occur.
#[test]
fn each_refusal_of_the_program_has_an_example() {
    let mut refusals: BTreeSet<u64> = BTreeSet::new();
    for (_, text) in examples() {
        let answer = evaluator::evaluate(&text, &[], &mut vec![0; 8192]);
        refusals.insert(answer.refusal);
    }
    let all: BTreeSet<u64> = (0..=12).filter(|refusal| *refusal != 9 && *refusal != 11).collect();
    assert_eq!(refusals, all);
}

/// One byte more than 65,536, and many more.
#[test]
fn examples_of_texts_that_are_too_long() {
    let long: Vec<usize> = examples().iter().map(|(_, text)| text.len()).filter(|length| *length > 65_536).collect();
    assert_eq!(long, [65_537, 70_000]);
}

#[test]
fn the_accepted_examples_use_all_34_ops() {
    let mut used: BTreeSet<&str> = BTreeSet::new();
    for (_, text) in examples() {
        if let Ok(program) = evaluator::accept(&text) {
            used.extend(program.ops.iter().map(|op| op.mnemonic.name()));
        }
    }
    let all: BTreeSet<&str> = evaluator::optable::Mnemonic::ops().map(|mnemonic| mnemonic.name()).collect();
    assert_eq!(all.len(), 34);
    assert_eq!(used, all);
}

#[test]
fn each_text_has_its_output_and_each_output_its_text() {
    let names: BTreeSet<String> = examples().into_iter().map(|(name, _)| name).collect();
    let outputs: BTreeSet<String> = fs::read_dir(directory())
        .unwrap()
        .map(|entry| entry.unwrap().path())
        .filter(|path| path.extension().is_some_and(|extension| extension == "out"))
        .map(|path| path.file_stem().unwrap().to_string_lossy().into_owned())
        .collect();
    assert_eq!(names, outputs);
    assert!(names.contains("sample"));
}
