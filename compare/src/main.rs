//! Runs the proved library beside the second evaluator.
//!
//! `compare stream`: cases in the stream form on standard input, a line `REFUSAL A B HASH` for each, by the proved code.
//! `compare check SEED COUNT [limits]`: generated cases of a family, the proved code against the second evaluator:
//! refusals 0 to 4 by reading alone, refusals 0 to 8 by checking, and refusals 0 to 12 with every slot of the store by
//! evaluating.
//! `compare prefixes FOLDER`: every prefix of every `.mlir` file of a folder, refusals 0 to 8; of a text of 65,530 bytes
//! or more only those of so many.
//! `compare hostile`: texts made to exhaust a reader, read, checked and evaluated, with their time: reading in a thread
//! with a stack of 1 MiB, the others in one of 4 MiB; each has to end within a second.
//! `compare within BYTES read|check|evaluate FILE`: one text in a thread with a stack of so many bytes; where that is too
//! short the process is ended by a signal.
//! `compare bench`: a table of times, the proved library beside the second evaluator, and the stack that the worst texts
//! take.
//! All but `stream` and `within` end with status 1 on a difference.

use ::bench::{STACK, STORE_SLOTS};
use compare::{evaluated, expected, proved, up_to, Depth};
use evaluator::cases::{self, Family};
use evaluator::{stream, Answer};
use std::io::{self, Write};
use std::process::ExitCode;
use std::time::{Duration, Instant};

mod bench;
mod hostile;

const USAGE: &str = "usage: compare stream | check SEED COUNT [limits] | prefixes FOLDER | hostile | \
                     within BYTES read|check|evaluate FILE | bench";

fn main() -> ExitCode {
    let arguments: Vec<String> = std::env::args().skip(1).collect();
    let words: Vec<&str> = arguments.iter().map(String::as_str).collect();
    let done = match words[..] {
        ["stream"] => answer_stream(),
        ["check", _, _] | ["check", _, _, _] => compare_cases(&arguments[1..]),
        ["prefixes", folder] => compare_prefixes(folder),
        ["hostile"] => run_hostile(),
        ["within", bytes, part, file] => run_within(bytes, part, file),
        ["bench"] => bench::run(),
        _ => Err(USAGE.to_string()),
    };
    match done {
        Ok(true) => ExitCode::SUCCESS,
        Ok(false) => ExitCode::from(1),
        Err(reason) => {
            eprintln!("compare: {reason}");
            ExitCode::from(2)
        }
    }
}

/// A line for each case on standard input.
fn answer_stream() -> Result<bool, String> {
    let mut input = io::stdin().lock();
    let mut output = io::BufWriter::new(io::stdout().lock());
    while let Some(case) = stream::read_case(&mut input)? {
        let mut store = stream::old_store(case.seed, case.store_length);
        let answer = evaluated(&case.text, &case.inputs, &mut store);
        writeln!(output, "{}", stream::answer_line(answer, &store)).map_err(|error| error.to_string())?;
    }
    output.flush().map_err(|error| error.to_string())?;
    Ok(true)
}

/// Generated cases of a family, one by one.
fn compare_cases(arguments: &[String]) -> Result<bool, String> {
    let (family, seed, count) = cases::family_seed_count(arguments, "check")?;
    let mut differences = 0;
    let mut refusals = [0u64; 13];
    for index in 0..count {
        let (ran, found) = compare_case(family, seed, index);
        refusals[ran.refusal as usize] += 1;
        differences += found.len();
        for difference in found {
            println!("case {index} of seed {seed}: {difference}");
        }
    }
    let name = if family == Family::Limits { "cases near the limits" } else { "cases" };
    println!("{count} {name} of seed {seed}: {differences} differences; cases by refusal from 0 on: {refusals:?}");
    Ok(differences == 0)
}

/// One case: the second evaluator's answer, and where reading, checking or evaluating differs from it.
fn compare_case(family: Family, seed: u64, index: u64) -> (Answer, Vec<String>) {
    let case = cases::generate(family, seed, index).case;
    let mut store = stream::old_store(case.seed, case.store_length);
    let mut slots = store.clone();
    let ran = evaluator::evaluate(&case.text, &case.inputs, &mut store);
    let answer = evaluated(&case.text, &case.inputs, &mut slots);
    let mut found = Vec::new();
    if answer != ran || slots != store {
        let first = (0..slots.len()).find(|&slot| slots[slot] != store[slot]);
        found.push(format!("evaluated {answer:?}, second evaluator {ran:?}, first other slot {first:?}"));
    }
    let theirs = if ran.refusal <= 8 && ran.refusal > 0 { ran } else { Answer::ACCEPTED };
    for depth in [Depth::Read, Depth::Check] {
        let (ours, wanted) = (proved(depth, &case.text), up_to(depth, theirs));
        if ours != wanted {
            found.push(format!("{depth:?} {ours:?}, second evaluator {wanted:?}"));
        }
    }
    (ran, found)
}

/// Of a text of so many bytes shorter prefixes are left out: they take long, and end in its comments.
const LONG: usize = 65_530;

/// Every prefix of every program of a folder.
fn compare_prefixes(folder: &str) -> Result<bool, String> {
    let (mut texts, mut differences) = (0, 0);
    for entry in std::fs::read_dir(folder).map_err(|error| format!("{folder}: {error}"))? {
        let path = entry.map_err(|error| error.to_string())?.path();
        if path.extension().is_none_or(|extension| extension != "mlir") {
            continue;
        }
        let text = std::fs::read(&path).map_err(|error| format!("{}: {error}", path.display()))?;
        let shortest = if text.len() < LONG { 0 } else { LONG };
        for length in shortest..=text.len() {
            let (ours, theirs) = (proved(Depth::Check, &text[..length]), expected(Depth::Check, &text[..length]));
            texts += 1;
            if ours != theirs {
                differences += 1;
                println!("{} cut to {length} bytes: proved {ours:?}, second evaluator {theirs:?}", path.display());
            }
        }
    }
    println!("{texts} prefixes: {differences} differences");
    Ok(texts > 0 && differences == 0)
}

/// What is done with a text.
#[derive(Clone, Copy)]
enum Part {
    Read,
    Check,
    Evaluate,
}

impl Part {
    fn named(word: &str) -> Result<Part, String> {
        match word {
            "read" => Ok(Part::Read),
            "check" => Ok(Part::Check),
            "evaluate" => Ok(Part::Evaluate),
            _ => Err(USAGE.to_string()),
        }
    }

    /// The proved code's answer, on no inputs.
    fn answer(self, text: &[u8]) -> Answer {
        match self {
            Part::Read => proved(Depth::Read, text),
            Part::Check => proved(Depth::Check, text),
            Part::Evaluate => evaluated(text, &[], &mut vec![0; STORE_SLOTS]),
        }
    }

    /// The second evaluator's answer, on no inputs.
    fn wanted(self, text: &[u8]) -> Answer {
        match self {
            Part::Read => expected(Depth::Read, text),
            Part::Check => expected(Depth::Check, text),
            Part::Evaluate => evaluator::evaluate(text, &[], &mut vec![0; STORE_SLOTS]),
        }
    }
}

/// Every hostile text, on small stacks.
fn run_hostile() -> Result<bool, String> {
    let parts = [(Part::Read, "read", 1 << 20), (Part::Check, "checked", STACK), (Part::Evaluate, "evaluated", STACK)];
    let mut fine = true;
    for (name, text) in hostile::texts() {
        for (part, word, stack) in parts {
            let theirs = part.wanted(&text);
            let (ours, time) = on_stack(stack, part, text.clone())?;
            let right = ours == theirs && time < Duration::from_secs(1);
            fine &= right;
            println!(
                "{name}: {} bytes, {word}: {} {} {}, {:.3} s{}",
                text.len(),
                ours.refusal,
                ours.a,
                ours.b,
                time.as_secs_f64(),
                if right { "" } else { ": WRONG" }
            );
        }
    }
    Ok(fine)
}

/// One text on a stack of so many bytes.
fn run_within(bytes: &str, part: &str, file: &str) -> Result<bool, String> {
    let stack = stream::parse_number(bytes)? as usize;
    let text = std::fs::read(file).map_err(|error| format!("{file}: {error}"))?;
    let (answer, _) = on_stack(stack, Part::named(part)?, text)?;
    println!("{} {} {}", answer.refusal, answer.a, answer.b);
    Ok(true)
}

/// Judges or evaluates a text in a thread with a stack of so many bytes.
fn on_stack(bytes: usize, part: Part, text: Vec<u8>) -> Result<(Answer, Duration), String> {
    let run = move || {
        let from = Instant::now();
        (part.answer(&text), from.elapsed())
    };
    let thread = std::thread::Builder::new().stack_size(bytes).spawn(run).map_err(|error| error.to_string())?;
    thread.join().map_err(|_| "a thread failed".to_string())
}
