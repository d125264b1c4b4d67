//! A table of times, the proved library beside the second evaluator on the same texts, inputs and stores, and the stack
//! that the worst texts take. Times are printed and never judged.

use crate::hostile;
use ::bench::{STORE_SLOTS, TEXT_BYTES};
use compare::evaluated;
use evaluator::stream;
use evaluator::token::{self, Kind};
use std::collections::HashSet;
use std::path::Path;
use std::process::{Command, Stdio};
use std::time::{Duration, Instant};

/// The stack of the thread that the evaluations are timed in.
const LARGE_STACK: usize = 16 << 20;

/// About so long one cell of the table is measured.
const CELL: Duration = Duration::from_millis(300);

/// A median is of so many calls at least and at most.
const CALLS: (usize, usize) = (3, 999);

/// A text of the table and the inputs that it is evaluated on.
struct Row {
    shape: &'static str,
    /// Ops, tokens or names.
    count: usize,
    text: Vec<u8>,
    inputs: Vec<u64>,
}

/// How the values that a chain of ops begins with are given.
#[derive(Clone, Copy)]
enum Given {
    /// As inputs of the function.
    Inputs,
    /// By constants before the ops, so that the text has no inputs.
    Constants,
}

/// The table and the stack; false where the two evaluations differ.
pub fn run() -> Result<bool, String> {
    let thread = std::thread::Builder::new().stack_size(LARGE_STACK).spawn(print_table);
    let same = thread.map_err(|error| error.to_string())?.join().map_err(|_| "a thread failed".to_string())?;
    if same {
        print_stacks()?;
    }
    Ok(same)
}

/// The rows of a shape stand together, and each has twice the count of the one before.
fn rows() -> Vec<Row> {
    let mut rows = Vec::new();
    for count in [64, 128, 256] {
        rows.push(Row { shape: "adds", count, text: adds(count, Given::Inputs), inputs: vec![1] });
    }
    for count in [63, 127, 255] {
        let text = reductions(count, &[4], Given::Inputs);
        rows.push(Row { shape: "reductions of 4", count, text, inputs: vec![1; 4] });
    }
    for count in [63, 127, 255] {
        let text = reductions(count, &[4; 6], Given::Inputs);
        rows.push(Row { shape: "reductions of 4096", count, text, inputs: vec![1; 4096] });
    }
    for count in [64, 128, 256] {
        rows.push(Row { shape: "concatenates of 3", count, text: concatenates(count, 3), inputs: vec![1] });
    }
    for count in [32, 64, 128] {
        rows.push(Row { shape: "concatenates of 8", count, text: concatenates(count, 8), inputs: vec![1] });
    }
    for elements in [1000, 2000, 4000] {
        let text = tokens(elements);
        rows.push(Row { shape: "tokens", count: tokens_of(&text).len(), text, inputs: Vec::new() });
    }
    for bytes in [TEXT_BYTES / 4, TEXT_BYTES / 2, TEXT_BYTES] {
        let text = hostile::many_names(bytes);
        rows.push(Row { shape: "names", count: names_of(&text), text, inputs: Vec::new() });
    }
    rows
}

/// The texts whose stack is measured: none has inputs, so that each accepted one is evaluated.
fn stack_texts() -> Vec<(String, Vec<u8>)> {
    let mut texts: Vec<(String, Vec<u8>)> = vec![
        ("sample.mlir".into(), include_bytes!("../../examples/sample.mlir").to_vec()),
        ("adds".into(), adds(255, Given::Constants)),
        ("reductions".into(), reductions(254, &[4; 6], Given::Constants)),
        ("tokens".into(), tokens(4000)),
    ];
    texts.push(("many names in one body".into(), hostile::many_names(TEXT_BYTES)));
    texts.extend(hostile::texts());
    texts
}

// Texts.

/// A function that begins with these values, goes on with ops and returns a value: each a name and its type.
fn function(first: &[(&str, &str)], given: Given, ops: &str, result: (&str, &str)) -> Vec<u8> {
    let (name, tensor) = result;
    let (mut inputs, mut constants) = (String::new(), String::new());
    match given {
        Given::Inputs => {
            let written: Vec<String> = first.iter().map(|(name, tensor)| format!("{name}: {tensor}")).collect();
            inputs = written.join(", ");
        }
        Given::Constants => constants = first.iter().map(|(name, tensor)| constant(name, "1", tensor)).collect(),
    }
    let end = format!("\"func.return\"({name}) : ({tensor}) -> ()\n}}\n");
    format!("func.func @m({inputs}) -> {tensor} {{\n{constants}{ops}{end}").into_bytes()
}

fn constant(name: &str, value: &str, tensor: &str) -> String {
    format!("{name} = \"stablehlo.constant\"() {{value = dense<{value}> : {tensor}}} : () -> {tensor}\n")
}

/// A chain of adds, each of the value before it and the first value.
fn adds(count: usize, given: Given) -> Vec<u8> {
    let tensor = "tensor<1xi32>";
    let add = |k| format!("%{k} = \"stablehlo.add\"(%{}, %0) : ({tensor}, {tensor}) -> {tensor}\n", k - 1);
    let ops: String = (1..=count).map(add).collect();
    function(&[("%0", tensor)], given, &ops, (&format!("%{count}"), tensor))
}

/// A constant and a chain of reductions, each of `%x` over all its dimensions with the value before it as its start.
fn reductions(count: usize, sizes: &[usize], given: Given) -> Vec<u8> {
    let one = "tensor<i8>";
    let many = format!("tensor<{}i8>", sizes.iter().map(|size| format!("{size}x")).collect::<String>());
    let dimensions: Vec<String> = (0..sizes.len()).map(|dimension| dimension.to_string()).collect();
    let body = format!(
        "({{^b(%a:{one},%b:{one}):%s=\"stablehlo.add\"(%a,%b):({one},{one})->{one}\"stablehlo.return\"(%s):({one})->()}})"
    );
    let attribute = format!("{{dimensions=array<i64:{}>}}", dimensions.join(","));
    let reduce = |k| format!("%{k}=\"stablehlo.reduce\"(%x,%{}){body}{attribute}:({many},{one})->{one}\n", k - 1);
    let ops = constant("%0", "0", one) + &(1..=count).map(reduce).collect::<String>();
    function(&[("%x", &many)], given, &ops, (&format!("%{count}"), one))
}

/// A chain of concatenates of so many operands: the value before, of one element, and then the first input, which has
/// none. Names of 30 letters differ in their last two. With these names 256 ops have room for 3 operands, 128 for 8.
fn concatenates(count: usize, operands: usize) -> Vec<u8> {
    let (one, none) = ("tensor<1xi8>", "tensor<0xi8>");
    let letter = |k: usize| (b'a' + k as u8) as char;
    let name = |k: usize| format!("%{}{}{}", "a".repeat(28), letter(k / 26), letter(k % 26));
    let (empty, first) = (name(0), name(1));
    let types = one.to_string() + &format!(",{none}").repeat(operands - 1);
    let attribute = "{dimension=0:i64}";
    let concatenate = |k| {
        let names = name(k - 1) + &format!(",{empty}").repeat(operands - 1);
        format!("{}=\"stablehlo.concatenate\"({names}){attribute}:({types})->{one}\n", name(k))
    };
    let ops: String = (2..count + 2).map(concatenate).collect();
    function(&[(&empty, none), (&first, one)], Given::Inputs, &ops, (&name(count + 1), one))
}

/// Two constants of so many elements each, accepted: three inner dimensions of size 1 give an element 8 tokens of one
/// byte, so that 4,000 elements fill a text with as many tokens as bytes.
fn tokens(elements: usize) -> Vec<u8> {
    let tensor = format!("tensor<{elements}x1x1x1xi8>");
    let value = format!("[{}]", vec!["[[[0]]]"; elements].join(","));
    let ops = constant("%a", &value, &tensor) + &constant("%b", &value, &tensor);
    function(&[], Given::Inputs, &ops, ("%b", &tensor))
}

fn tokens_of(text: &[u8]) -> Vec<Kind> {
    let mut tokens = Vec::new();
    let mut next = token::next(text, 0);
    while next.kind != Kind::End {
        let after = token::next(text, next.end);
        tokens.push(std::mem::replace(&mut next, after).kind);
    }
    tokens
}

/// How many different value names a text has.
fn names_of(text: &[u8]) -> usize {
    let name = |kind| match kind {
        Kind::ValueName(name) => Some(name),
        _ => None,
    };
    tokens_of(text).into_iter().filter_map(name).collect::<HashSet<String>>().len()
}

// Times.

/// A line for each row; false, and no further line, where the two evaluations differ.
fn print_table() -> bool {
    println!("median times in microseconds, waits for a processor left out; growth from the row before");
    let columns = ["shape", "count", "bytes", "proved", "growth", "second", "growth", "ratio"];
    print_line(columns.map(String::from));
    let mut before: Option<(&str, f64, f64)> = None;
    for row in rows() {
        if let Some(difference) = difference(&row) {
            println!("{} {}: {difference}", row.shape, row.count);
            return false;
        }
        let mut store = vec![0; STORE_SLOTS];
        let proved = median(|| evaluated(&row.text, &row.inputs, &mut store));
        let second = median(|| evaluator::evaluate(&row.text, &row.inputs, &mut store));
        let of_shape = before.filter(|&(shape, _, _)| shape == row.shape);
        let growth = |from: Option<f64>, to: f64| from.map_or("-".to_string(), |from| format!("{:.2}", to / from));
        print_line([
            row.shape.to_string(),
            row.count.to_string(),
            row.text.len().to_string(),
            format!("{proved:.0}"),
            growth(of_shape.map(|(_, proved, _)| proved), proved),
            format!("{second:.0}"),
            growth(of_shape.map(|(_, _, second)| second), second),
            format!("{:.1}", proved / second),
        ]);
        before = Some((row.shape, proved, second));
    }
    true
}

fn print_line(cells: [String; 8]) {
    let [shape, count, bytes, proved, proved_growth, second, second_growth, ratio] = cells;
    println!(
        "{shape:<18} {count:>6} {bytes:>6} {proved:>9} {proved_growth:>7} {second:>8} {second_growth:>7} {ratio:>7}"
    );
}

/// Where the answers or the stores differ, over a store that is not zero before.
fn difference(row: &Row) -> Option<String> {
    let mut slots = stream::old_store(1, STORE_SLOTS);
    let mut store = slots.clone();
    let ours = evaluated(&row.text, &row.inputs, &mut slots);
    let theirs = evaluator::evaluate(&row.text, &row.inputs, &mut store);
    if ours == theirs && slots == store {
        return None;
    }
    let first = (0..slots.len()).find(|&slot| slots[slot] != store[slot]);
    Some(format!("proved {ours:?}, second evaluator {theirs:?}, first other slot {first:?}"))
}

/// The median time of a call in microseconds, waits for a processor left out.
fn median<T>(mut call: impl FnMut() -> T) -> f64 {
    let from = Instant::now();
    let mut times = Vec::new();
    while times.len() < CALLS.0 || (times.len() < CALLS.1 && from.elapsed() < CELL) {
        let (waited_before, begin) = (waited(), Instant::now());
        std::hint::black_box(call());
        let time = begin.elapsed();
        times.push(time.saturating_sub(waited() - waited_before));
    }
    times.sort();
    times[times.len() / 2].as_secs_f64() * 1e6
}

/// How long this thread has waited for a processor so far, by Linux; 0 where that cannot be read.
fn waited() -> Duration {
    let times = std::fs::read_to_string("/proc/thread-self/schedstat").unwrap_or_default();
    let waited = times.split_whitespace().nth(1).and_then(|word| word.parse().ok());
    Duration::from_nanos(waited.unwrap_or(0))
}

// Stack.

/// The longest stack that is tried, in KiB.
const MOST_KIB: usize = 16 << 10;

/// For reading, checking and evaluating the most stack that any of the texts takes.
fn print_stacks() -> Result<(), String> {
    let folder = std::env::temp_dir().join(format!("compare-bench-{}", std::process::id()));
    std::fs::create_dir(&folder).map_err(|error| format!("{}: {error}", folder.display()))?;
    let printed = ["read", "check", "evaluate"].iter().try_for_each(|part| print_stack(part, &folder));
    let removed = std::fs::remove_dir_all(&folder).map_err(|error| format!("{}: {error}", folder.display()));
    printed.and(removed)
}

fn print_stack(part: &str, folder: &Path) -> Result<(), String> {
    let file = folder.join("text");
    let (mut most, mut of) = (0, String::new());
    for (name, text) in stack_texts() {
        std::fs::write(&file, text).map_err(|error| format!("{}: {error}", file.display()))?;
        if most == 0 || !fits(most, part, &file)? {
            most = least(most, part, &file).map_err(|reason| format!("{name}: {reason}"))?;
            of = name;
        }
    }
    println!("stack to {part}: {most} KiB at most ({of})");
    Ok(())
}

/// The least stack in KiB, to the next 4, that is enough for a text, where `low` is too short.
fn least(low: usize, part: &str, file: &Path) -> Result<usize, String> {
    let (mut low, mut high) = (low, MOST_KIB);
    if !fits(high, part, file)? {
        return Err(format!("{MOST_KIB} KiB of stack are not enough"));
    }
    while high - low > 4 {
        let middle = (low + high) / 8 * 4;
        if fits(middle, part, file)? {
            high = middle;
        } else {
            low = middle;
        }
    }
    Ok(high)
}

/// Whether a stack of so many KiB is enough: `compare within` in a process of its own, which leaves no core file.
fn fits(kib: usize, part: &str, file: &Path) -> Result<bool, String> {
    let compare = std::env::current_exe().map_err(|error| error.to_string())?;
    let mut command = Command::new("sh");
    command.args(["-c", "ulimit -c 0; exec \"$0\" \"$@\""]).arg(compare);
    command.arg("within").arg((kib * 1024).to_string()).arg(part).arg(file);
    let status = command.stdout(Stdio::null()).stderr(Stdio::null()).status();
    Ok(status.map_err(|error| error.to_string())?.success())
}
