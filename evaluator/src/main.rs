//! The commands. Bad input to a command gets one line on standard error and exit status 2.

use evaluator::{cases, coverage, freecheck, print, stream};
use std::io::{BufRead, Read, Write};
use std::process::ExitCode;

const USAGE: &str =
    "usage: evaluator evaluate | ops [all] | stream | cases SEED COUNT [limits] | coverage SEED COUNT [limits] | free SEED COUNT";

fn main() -> ExitCode {
    let arguments: Vec<String> = std::env::args_os().skip(1).map(|word| word.to_string_lossy().into_owned()).collect();
    match command(&arguments) {
        Ok(status) => ExitCode::from(status),
        Err(reason) => {
            eprintln!("evaluator: {reason}");
            ExitCode::from(2)
        }
    }
}

/// The exit status of a command, or what was wrong with its input.
fn command(arguments: &[String]) -> Result<u8, String> {
    let Some(name) = arguments.first() else { return Err(USAGE.to_string()) };
    let rest = &arguments[1..];
    match name.as_str() {
        "evaluate" => no_arguments(rest).and_then(|()| evaluate()),
        "ops" => list_ops(rest),
        "stream" => no_arguments(rest).and_then(|()| answer_stream()),
        "cases" => cases::command(rest),
        "coverage" => coverage::command(rest),
        "free" => freecheck::command(rest),
        _ => Err(USAGE.to_string()),
    }
}

fn no_arguments(rest: &[String]) -> Result<(), String> {
    if rest.is_empty() {
        Ok(())
    } else {
        Err(USAGE.to_string())
    }
}

/// "lends a store of 8,192 slots, reads a text without inputs on standard input .. and prints"
/// (01 Table of examples). A refusal is an answer, so the exit status is 0 (OP-96).
fn evaluate() -> Result<u8, String> {
    let mut text = Vec::new();
    std::io::stdin().lock().read_to_end(&mut text).map_err(|error| error.to_string())?;
    let output = print::program_output(&text);
    write_all(output.as_bytes())?;
    Ok(0)
}

/// The result of every op of a text without inputs, of its constants only with the word `all`; a text
/// that is refused is bad input.
fn list_ops(rest: &[String]) -> Result<u8, String> {
    let constants = match rest {
        [] => false,
        [word] if word == "all" => true,
        _ => return Err(USAGE.to_string()),
    };
    let mut text = Vec::new();
    std::io::stdin().lock().read_to_end(&mut text).map_err(|error| error.to_string())?;
    write_all(print::op_lines(&text, constants)?.as_bytes())?;
    Ok(0)
}

/// One answer line for each case on standard input.
fn answer_stream() -> Result<u8, String> {
    let mut input = std::io::stdin().lock();
    let mut output = std::io::BufWriter::new(std::io::stdout().lock());
    answer_cases(&mut input, &mut output)?;
    Ok(0)
}

fn answer_cases(input: &mut dyn BufRead, output: &mut dyn Write) -> Result<(), String> {
    let mut number = 0;
    loop {
        match stream::read_case(input) {
            Ok(None) => return output.flush().map_err(|error| error.to_string()),
            Ok(Some(case)) => writeln!(output, "{}", stream::answer_case(&case)).map_err(|error| error.to_string())?,
            Err(reason) => {
                output.flush().map_err(|error| error.to_string())?;
                return Err(format!("case {number} (counted from 0): {reason}"));
            }
        }
        number += 1;
    }
}

fn write_all(bytes: &[u8]) -> Result<(), String> {
    let mut output = std::io::stdout().lock();
    output.write_all(bytes).and_then(|()| output.flush()).map_err(|error| error.to_string())
}
