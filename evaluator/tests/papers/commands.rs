//! The commands `evaluate`, `ops` and `stream`, run as programs.

use evaluator::stream::{answer_case, hash, old_store, read_case, write_case, Case};
use std::io::Write;
use std::process::{Command, Output, Stdio};

const SAMPLE: &str = include_str!("../../../examples/sample.mlir");

fn program(arguments: &[&str], input: &[u8]) -> Output {
    let mut child = Command::new(env!("CARGO_BIN_EXE_evaluator"))
        .args(arguments)
        .stdin(Stdio::piped())
        .stdout(Stdio::piped())
        .stderr(Stdio::piped())
        .spawn()
        .unwrap();
    // A command that refuses its arguments does not read its input.
    let _ = child.stdin.take().unwrap().write_all(input);
    child.wait_with_output().unwrap()
}

/// Exit status 2, one line on standard error.
#[track_caller]
fn refused(arguments: &[&str], input: &[u8]) -> Output {
    let output = program(arguments, input);
    assert_eq!(output.status.code(), Some(2), "{arguments:?}");
    let error = String::from_utf8(output.stderr.clone()).unwrap();
    assert_eq!(error.matches('\n').count(), 1, "{error}");
    assert!(error.starts_with("evaluator: ") && error.len() > 15, "{error}");
    output
}

#[test]
fn evaluate_prints_results_or_refused() {
    let output = program(&["evaluate"], SAMPLE.as_bytes());
    assert_eq!(output.stdout, b"dense<[1725]> : tensor<1xui16>\n");
    assert_eq!((output.status.code(), output.stderr.len()), (Some(0), 0));
    let output = program(&["evaluate"], b"\xFF");
    assert_eq!(output.stdout, b"refused 2 0 0\n");
    assert_eq!((output.status.code(), output.stderr.len()), (Some(0), 0));
    let output = program(&["evaluate"], &vec![b' '; 70_000]);
    assert_eq!(output.stdout, b"refused 1 70000 0\n");
    let output = program(&["evaluate"], &vec![b'['; 65_536]);
    assert_eq!(output.stdout, b"refused 2 0 0\n");
}

#[test]
fn ops_prints_a_line_for_every_op_and_for_constants_where_asked() {
    let text = "func.func @m() {\n%a = \"stablehlo.constant\"() {value = dense<[1, -3]> : tensor<2xi8>} : () -> tensor<2xi8>\n\
                %n = \"stablehlo.negate\"(%a) : (tensor<2xi8>) -> tensor<2xi8>\n\
                %s = \"stablehlo.sign\"(%a) : (tensor<2xi8>) -> tensor<2xi8>\n\"func.return\"() : () -> ()}";
    let output = program(&["ops"], text.as_bytes());
    assert_eq!(output.stdout, b"negate 18446744073709551615 3\nsign 1 18446744073709551615\n");
    assert_eq!((output.status.code(), output.stderr.len()), (Some(0), 0));
    let output = program(&["ops", "all"], text.as_bytes());
    let lines = b"constant 1 18446744073709551613\nnegate 18446744073709551615 3\nsign 1 18446744073709551615\n";
    assert_eq!(output.stdout, lines);
    assert_eq!((output.status.code(), output.stderr.len()), (Some(0), 0));
    // A text that is refused, by its grammar or for its inputs, is bad input.
    for text in ["", "func.func @m(%a: tensor<2xi8>) {\n\"func.return\"() : () -> ()}"] {
        assert!(refused(&["ops"], text.as_bytes()).stdout.is_empty());
        assert!(refused(&["ops", "all"], text.as_bytes()).stdout.is_empty());
    }
}

#[test]
fn bad_arguments() {
    for arguments in [
        &[][..],
        &["other"],
        &["evaluate", "x"],
        &["stream", "1"],
        &["ops", "x"],
        &["ops", "all", "all"],
        &[""],
        &["cases"],
        &["cases", "1"],
        &["cases", "x", "1"],
        &["cases", "1", "1", "LIMITS"],
        &["cases", "1", "1", ""],
        &["cases", "1", "1", "1"],
        &["cases", "limits", "1", "1"],
        &["cases", "1", "limits"],
        &["cases", "1", "1", "limits", "limits"],
        &["coverage", "1", "1", "FAMILY"],
        &["free", "1", "1", "limits"],
        &["coverage", "1", "-1"],
        &["free", "1", "2", "3"],
    ] {
        let output = refused(arguments, b"");
        assert!(output.stdout.is_empty());
    }
}

#[test]
fn cases_of_a_family() {
    for arguments in [&["cases", "1", "3"][..], &["cases", "1", "3", "limits"]] {
        let output = program(arguments, b"");
        assert_eq!((output.status.code(), output.stderr.len()), (Some(0), 0));
        let mut input = &output.stdout[..];
        let mut count = 0;
        while read_case(&mut input).unwrap().is_some() {
            count += 1;
        }
        assert_eq!(count, 3);
    }
    let (general, limits) = (program(&["cases", "1", "3"], b""), program(&["cases", "1", "3", "limits"], b""));
    assert_ne!(general.stdout, limits.stdout);
}

fn case(text: &str, inputs: &[u64], store_length: usize, seed: u64) -> Case {
    Case { text: text.as_bytes().to_vec(), inputs: inputs.to_vec(), store_length, seed }
}

fn written(cases: &[Case]) -> Vec<u8> {
    let mut bytes = Vec::new();
    for case in cases {
        write_case(&mut bytes, case).unwrap();
    }
    bytes
}

#[test]
fn stream_answers_one_line_for_each_case() {
    let add = "func.func @m(%a: tensor<2xi8>) -> tensor<2xi8> {\n%r = \"stablehlo.add\"(%a, %a) : (tensor<2xi8>, tensor<2xi8>) -> tensor<2xi8>\n\"func.return\"(%r) : (tensor<2xi8>) -> ()}";
    let cases = [
        case(add, &[1, u64::MAX], 5, 42),
        case(add, &[1, 255], 5, 42),
        case("", &[], 0, 0),
        case("\n\ncase 0 0 0 0\n", &[], 1, 7),
    ];
    let output = program(&["stream"], &written(&cases));
    assert_eq!(output.status.code(), Some(0));
    let lines: Vec<String> = String::from_utf8(output.stdout).unwrap().lines().map(str::to_string).collect();
    // The first case in full: the store after the answer, its last slot the old one.
    let golden = 0x9E3779B97F4A7C15u64;
    let store = [1, u64::MAX, 2, u64::MAX - 1, 42u64.wrapping_add(golden.wrapping_mul(4))];
    assert_eq!(lines[0], format!("0 0 0 {:016x}", hash(&store)));
    assert_eq!(lines[1], format!("11 1 0 {:016x}", hash(&old_store(42, 5))));
    assert_eq!(lines[2], "2 0 0 cbf29ce484222325");
    assert_eq!(lines[3], format!("2 2 0 {:016x}", hash(&old_store(7, 1))));
    assert_eq!(lines.len(), 4);
    for (case, line) in cases.iter().zip(lines) {
        assert_eq!(answer_case(case), line);
    }
}

#[test]
fn the_hash_is_fnv_1a_64_over_little_endian_bytes() {
    assert_eq!(hash(&[]), 0xcbf29ce484222325);
    // The FNV-1a 64 of the eight bytes "foobar\0\0", by the definition.
    let mut expected = 0xcbf29ce484222325u64;
    for byte in b"foobar\0\0" {
        expected = (expected ^ *byte as u64).wrapping_mul(0x100000001b3);
    }
    assert_eq!(hash(&[u64::from_le_bytes(*b"foobar\0\0")]), expected);
}

#[test]
fn the_old_store_follows_its_formula() {
    assert_eq!(
        old_store(5, 3),
        [5, 5u64.wrapping_add(0x9E3779B97F4A7C15), 5u64.wrapping_add(0x9E3779B97F4A7C15u64.wrapping_mul(2))]
    );
}

#[test]
fn cases_are_read_as_they_were_written() {
    let cases =
        [case("a\nb", &[1, 2, u64::MAX], 3, u64::MAX), case("", &[], 0, 0), case("case 1 1 1 1\n\n", &[0], 8192, 1)];
    let bytes = written(&cases);
    let mut input = &bytes[..];
    for case in &cases {
        assert_eq!(read_case(&mut input).unwrap().as_ref(), Some(case));
    }
    assert_eq!(read_case(&mut input), Ok(None));
}

#[test]
fn bad_streams() {
    for input in [
        "x",
        "\n",
        "case 1 0 0\na\n\n",
        "case 1 0 0 0 0\na\n\n",
        "case -1 0 0 0\n\n\n",
        "case 1 0 0 18446744073709551616\na\n\n",
        "case 0x1 0 0 0\na\n\n",
        "case 5 0 0 0\na\n\n",
        "case 1 0 0 0\nab\n\n",
        "case 1 0 0 0\na\n1\n",
        "case 1 1 0 0\na\n\n",
        "case 1 2 0 0\na\n1  2\n",
        "case 1 1 0 0\na\n-1\n",
        "case 1 1 0 0\na\n1 \n",
        "case 1 1 0 0\na\n1",
        "case 1 1 0 0\na\n12",
        "case 1 1 0 0\na\n",
        "case 1 0 99999999999 0\na\n\n",
        "case 99999999999999 0 0 0\na\n\n",
        "case  1 0 0 0\na\n\n",
        "case 1 0 0 0\r\na\n\n",
    ] {
        let output = refused(&["stream"], input.as_bytes());
        assert!(output.stdout.is_empty(), "{input}");
    }
    // Cases before the bad one are answered.
    let output = refused(&["stream"], b"case 1 0 0 0\na\n\noops\n");
    assert_eq!(output.stdout, b"2 0 0 cbf29ce484222325\n");
    refused(&["stream"], b"\xFF\n");
}
