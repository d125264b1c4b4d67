//! Texts made to exhaust a reader: deep nesting, long names, long comments.

/// A text of at most 65,536 bytes: the beginning, a piece as often as it fits, the end.
fn repeated(begin: &str, piece: &str, end: &str) -> Vec<u8> {
    let room = 65536 - begin.len() - end.len();
    let mut text = begin.as_bytes().to_vec();
    for _ in 0..room / piece.len() {
        text.extend_from_slice(piece.as_bytes());
    }
    text.extend_from_slice(end.as_bytes());
    text
}

const HEADER: &str = "func.func @m() {\n";
const CONSTANT: &str = "%c = \"stablehlo.constant\"() {value = dense<";
const REDUCE: &str = "\"stablehlo.reduce\"() ({ ^b():\n";

/// Bodies nested as deep as the text allows, closed again.
fn nested_bodies() -> Vec<u8> {
    let close = "\"stablehlo.return\"() : () -> () }) : () -> ()\n";
    let depth = (65536 - 100) / (REDUCE.len() + close.len());
    let mut text = HEADER.to_string();
    text.push_str(&REDUCE.repeat(depth));
    text.push_str(&close.repeat(depth));
    text.push_str("\"func.return\"() : () -> ()\n}\n");
    text.into_bytes()
}

/// Lists nested as deep as the text allows, closed again.
fn nested_lists() -> Vec<u8> {
    let depth = 32000;
    let end = "> : tensor<i8>} : () -> tensor<i8>\n\"func.return\"() : () -> ()\n}\n";
    format!("{HEADER}{CONSTANT}{}{}{end}", "[".repeat(depth), "]".repeat(depth)).into_bytes()
}

/// Value name number k, the shortest first: a letter, then letters and digits.
fn short_name(k: usize) -> String {
    const LETTERS: usize = 53;
    const BYTES: &[u8; 63] = b"abcdefghijklmnopqrstuvwxyzABCDEFGHIJKLMNOPQRSTUVWXYZ_0123456789";
    let mut name = format!("%{}", BYTES[k % LETTERS] as char);
    let mut rest = k / LETTERS;
    while rest > 0 {
        rest -= 1;
        name.push(BYTES[rest % BYTES.len()] as char);
        rest /= BYTES.len();
    }
    name
}

/// The body of one reduction in so many bytes, of ops with 8 results, each a new name, and 8 operands, each one of the
/// first names: as many names and uses as there is room for, each looked up among all names before it. Refusal 7 of the
/// reduction, after all its names.
pub fn many_names(bytes: usize) -> Vec<u8> {
    let begin = format!("{HEADER}{REDUCE}");
    let end = "\"stablehlo.return\"():()->()}):()->()\n\"func.return\"():()->()\n}\n";
    let mut text = begin;
    for op in 0.. {
        let results: Vec<String> = (8 * op..8 * op + 8).map(short_name).collect();
        let operands: Vec<String> = if op == 0 { Vec::new() } else { (0..8).map(short_name).collect() };
        let op = format!("{}=\"stablehlo.or\"({}):()->()", results.join(","), operands.join(","));
        if text.len() + op.len() + end.len() > bytes {
            break;
        }
        text.push_str(&op);
    }
    text.push_str(end);
    text.into_bytes()
}

pub fn texts() -> Vec<(String, Vec<u8>)> {
    let mut texts: Vec<(String, Vec<u8>)> = vec![
        ("65,536 open brackets".into(), vec![b'['; 65536]),
        ("65,537 open brackets".into(), vec![b'['; 65537]),
        ("a million bytes".into(), vec![b'x'; 1_000_000]),
        ("open lists in dense".into(), repeated(&format!("{HEADER}{CONSTANT}"), "[", "")),
        ("nested lists in dense".into(), nested_lists()),
        ("open bodies".into(), repeated(HEADER, REDUCE, "")),
        ("nested bodies".into(), nested_bodies()),
        ("one name of 65,000 bytes".into(), format!("func.func @{}() {{}}", "m".repeat(65000)).into_bytes()),
        ("one tensor type of many dimensions".into(), repeated("func.func @m(%a: tensor<", "1x", "i8>) {}")),
        (
            "one number of many digits".into(),
            repeated(&format!("{HEADER}%c = \"stablehlo.iota\"() {{iota_dimension = "), "9", ""),
        ),
        ("only comments".into(), repeated("", "// a comment\n", "")),
        ("one comment".into(), repeated("//", "/", "")),
        ("only white space".into(), vec![b' '; 65536]),
        ("only commas".into(), vec![b','; 65536]),
        ("only quotes".into(), vec![b'"'; 65536]),
        ("only `tensor<`".into(), repeated("", "tensor<4x", "")),
        ("many inputs".into(), repeated("func.func @m(", "%a: tensor<i8>, ", "")),
        ("many ops".into(), repeated(HEADER, "\"stablehlo.add\"():()->()\n", "")),
        ("many results".into(), repeated(HEADER, "%a,", "")),
        ("many numbers".into(), repeated(&format!("{HEADER}\"stablehlo.slice\"() {{strides = array<i64: "), "1,", "")),
        ("many attributes".into(), repeated(&format!("{HEADER}\"stablehlo.slice\"() {{"), "dimension = 0 : i64, ", "")),
        ("empty".into(), Vec::new()),
    ];
    for byte in 0..=255u8 {
        texts.push((format!("the single byte {byte}"), vec![byte]));
    }
    texts
}
