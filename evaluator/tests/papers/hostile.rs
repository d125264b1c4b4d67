//! "No text may crash it": deep nesting, every prefix, every byte, and exactness of refusal 2.

use crate::common::*;
use evaluator::{token, Answer};

/// A valid text that uses every production of the grammar.
fn rich() -> String {
    let reduce = format!(
        "%s = \"stablehlo.reduce\"(%a, %zero) {} {{dimensions = array<i64: 0>}} : (tensor<2x2xi8>, tensor<i8>) -> (tensor<2xi8>)",
        body("add", "i8")
    );
    format!(
        "// A comment.
func.func @main(%a: tensor<2x2xi8>, %b: tensor<2x0xsi8>) -> tensor<2xi8>, tensor<2x2xi1> {{
  %zero = \"stablehlo.constant\"() <{{value = dense<-0> : tensor<i8>}}> : () -> tensor<i8>
  %t = \"stablehlo.constant\"() {{value = dense<[[true, false], [false, true]]> : tensor<2x2xi1>}} : () -> (tensor<2x2xi1>)
  %e = \"stablehlo.constant\"() {{value = dense<[[], []]> : tensor<2x0xi8>}} : () -> tensor<2x0xi8>
  {reduce}
  %c = \"stablehlo.compare\"(%a, %a) {{comparison_direction = #stablehlo<comparison_direction LT>, compare_type = #stablehlo<comparison_type SIGNED>}} : (tensor<2x2xi8>, tensor<2x2xi8>) -> tensor<2x2xi1>
  %i = \"stablehlo.iota\"() {{iota_dimension = +1 : i64}} : () -> tensor<2x2xui8>
  %r = \"stablehlo.reverse\"(%i) {{dimensions = array<i64>}} : (tensor<2x2xui8>) -> tensor<2x2xui8>
  %0 = \"stablehlo.transpose\"(%r) {{permutation = array<i64: 1, 0>}} : (tensor<2x2xui8>) -> tensor<2x2xui8>
  \"func.return\"(%s, %c) : (tensor<2xi8>, tensor<2x2xi1>) -> ()
}}
"
    )
}

/// The first bytes of a text's tokens.
fn token_places(text: &[u8]) -> Vec<usize> {
    let mut places = Vec::new();
    let mut at = 0;
    loop {
        let next = token::next(text, at);
        if next.kind == token::Kind::End {
            return places;
        }
        places.push(next.at);
        at = next.end;
    }
}

#[test]
fn the_rich_text_is_accepted() {
    accepted(&rich());
    assert!(token_places(rich().as_bytes()).len() > 250);
}

#[test]
fn a_foreign_mark_before_any_token_is_the_failing_token() {
    let text = rich().into_bytes();
    for at in token_places(&text) {
        let mut broken = text.clone();
        broken.splice(at..at, *b" ; ");
        assert_eq!(evaluator::check(&broken), Answer::new(2, at + 1, 0));
    }
}

#[test]
fn a_text_cut_before_any_token_fails_at_its_end() {
    let text = rich().into_bytes();
    for at in token_places(&text) {
        assert_eq!(evaluator::check(&text[..at]), Answer::new(2, at, 0));
    }
}

#[test]
fn a_token_written_twice_never_moves_the_fault_back() {
    // The first copy is the valid text's own token, so a fault of kind 2 is at the second or later.
    let text = rich().into_bytes();
    let places = token_places(&text);
    for window in places.windows(2) {
        let piece = text[window[0]..window[1]].to_vec();
        let mut doubled = text.clone();
        let mut inserted = b" ".to_vec();
        inserted.extend(&piece);
        doubled.splice(window[1]..window[1], inserted);
        let answer = evaluator::check(&doubled);
        if answer.refusal == 2 {
            assert!(answer.a as usize > window[0], "{}", String::from_utf8_lossy(&piece));
        }
    }
}

#[test]
fn every_prefix_and_every_changed_byte_answers() {
    let text = rich().trim_end().to_string().into_bytes();
    for end in 0..text.len() {
        let answer = evaluator::check(&text[..end]);
        assert!(answer.refusal >= 2 && answer.refusal <= 4 && answer.a as usize <= end);
    }
    let mut state = 1u64;
    for at in 0..text.len() {
        for _ in 0..8 {
            state = state.wrapping_mul(6364136223846793005).wrapping_add(1442695040888963407);
            let mut changed = text.clone();
            changed[at] = (state >> 56) as u8;
            let answer = evaluator::check(&changed);
            assert!(answer.refusal <= 8);
        }
    }
}

#[test]
fn random_bytes_and_random_tokens_answer() {
    let pieces: Vec<&[u8]> = vec![
        b"func.func ",
        b"@m",
        b"(",
        b")",
        b"{",
        b"}",
        b"<",
        b">",
        b"[",
        b"]",
        b",",
        b":",
        b"=",
        b"->",
        b"%a ",
        b"%0 ",
        b"^b ",
        b"tensor<i8>",
        b"tensor<?xi8>",
        b"tensor<2xf32>",
        b"\"stablehlo.add\"",
        b"\"func.return\"",
        b"\"stablehlo.return\"",
        b"array",
        b"dense",
        b"i64 ",
        b"1 ",
        b"-9 ",
        b"true ",
        b"#stablehlo",
        b"comparison_type ",
        b"SIGNED ",
        b"value ",
        b"token ",
        b"//",
        b"\n",
        b"\xFF",
        b"\"",
    ];
    let mut state = 7u64;
    let mut next = move |below: usize| {
        state = state.wrapping_mul(6364136223846793005).wrapping_add(1442695040888963407);
        (state >> 33) as usize % below
    };
    let start = b"func.func @m() { ".to_vec();
    for round in 0..4000 {
        let mut text = if round % 2 == 0 { start.clone() } else { Vec::new() };
        for _ in 0..next(40) {
            match next(8) {
                0 => text.push(next(256) as u8),
                _ => text.extend(pieces[next(pieces.len())]),
            }
        }
        let answer = evaluator::check(&text);
        assert!(answer.refusal <= 8);
    }
}

#[test]
fn thirty_thousand_brackets() {
    let with = |inside: &str| {
        function(
            "",
            &format!("%c = \"stablehlo.constant\"() {{value = dense<{inside}> : tensor<i8>}} : () -> tensor<i8>"),
        )
    };
    let deep = "[".repeat(30_000) + &"]".repeat(30_000);
    answers(&with(&deep), 7, 0, 0);
    refused_at_mark(&with(&("[".repeat(30_000) + "§")), 2, 0);
    refused_at_mark(&with(&("[".repeat(30_000) + &"]".repeat(30_000) + "§]")), 2, 0);
    let open = "func.func @m() {\"stablehlo.constant\"() {value = dense<".to_string() + &"[".repeat(65_000);
    answers(&open, 2, open.len(), 0);
    let wide = "[[".to_string() + &"], [".repeat(15_000) + "]]";
    answers(&with(&wide), 7, 0, 0);
}

#[test]
fn thousands_of_nested_bodies() {
    let open = "\"stablehlo.or\"()({^a():";
    let close = "\"stablehlo.return\"():()->()}):()->()";
    let head = "func.func@m(){";
    let tail = "\"func.return\"():()->()}";
    let depth = 1_000;
    let whole = format!("{head}{}{}{tail}", open.repeat(depth), close.repeat(depth));
    answers(&whole, 7, 0, 0);
    // Open only, as deep as the text goes: 2 at the end.
    let deep = format!("{head}{}", open.repeat(2_848));
    assert!(deep.len() <= 65_536 && deep.len() > 65_000);
    answers(&deep, 2, deep.len(), 0);
    // A name fault at the deepest place.
    let inner = "\"stablehlo.or\"(%zz):()->()";
    let text = format!("{head}{}{inner}{}{tail}", open.repeat(depth), close.repeat(depth));
    let at = text.find("%zz").unwrap();
    answers(&text, 5, at, 0);
}

#[test]
fn thousands_of_bodies_and_names_beside_each_other() {
    let one = "{^a(%x:tensor<i8>):\"stablehlo.return\"(%x):()->()}";
    let many = vec![one; 1_200].join(",");
    answers(&format!("func.func@m(){{\"stablehlo.or\"()({many}):()->()\"func.return\"():()->()}}"), 7, 0, 0);
    let ops: String = (0..1_500).map(|k| format!("%v{k}=\"stablehlo.or\"():()->()")).collect();
    let text = format!("func.func@m(){{\"stablehlo.or\"()({{^a():{ops}\"stablehlo.return\"():()->()}}):()->()\"func.return\"():()->()}}");
    answers(&text, 7, 0, 0);
}

#[test]
fn long_tokens() {
    let digits = "1".repeat(60_000);
    answers(
        &function(
            "",
            &format!("%c = \"stablehlo.constant\"() {{value = dense<{digits}> : tensor<i8>}} : () -> tensor<i8>"),
        ),
        7,
        0,
        0,
    );
    refused_at_mark(&function(&format!("%a: §tensor<{}i8>", "1x".repeat(30_000)), ""), 4, 1);
    refused_at_mark(&function(&format!("%a: §tensor<{}i8>", "9".repeat(60_000) + "x"), ""), 4, 2);
    refused_at_mark(&function(&format!("§%{}: tensor<i8>", "n".repeat(60_000)), ""), 4, 8);
    refused_at_mark(&format!("§{}", "w".repeat(60_000)), 2, 0);
    refused_at_mark(&format!("§\"{}", "w".repeat(60_000)), 2, 0);
    answers(&format!("//{}", "w".repeat(60_000)), 2, 60_002, 0);
    answers(&"//\n".repeat(20_000), 2, 60_000, 0);
    answers(&" ".repeat(65_536), 2, 65_536, 0);
}

#[test]
fn the_largest_programs_are_quick() {
    // 256 ops of 32 elements each, and a constant of 4,096 literals.
    let ops: String = (0..256)
        .map(|k| format!("%v{k} = \"stablehlo.iota\"() {{iota_dimension = 0 : i64}} : () -> tensor<32xi8>\n"))
        .collect();
    let (answer, store) = evaluated(&function("", &ops), &[], 8192);
    assert_eq!(answer, Answer::ACCEPTED);
    assert_eq!(store[8191], 31);
    let literals = vec!["7"; 4096].join(",");
    let ops = format!(
        "%c = \"stablehlo.constant\"() {{value = dense<[{literals}]> : tensor<4096xi8>}} : () -> tensor<4096xi8>"
    );
    let (answer, store) = evaluated(&function("", &ops), &[], 4096);
    assert_eq!((answer, store), (Answer::ACCEPTED, vec![7; 4096]));
}
