//! One token of a valid program made faulty: texts that are not in the grammar (refusal 2) and names
//! that are not in 01 (refusal 3), with the piece at which the answer lies.

use super::sizes::{some_piece, TYPE_ROLES};
use super::spell::{Piece, Role};
use crate::random::Random;

/// Where a fault lies: a piece, or the end of the text.
#[derive(Clone, Copy, PartialEq, Eq, Debug)]
pub enum Where {
    Piece(usize),
    End,
}

/// Makes one token faulty: the refusal and its place; nothing where the program has no such token.
pub fn faulty(random: &mut Random, pieces: &mut Vec<Piece>) -> Option<(u64, Where)> {
    match random.below(12) {
        0 => garbage(random, pieces),
        1 => truncated(random, pieces),
        2 => trailing(random, pieces),
        3 => misplaced_return(random, pieces),
        4 => bad_type(random, pieces),
        5 | 6 => unknown_type(random, pieces),
        7 => unknown_op(random, pieces),
        8 => unknown_attribute(random, pieces),
        9 => unknown_choice(random, pieces),
        10 => wrong_word(random, pieces),
        _ => missing_return(pieces),
    }
}

/// A byte that starts no token, in place of a token or before one.
fn garbage(random: &mut Random, pieces: &mut Vec<Piece>) -> Option<(u64, Where)> {
    let junk: [&[u8]; 16] = [
        b"$",
        b";",
        b"&",
        b"!",
        b"?",
        b"\\",
        b"'",
        b"|",
        b"~",
        b"`",
        b"\x00",
        b"\x0b",
        b"\x0c",
        b"\x7f",
        b"\xff",
        b"\xef\xbb\xbf",
    ];
    let place = random.place(pieces.len());
    let piece = Piece { bytes: random.pick(&junk).to_vec(), role: Role::Mark, line: false };
    if random.chance(1, 2) {
        pieces[place] = piece;
    } else {
        pieces.insert(place, piece);
    }
    Some((2, Where::Piece(place)))
}

/// The text ends before some token.
fn truncated(random: &mut Random, pieces: &mut Vec<Piece>) -> Option<(u64, Where)> {
    pieces.truncate(random.place(pieces.len()));
    Some((2, Where::End))
}

/// Something after the function's last brace.
fn trailing(random: &mut Random, pieces: &mut Vec<Piece>) -> Option<(u64, Where)> {
    let place = pieces.len();
    if random.chance(1, 4) {
        pieces.extend(pieces.clone());
        return Some((2, Where::Piece(place)));
    }
    let more = ["}", "func.func", "%0", "0", "x", "\"func.return\"", "->", "tensor<i8>"];
    pieces.push(Piece::new(random.pick::<&str>(&more), Role::Mark));
    Some((2, Where::Piece(place)))
}

/// "either return elsewhere is 2": the return's own name of the wrong dialect, or an op made one.
fn misplaced_return(random: &mut Random, pieces: &mut [Piece]) -> Option<(u64, Where)> {
    let place = some_piece(random, pieces, &[Role::OpName])?;
    let text = if in_body(pieces, place) { "\"func.return\"" } else { "\"stablehlo.return\"" };
    pieces[place].bytes = text.as_bytes().to_vec();
    Some((2, Where::Piece(place)))
}

/// A body is open at a piece: more labels came before it than returns of bodies.
fn in_body(pieces: &[Piece], place: usize) -> bool {
    let opened = pieces[..place].iter().filter(|p| p.role == Role::Label).count();
    let closed = pieces[..place].iter().filter(|p| p.is("\"stablehlo.return\"")).count();
    opened > closed
}

/// Words that look like a tensor type and are none.
fn bad_type(random: &mut Random, pieces: &mut [Piece]) -> Option<(u64, Where)> {
    let place = some_piece(random, pieces, &TYPE_ROLES)?;
    let bad = [
        "tensor<4x4>",
        "tensor<4i8>",
        "tensor<>",
        "tensor<-1xi8>",
        "tensor<*xi8>",
        "tensor<2 x i8>",
        "tensor <2xi8>",
        "tensor< i8>",
        "tensor<i8 >",
        "tensor<2xi8",
        "tensor",
        "memref<2xi8>",
        "i8",
        "5",
        "tensor<2x>",
        "tensor<2X3xi8>",
    ];
    pieces[place].bytes = random.pick(&bad).as_bytes().to_vec();
    Some((2, Where::Piece(place)))
}

/// A well-formed type that is not in 01.
fn unknown_type(random: &mut Random, pieces: &mut [Piece]) -> Option<(u64, Where)> {
    let place = some_piece(random, pieces, &TYPE_ROLES)?;
    if pieces[place].role != Role::DenseType && random.chance(1, 5) {
        // Value types of 000 that are no tensors (OP-22).
        let others = ["token", "tuple<>", "tuple<tensor<i8>>", "tuple<token,tensor<2xi8>>"];
        pieces[place].bytes = random.pick(&others).as_bytes().to_vec();
        return Some((3, Where::Piece(place)));
    }
    let unknown = [
        "tensor<4xf32>",
        "tensor<f64>",
        "tensor<bf16>",
        "tensor<2x2xi4>",
        "tensor<ui1>",
        "tensor<si1>",
        "tensor<i2>",
        "tensor<index>",
        "tensor<I8>",
        "tensor<i128>",
        "tensor<?xi8>",
        "tensor<2x?xi8>",
        "tensor<?x1x1x1x1x1x1xi8>",
        "tensor<99999xf32>",
        "tensor<xi32>",
        "tensor<4xx>",
        "tensor<i32x4>",
        "tensor<_>",
        "tensor<complex<f32>>",
        "tensor<2xcomplex<f64>>",
        "tensor<i08>",
    ];
    pieces[place].bytes = random.pick(&unknown).as_bytes().to_vec();
    Some((3, Where::Piece(place)))
}

/// A well-formed name of an op that is not in 01.
fn unknown_op(random: &mut Random, pieces: &mut [Piece]) -> Option<(u64, Where)> {
    let place = some_piece(random, pieces, &[Role::OpName])?;
    let unknown = [
        "\"stablehlo.dot_general\"",
        "\"stablehlo.while\"",
        "\"stablehlo.ADD\"",
        "\"stablehlo.ad\"",
        "\"stablehlo.adds\"",
        "\"mhlo.add\"",
        "\"func.call\"",
        "\"func.func\"",
        "\"stablehlo.tan\"",
        "\"_._\"",
        "\"a0.b1\"",
        "\"stablehlo.shift_right\"",
    ];
    pieces[place].bytes = random.pick(&unknown).as_bytes().to_vec();
    Some((3, Where::Piece(place)))
}

fn unknown_attribute(random: &mut Random, pieces: &mut [Piece]) -> Option<(u64, Where)> {
    let place = some_piece(random, pieces, &[Role::AttributeName])?;
    let unknown = ["foo", "Value", "dims", "comparison_type", "operand", "body", "precision_config", "_", "value_"];
    pieces[place].bytes = random.pick(&unknown).as_bytes().to_vec();
    Some((3, Where::Piece(place)))
}

fn unknown_choice(random: &mut Random, pieces: &mut [Piece]) -> Option<(u64, Where)> {
    let place = some_piece(random, pieces, &[Role::ChoiceKind, Role::Choice])?;
    let unknown = if pieces[place].role == Role::Choice {
        ["FLOAT", "TOTALORDER", "lt", "NEQ", "signed"]
    } else {
        ["precision", "compare_type", "Comparison_direction", "fft_type", "x"]
    };
    pieces[place].bytes = random.pick(&unknown).as_bytes().to_vec();
    Some((3, Where::Piece(place)))
}

/// A fixed word or mark of the grammar replaced by another token.
fn wrong_word(random: &mut Random, pieces: &mut [Piece]) -> Option<(u64, Where)> {
    let place = some_piece(random, pieces, &[Role::Word])?;
    let other = if pieces[place].is("i64") {
        *random.pick(&["i32", "si64", "ui64", "i1", "64"])
    } else if pieces[place].is("func.func") {
        *random.pick(&["module", "func", "tensor<i8>", "@main"])
    } else {
        *random.pick(&["true", "tensor<i8>", "%v", "]", "->", "\"a.b\"", "sparse"])
    };
    pieces[place].bytes = other.as_bytes().to_vec();
    Some((2, Where::Piece(place)))
}

/// The return taken out: the closing brace comes too early.
fn missing_return(pieces: &mut Vec<Piece>) -> Option<(u64, Where)> {
    let place = pieces.iter().position(|p| p.is("\"func.return\""))?;
    let last = pieces.pop()?;
    pieces.truncate(place);
    pieces.push(last);
    Some((2, Where::Piece(place)))
}
