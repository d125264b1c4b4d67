//! Mutations of texts whose answer is not foreseen: a single byte deleted, inserted or replaced, a
//! token doubled, taken out or exchanged with another, a text cut off, a value of one kind put into
//! the place of another.

use super::spell::Piece;
use crate::random::Random;

/// Bytes that stand in programs, and some that do not.
const BYTES: &[u8] = b" \t\r\n/%@^#\"<>{}()[]:,=+-.?!_0123456789abcdefgilnorstuvxIFT\x00\x80\xff";

/// One to three mutations of the pieces.
pub fn pieces(random: &mut Random, pieces: &mut Vec<Piece>) {
    let times = *random.pick(&[1, 1, 1, 2, 3]);
    for _ in 0..times {
        if pieces.len() > 1 {
            one_of_pieces(random, pieces);
        }
    }
}

fn one_of_pieces(random: &mut Random, pieces: &mut Vec<Piece>) {
    let place = random.place(pieces.len());
    let other = random.place(pieces.len());
    match random.below(6) {
        0 => pieces.insert(place, pieces[place].clone()),
        1 => {
            pieces.remove(place);
        }
        2 => pieces.swap(place, other),
        3 => {
            let next = (place + 1) % pieces.len();
            pieces.swap(place, next);
        }
        4 => pieces[place] = pieces[other].clone(),
        _ => same_role(random, pieces, place),
    }
}

/// A piece replaced by another of its role: names, types, numbers exchanged.
fn same_role(random: &mut Random, pieces: &mut [Piece], place: usize) {
    let role = pieces[place].role;
    let alike: Vec<usize> = (0..pieces.len()).filter(|i| pieces[*i].role == role).collect();
    let other = *random.pick(&alike);
    pieces[place] = pieces[other].clone();
}

/// One to three mutations of the bytes.
pub fn bytes(random: &mut Random, text: &mut Vec<u8>) {
    let times = *random.pick(&[1, 1, 1, 1, 2, 3]);
    for _ in 0..times {
        if !text.is_empty() {
            one_of_bytes(random, text);
        }
    }
}

fn one_of_bytes(random: &mut Random, text: &mut Vec<u8>) {
    let place = random.place(text.len());
    let byte = if random.chance(9, 10) { *random.pick(BYTES) } else { random.below(256) as u8 };
    match random.below(8) {
        0 | 1 => {
            text.remove(place);
        }
        2 | 3 => text.insert(place, byte),
        4 | 5 => text[place] = byte,
        6 => text.insert(place, text[place]),
        _ if random.chance(1, 3) => text.truncate(place),
        _ => {
            let end = (place + 1 + random.place(12)).min(text.len());
            let stretch = text[place..end].to_vec();
            text.splice(place..place, stretch);
        }
    }
}
