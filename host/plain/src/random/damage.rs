//! Damaged texts: formulas with a few tokens or bytes changed, and lists of tokens
//! in any order.

use super::formula::join;
use super::rng::Rng;
use crate::member::Member;

/// Tokens, and bytes that start none, to put into texts.
#[rustfmt::skip]
const PIECES: &[&str] = &[
    "let", "in", "\\", "->", "=", ".", ",", "(", ")", "()", ".count()", "\\a ->", "let x =",
    "data", "a", "b", "x", "abcdefgh", "heartrate", "-", ">", "#", "_", "foo",
    "0", "-1", "2147483647", "2147483648", "-2147483648", "-2147483649",
];

/// A piece, quite often the name of a member or a word that is close to one.
fn piece(rng: &mut Rng) -> String {
    if !rng.one_in(4) {
        return rng.pick(PIECES).to_string();
    }
    let member = rng.pick(&Member::all().collect::<Vec<_>>());
    let name = member.name();
    match rng.below(8) {
        0 => format!("{name}X"),
        1 => name[..name.len() - 1].to_string(),
        2 => name.to_lowercase(),
        _ => name.to_string(),
    }
}

/// The text of a formula with one or two tokens changed, and sometimes a byte.
pub fn damaged(rng: &mut Rng, mut tokens: Vec<String>) -> Vec<u8> {
    for _ in 0..1 + rng.below(2) {
        change_token(rng, &mut tokens);
    }
    let mut text = join(rng, &tokens);
    if rng.one_in(3) {
        change_byte(rng, &mut text);
    }
    text
}

/// Up to thirty pieces in any order.
pub fn token_soup(rng: &mut Rng) -> Vec<u8> {
    let count = rng.below(30);
    let tokens: Vec<String> = (0..count).map(|_| piece(rng)).collect();
    join(rng, &tokens)
}

fn change_token(rng: &mut Rng, tokens: &mut Vec<String>) {
    let place = rng.below(tokens.len() as u64) as usize;
    let piece = piece(rng);
    match rng.below(5) {
        0 if tokens.len() > 1 => {
            tokens.remove(place);
        }
        1 => tokens.insert(place, piece),
        2 => tokens.insert(place, tokens[place].clone()),
        3 => {
            let other = rng.below(tokens.len() as u64) as usize;
            tokens.swap(place, other);
        }
        _ => tokens[place] = piece,
    }
}

fn change_byte(rng: &mut Rng, text: &mut Vec<u8>) {
    let place = rng.below(text.len() as u64) as usize;
    match rng.below(4) {
        0 => text.truncate(place),
        1 => {
            text.remove(place);
        }
        2 => text[place] = rng.draw() as u8,
        _ => text.insert(place, rng.pick(b"\0\x7f\x80\xff-\\().,=> \tal09")),
    }
}
