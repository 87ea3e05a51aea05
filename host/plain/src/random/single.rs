//! Random formulas of one member by itself, near the limits of its rule.

use super::formula::Writer;
use super::rng::Rng;
use crate::member::Kind;

/// Counts and indices: within a short window and beyond, from either end.
const COUNTS: [&str; 11] = ["-2147483648", "-31", "-4", "-2", "-1", "-1", "0", "1", "2", "4", "31"];
/// Lengths of stretches: below, within and beyond a short window.
const WIDTHS: [&str; 10] = ["-1", "0", "1", "2", "2", "3", "3", "4", "7", "31"];
/// The ends of the range, and numbers whose quotients are exact or not, of all signs.
const NUMBERS: [&str; 8] = ["-2147483648", "-7", "-1", "0", "1", "6", "46341", "2147483647"];
const ARGUMENTS: [&str; 8] = ["-2147483648", "-3", "-1", "0", "0", "2", "46341", "2147483647"];
const FUNCTIONS: [&str; 4] = [r"\a -> a", r"\a -> a.gt(2)", r"\a -> 1.div(a)", r"\a -> data.at(a)"];

/// A formula as its tokens.
pub fn single(rng: &mut Rng) -> Vec<String> {
    let mut writer = Writer::new(rng);
    let member = writer.member_where(|_| true);
    match member.receiver() {
        Kind::Window => writer.window(),
        _ => writer.one_of(&NUMBERS),
    }
    writer.put(&[".", member.name(), "("]);
    match (member.receiver(), member.argument()) {
        (_, None) => (),
        (_, Some(Kind::Function)) => writer.one_of(&FUNCTIONS),
        (Kind::Window, _) if member.counts_from_the_end() => writer.one_of(&COUNTS),
        (Kind::Window, _) => writer.one_of(&WIDTHS),
        _ => writer.one_of(&ARGUMENTS),
    }
    writer.put(&[")"]);
    writer.tokens
}

impl Writer<'_> {
    fn one_of(&mut self, tokens: &[&str]) {
        let token = self.rng.pick(tokens);
        self.put(&[token]);
    }

    /// The recording, or a part of it.
    fn window(&mut self) {
        self.put(&["data"]);
        for member in ["skip", "take"] {
            if self.rng.one_in(4) {
                let count = self.rng.pick(&["1", "2", "4", "-1", "-2"]);
                self.put(&[".", member, "(", count, ")"]);
            }
        }
    }
}
