//! Random formulas. Most are grammatical, within the limits and of the right kinds,
//! but not all.

use super::rng::Rng;
use crate::member::{Kind, Member};

const KINDS: [Kind; 3] = [Kind::Number, Kind::Window, Kind::Function];
pub(super) const NAMES: [&str; 12] =
    ["a", "b", "x", "y", "h", "x1", "abcdefgh", "abcdefgi", "bbcdefgh", "dat", "inn", "let1"];
/// Names that are bound more often, so that they hide one another.
const FEW: [&str; 2] = ["a", "b"];
const NUMBERS: [&str; 12] =
    ["0", "1", "2", "3", "5", "-1", "-7", "007", "150", "2147483647", "-2147483648", "-0"];

/// A formula as its tokens.
pub fn formula(rng: &mut Rng) -> Vec<String> {
    let depth = rng.pick(&[1, 2, 3, 3, 4, 4, 5]);
    let kind = rng.pick(&[Kind::Number, Kind::Number, Kind::Window, Kind::Function]);
    let mut writer = Writer::new(rng);
    writer.expression(kind, depth);
    writer.tokens
}

/// The text of some tokens: a blank where two would run together, and otherwise
/// blanks here and there.
pub fn join(rng: &mut Rng, tokens: &[String]) -> Vec<u8> {
    let often = rng.pick(&[2, 8, 100]);
    let mut text: Vec<u8> = Vec::new();
    for token in tokens {
        let runs_together = text.last().is_some_and(u8::is_ascii_alphanumeric)
            && token.starts_with(|first: char| first.is_ascii_alphanumeric());
        if runs_together || rng.one_in(often) {
            text.push(rng.pick(b"    \t\r\n"));
        }
        text.extend(token.bytes());
    }
    text
}

/// Writes an expression, token by token.
pub(super) struct Writer<'a> {
    pub(super) rng: &'a mut Rng,
    pub(super) tokens: Vec<String>,
    /// Names in scope with the kind that they most likely have.
    pub(super) scope: Vec<(&'static str, Kind)>,
    /// Names of the open lambdas.
    pub(super) lambdas: Vec<&'static str>,
}

impl Writer<'_> {
    pub(super) fn new(rng: &mut Rng) -> Writer<'_> {
        Writer { rng, tokens: Vec::new(), scope: Vec::new(), lambdas: Vec::new() }
    }

    pub(super) fn put(&mut self, tokens: &[&str]) {
        self.tokens.extend(tokens.iter().map(|token| token.to_string()));
    }

    /// An expression, most likely of this kind.
    fn expression(&mut self, kind: Kind, depth: u32) {
        let kind = if self.rng.one_in(40) { self.rng.pick(&KINDS) } else { kind };
        if depth > 0 && self.rng.one_in(5) {
            self.let_expression(kind, depth - 1);
        } else if kind == Kind::Function && !self.rng.one_in(4) {
            self.lambda(depth);
        } else {
            self.chain(kind, depth);
        }
    }

    /// A name to bind, seldom one that cannot be bound.
    fn name_to_bind(&mut self) -> &'static str {
        match self.rng.below(80) {
            0 => self.rng.pick(&["data", "heartrate", "in"]),
            1..=40 => self.rng.pick(&FEW),
            _ => self.rng.pick(&NAMES),
        }
    }

    /// The name of a lambda. Within another it often has that one's, which it hides.
    pub(super) fn name_of_lambda(&mut self) -> &'static str {
        match self.lambdas.last() {
            Some(outer) if self.rng.one_in(2) => outer,
            _ => self.name_to_bind(),
        }
    }

    /// A let. Within a lambda its value often is a variable, which a lambda in its body may
    /// hide.
    fn let_expression(&mut self, kind: Kind, depth: u32) {
        let name = self.name_to_bind();
        let is_variable = !self.lambdas.is_empty() && self.rng.one_in(3);
        let value_kind = if is_variable { Kind::Number } else { self.rng.pick(&KINDS) };
        self.put(&["let", name, "="]);
        if is_variable {
            self.name_or(Kind::Number, "1");
        } else {
            self.expression(value_kind, depth);
        }
        self.put(&["in"]);
        self.scope.push((name, value_kind));
        self.expression(kind, depth);
        self.scope.pop();
    }

    /// A lambda, or a name or number where two lambdas are open already.
    fn lambda(&mut self, depth: u32) {
        if self.lambdas.len() == 2 && !self.rng.one_in(4) {
            return self.name_or(Kind::Function, "0");
        }
        let name = self.name_of_lambda();
        let body_kind = if self.rng.one_in(12) { self.rng.pick(&KINDS) } else { Kind::Number };
        self.put(&["\\", name, "->"]);
        self.lambdas.push(name);
        self.scope.push((name, Kind::Number));
        self.expression(body_kind, depth.saturating_sub(1));
        self.scope.pop();
        self.lambdas.pop();
    }

    fn chain(&mut self, kind: Kind, depth: u32) {
        if depth == 0 || kind == Kind::Function || self.rng.one_in(4) {
            return self.atom(kind, depth);
        }
        let member = self.member_giving(kind);
        self.chain(member.receiver(), depth - 1);
        self.put(&[".", member.name(), "("]);
        let is_window = member.receiver() == Kind::Window;
        match member.argument() {
            Some(Kind::Number) if is_window && !self.rng.one_in(3) => self.small_number(),
            Some(argument) => self.expression(argument, depth - 1),
            None => (),
        }
        self.put(&[")"]);
    }

    /// A number that is a likely count, index or length, now and then from the end.
    fn small_number(&mut self) {
        let number = self.rng.pick(&["0", "0", "1", "1", "2", "3", "-1", "-2"]);
        self.put(&[number]);
    }

    /// A member with this kind of result, quite often one that runs a function.
    fn member_giving(&mut self, kind: Kind) -> Member {
        let prefers_runs = kind == Kind::Number && self.rng.one_in(3);
        self.member_where(|member| {
            member.result() == kind && (!prefers_runs || member.argument() == Some(Kind::Function))
        })
    }

    /// A member of those that are wanted.
    pub(super) fn member_where(&mut self, is_wanted: impl Fn(&Member) -> bool) -> Member {
        self.rng.pick(&Member::all().filter(is_wanted).collect::<Vec<_>>())
    }

    fn atom(&mut self, kind: Kind, depth: u32) {
        if kind == Kind::Function || depth > 0 && self.rng.one_in(6) {
            self.put(&["("]);
            self.expression(kind, depth.saturating_sub(1));
            self.put(&[")"]);
        } else if kind == Kind::Window {
            self.name_or(kind, "data");
        } else if self.rng.one_in(25) {
            let name = self.rng.pick(&NAMES);
            self.put(&[name]);
        } else {
            let number = self.rng.pick(&NUMBERS);
            self.name_or(kind, number);
        }
    }

    /// Often a name in scope of this kind, else the other token.
    pub(super) fn name_or(&mut self, kind: Kind, other: &str) {
        let of_kind = self.scope.iter().filter(|(_, named)| *named == kind);
        let names: Vec<&str> = of_kind.map(|(name, _)| *name).collect();
        if names.is_empty() || self.rng.one_in(3) {
            self.put(&[other]);
        } else {
            let name = self.rng.pick(&names);
            self.put(&[name]);
        }
    }
}
