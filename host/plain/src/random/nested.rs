//! Random formulas in which functions run within runs of functions.

use super::formula::{NAMES, Writer};
use super::rng::Rng;
use crate::member::Kind;

/// A formula as its tokens. Some of its functions stand in lets.
pub fn nested(rng: &mut Rng) -> Vec<String> {
    let mut writer = Writer::new(rng);
    for _ in 0..writer.rng.below(3) {
        let name = writer.rng.pick(&NAMES);
        writer.put(&["let", name, "="]);
        writer.nested_lambda(1);
        writer.put(&["in"]);
        writer.scope.push((name, Kind::Function));
    }
    writer.nested_run(2);
    writer.tokens
}

impl Writer<'_> {
    /// A run of a function over some part of the recording, in one level of runs or
    /// more.
    fn nested_run(&mut self, levels: u32) {
        self.put(&["data"]);
        if self.rng.one_in(2) {
            let member = self.member_where(|member| member.result() == Kind::Window);
            self.put(&[".", member.name(), "("]);
            self.name_or(Kind::Number, "1");
            self.put(&[")"]);
        }
        let member = self.member_where(|member| member.argument() == Some(Kind::Function));
        self.put(&[".", member.name(), "("]);
        let has_function = self.scope.iter().any(|(_, kind)| *kind == Kind::Function);
        if self.lambdas.len() == 2 || has_function && self.rng.one_in(3) {
            self.name_or(Kind::Function, "data");
        } else {
            self.nested_lambda(levels - 1);
        }
        self.put(&[")"]);
    }

    /// A lambda that mostly gives numbers, by a run inside it if levels are left.
    fn nested_lambda(&mut self, levels: u32) {
        let held = self.scope.len();
        let name = self.name_of_lambda();
        self.put(&["\\", name, "->"]);
        self.lambdas.push(name);
        self.scope.push((name, Kind::Number));
        if levels > 0 && self.rng.one_in(3) {
            self.let_variable(name);
        }
        if levels > 0 && !self.rng.one_in(4) {
            self.nested_run(levels);
        } else if self.rng.one_in(4) {
            self.by_number();
        } else {
            self.name_or(Kind::Number, "2");
        }
        let member = self.member_where(|member| member.receiver() == Kind::Number);
        self.put(&[".", member.name(), "("]);
        self.name_or(Kind::Number, "150");
        self.put(&[")"]);
        self.scope.truncate(held);
        self.lambdas.pop();
    }

    /// A let's name for a variable, which a lambda inside may hide.
    fn let_variable(&mut self, variable: &'static str) {
        let name = self.rng.pick(&NAMES);
        self.put(&["let", name, "=", variable, "in"]);
        self.scope.push((name, Kind::Number));
    }

    /// A member of the recording and a number, which mostly is a lambda's variable.
    fn by_number(&mut self) {
        let member = self.member_where(|member| {
            let kinds = (member.receiver(), member.argument(), member.result());
            kinds == (Kind::Window, Some(Kind::Number), Kind::Number)
        });
        self.put(&["data", ".", member.name(), "("]);
        self.name_or(Kind::Number, "2");
        self.put(&[")"]);
    }
}
