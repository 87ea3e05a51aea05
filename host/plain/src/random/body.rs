//! Random bodies of functions: chains of members that depend on a variable, and that a run of
//! the function works out again for each reading.

use super::rng::Rng;

pub const RUNS: [&str; 3] = ["countWhere", "longestRun", "sumBy"];

const NUMBERS: [&str; 9] = ["0", "1", "2", "3", "-1", "-2", "7", "40", "150"];
const FACTORS: [&str; 3] = ["-1", "1", "2"];
const DIVISORS: [&str; 4] = ["-2", "2", "3", "7"];
/// Counts, indices and lengths; and those that a full window most likely has.
const COUNTS: [&str; 6] = ["0", "1", "2", "3", "-1", "-2"];
const WITHIN: [&str; 3] = ["1", "2", "3"];
/// The names of lets. Each opens a mark, as does each call around the chain.
const LETS: [&str; 4] = ["k", "l", "m", "n"];
const MOST_AROUND: usize = 4;

/// A run of a function with some members.
pub fn run(rng: &mut Rng) -> Vec<u8> {
    let members = rng.pick(&[1, 2, 3, 4, 6, 10, 25]);
    let body = body(rng, "b", &[], members);
    format!("data.{}(\\b -> {body})", rng.pick(&RUNS)).into_bytes()
}

/// A body of a function of this variable, with about so many members that depend on it: fewer
/// where two of them are equal. Names among the constants are of numbers that do not depend
/// on it. Few results of most bodies are missing.
pub fn body(rng: &mut Rng, variable: &str, constants: &[&str], members: usize) -> String {
    if members == 0 {
        return rng.pick(&[&[variable], constants, &["0", "1", "150"]].concat()).to_string();
    }
    let mut writer = Chain {
        is_wild: rng.one_in(3),
        rng,
        names: [&[variable], constants].concat(),
        lets: String::new(),
        chain: variable.to_string(),
        kind: Kind::Number,
        around: 0,
    };
    for left in (1..=members).rev() {
        writer.member(left == 1);
        writer.let_chain();
    }
    writer.lets + &writer.chain
}

/// What a chain gives.
#[derive(Clone, Copy, PartialEq)]
enum Kind {
    Number,
    /// 0 or 1.
    Truth,
    Window,
    /// All of the recording but for one reading at most.
    Full,
}

struct Chain<'a> {
    /// Whether it may well be missing.
    is_wild: bool,
    rng: &'a mut Rng,
    /// The variable, the constants and the lets.
    names: Vec<&'a str>,
    /// The lets before the chain.
    lets: String,
    chain: String,
    kind: Kind,
    /// How many calls stand around the chain.
    around: usize,
}

impl Chain<'_> {
    /// One more member on the chain. The last one gives a number.
    fn member(&mut self, is_last: bool) {
        if matches!(self.kind, Kind::Window | Kind::Full) {
            self.member_on_window(is_last);
        } else if self.around < MOST_AROUND && self.rng.one_in(4) {
            self.member_around(is_last);
        } else {
            self.member_on_number();
        }
    }

    fn member_on_number(&mut self) {
        let member = self.rng.pick(&["add", "add", "sub", "sub", "mul", "div", "gt", "eq"]);
        let argument = match member {
            "mul" if !self.is_wild => self.rng.pick(&FACTORS),
            "div" if !self.is_wild => self.rng.pick(&DIVISORS),
            _ if self.rng.one_in(2) => self.rng.pick(&self.names),
            _ => self.rng.pick(&NUMBERS),
        };
        self.kind = if ["gt", "eq"].contains(&member) { Kind::Truth } else { Kind::Number };
        self.chain += &format!(".{member}({argument})");
    }

    fn member_on_window(&mut self, is_last: bool) {
        let cuts: &[&str] = if is_last { &[] } else { &["skip", "take"] };
        let never_missing = ["sum", "count"];
        let others = ["min", "max", "at", "bestSum", "bestAt"];
        let is_full = self.kind == Kind::Full;
        let members = match is_full || self.is_wild {
            true => [cuts, &never_missing, &others].concat(),
            false => [cuts, &never_missing].concat(),
        };
        let member = self.rng.pick(&members);
        let argument = match member {
            "sum" | "count" | "min" | "max" => "",
            "at" | "bestSum" | "bestAt" if is_full => self.rng.pick(&WITHIN),
            "skip" | "take" | "at" if self.rng.one_in(4) => self.rng.pick(&self.names),
            _ => self.rng.pick(&COUNTS),
        };
        self.kind = if cuts.contains(&member) { Kind::Window } else { Kind::Number };
        self.chain += &format!(".{member}({argument})");
    }

    /// A member of the recording and the chain, if there is one for it.
    fn member_around(&mut self, is_last: bool) {
        let is_truth = self.kind == Kind::Truth;
        let members: &[&str] = match (is_last, self.is_wild, is_truth) {
            (true, true, _) => &["at", "bestSum", "bestAt"],
            (true, false, true) => &["at"],
            (true, false, false) => return self.member_on_number(),
            (false, true, _) => &["at", "bestSum", "bestAt", "skip", "take"],
            (false, false, true) => &["at", "skip", "take"],
            (false, false, false) => &["skip", "take"],
        };
        let member = self.rng.pick(members);
        self.kind = match member {
            "skip" if is_truth => Kind::Full,
            "skip" | "take" => Kind::Window,
            _ => Kind::Number,
        };
        self.chain = format!("data.{member}({})", self.chain);
        self.around += 1;
    }

    /// Now and then a let's name for the chain, with which it goes on.
    fn let_chain(&mut self) {
        let count = self.lets.matches("let").count();
        let is_number = matches!(self.kind, Kind::Number | Kind::Truth);
        if is_number && count < LETS.len() && self.rng.one_in(8) {
            self.lets += &format!("let {} = {} in ", LETS[count], self.chain);
            self.chain = LETS[count].to_string();
            self.names.push(LETS[count]);
        }
    }
}
