//! The one table of members, used by the parser and the evaluator.

use crate::rule::{self, Rule};
use std::fmt;

/// Each member's name and rule. The kind of rule says the receiver's kind, the
/// arguments' kinds and so their count.
const TABLE: &[(&str, Rule)] = &[
    ("add", Rule::Numbers(rule::add)),
    ("sub", Rule::Numbers(rule::sub)),
    ("mul", Rule::Numbers(rule::mul)),
    ("div", Rule::Numbers(rule::div)),
    ("gt", Rule::Numbers(rule::gt)),
    ("eq", Rule::Numbers(rule::eq)),
    ("skip", Rule::Cut(rule::skip)),
    ("take", Rule::Cut(rule::take)),
    ("count", Rule::Readings(rule::count)),
    ("sum", Rule::Readings(rule::sum)),
    ("min", Rule::Readings(rule::min)),
    ("max", Rule::Readings(rule::max)),
    ("at", Rule::ReadingsAndNumber(rule::at)),
    ("countWhere", Rule::Runs(rule::count_where)),
    ("longestRun", Rule::Runs(rule::longest_run)),
    ("sumBy", Rule::Runs(rule::sum_by)),
    ("bestSum", Rule::ReadingsAndNumber(rule::best_sum)),
    ("bestAt", Rule::ReadingsAndNumber(rule::best_at)),
];

/// What a member takes and gives.
#[derive(Clone, Copy, PartialEq, Eq, Debug)]
pub enum Kind {
    Number,
    Window,
    Function,
}

/// A member, as its row in the table.
#[derive(Clone, Copy, PartialEq, Eq, PartialOrd, Ord, Hash)]
pub struct Member(usize);

impl Member {
    /// The member of this name, or none if it is unknown.
    pub fn named(word: &str) -> Option<Member> {
        TABLE.iter().position(|(name, _)| *name == word).map(Member)
    }

    /// All members in the order of the table.
    pub fn all() -> impl Iterator<Item = Member> {
        (0..TABLE.len()).map(Member)
    }

    pub fn name(self) -> &'static str {
        TABLE[self.0].0
    }

    pub fn rule(self) -> Rule {
        TABLE[self.0].1
    }

    /// The kind of its receiver.
    pub fn receiver(self) -> Kind {
        match self.rule() {
            Rule::Numbers(_) => Kind::Number,
            Rule::Cut(_) | Rule::Readings(_) | Rule::ReadingsAndNumber(_) | Rule::Runs(_) => {
                Kind::Window
            }
        }
    }

    /// The kind of its argument, or none if it takes none.
    pub fn argument(self) -> Option<Kind> {
        match self.rule() {
            Rule::Numbers(_) | Rule::Cut(_) | Rule::ReadingsAndNumber(_) => Some(Kind::Number),
            Rule::Runs(_) => Some(Kind::Function),
            Rule::Readings(_) => None,
        }
    }

    /// The kind of its result.
    pub fn result(self) -> Kind {
        match self.rule() {
            Rule::Cut(_) => Kind::Window,
            Rule::Numbers(_) | Rule::Readings(_) | Rule::ReadingsAndNumber(_) | Rule::Runs(_) => {
                Kind::Number
            }
        }
    }

    /// Whether a negative number counts from the end of the window (02, T-06).
    pub fn counts_from_the_end(self) -> bool {
        ["skip", "take", "at"].contains(&self.name())
    }

    /// How many arguments it takes, the receiver not counted.
    pub fn arguments(self) -> usize {
        usize::from(self.argument().is_some())
    }
}

impl fmt::Debug for Member {
    fn fmt(&self, out: &mut fmt::Formatter) -> fmt::Result {
        write!(out, "{}", self.name())
    }
}
