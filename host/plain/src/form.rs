//! Let-free forms, numbered from 0.
//!
//! A form names its dependencies by number. Equal forms have one number, so two
//! forms are equal exactly if their kinds, names, levels and dependencies' numbers are.
//! A form that occurs in many places of a let-free text is held once.

use crate::member::Member;
use crate::name::{Name, Variable};
use std::collections::BTreeSet;

/// A let-free form (01: an entry).
#[derive(Clone, PartialEq, Eq, Debug)]
pub enum Form {
    Number(i32),
    /// A lambda variable by name and level.
    Variable(Variable),
    /// A name that no let or lambda around it binds.
    Unbound(Name),
    Data,
    /// A member with its dependencies, receiver first.
    Member(Member, Vec<usize>),
    /// A function with its variable, whose name and level are its own, and its body.
    Function(Variable, usize),
}

impl Form {
    /// The numbers of the forms that this one depends on directly.
    pub fn dependencies(&self) -> Vec<usize> {
        match self {
            Form::Member(_, operands) => operands.clone(),
            Form::Function(_, body) => vec![*body],
            _ => Vec::new(),
        }
    }

    /// Whether the form begins unworked. The others are worked out from the start
    /// and never count.
    pub fn needs_work(&self) -> bool {
        matches!(self, Form::Member(..) | Form::Function(..))
    }
}

/// The forms held, by number.
#[derive(Clone, PartialEq, Eq, Debug, Default)]
pub struct Forms {
    pub list: Vec<Form>,
}

impl Forms {
    /// The number of a form; a form not yet held takes the next number.
    pub fn number(&mut self, form: Form) -> usize {
        match self.list.iter().position(|held| *held == form) {
            Some(number) => number,
            None => {
                self.list.push(form);
                self.list.len() - 1
            }
        }
    }

    /// The form of this number and all that its dependencies, and theirs in turn,
    /// reach, lowest first.
    pub fn at_or_below(&self, number: usize) -> BTreeSet<usize> {
        let mut reached = BTreeSet::new();
        self.reach(number, &mut reached);
        reached
    }

    fn reach(&self, number: usize, reached: &mut BTreeSet<usize>) {
        if reached.insert(number) {
            for dependency in self.list[number].dependencies() {
                self.reach(dependency, reached);
            }
        }
    }
}
