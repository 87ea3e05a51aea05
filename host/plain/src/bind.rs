//! Binding: from a tree to let-free forms.
//!
//! Instead of rewriting the text, the binder carries a scope that gives each name's
//! meaning. A let's value is bound once, in the scope where the let stands, and each
//! use of the let's name means that form. So a name in the value means what it meant
//! there, and is marked unbound there: no lambda around a use can capture it. This is
//! the capture-avoiding substitution of 01. Likewise a lambda in the value has the level
//! of the place where it is written, wherever the let's name is used (02, T-05).

use crate::form::{Form, Forms};
use crate::name::{Name, Variable};
use crate::syntax::{DATA, Expression, Text};

/// What a name in scope means.
enum Meaning {
    /// A let's name: the form of its value.
    Value(usize),
    /// A lambda's name: its variable.
    Variable(Variable),
}

/// A bound text: the whole text's form and each part's form, by number.
#[derive(Clone, PartialEq, Eq, Debug)]
pub struct Bound {
    pub whole: usize,
    pub places: Vec<usize>,
}

/// Binds a text. Forms not yet held are added to `forms`: let value before body,
/// receiver before arguments, dependencies before what uses them, a variable at
/// first use.
pub fn bind(text: &Text, forms: &mut Forms) -> Bound {
    let places = vec![None; text.parts];
    let mut binder = Binder { forms, scope: Vec::new(), lambdas: 0, places };
    let whole = binder.bind(&text.tree);
    let bound_all = "each part has its place";
    let places = binder.places.into_iter().map(|place| place.expect(bound_all)).collect();
    Bound { whole, places }
}

struct Binder<'a> {
    forms: &'a mut Forms,
    /// Names in scope, the innermost last.
    scope: Vec<(Name, Meaning)>,
    /// How many lambdas are written around this point.
    lambdas: usize,
    places: Vec<Option<usize>>,
}

impl Binder<'_> {
    /// The number of an expression's form. Notes the number of each part in it.
    fn bind(&mut self, expression: &Expression) -> usize {
        match expression {
            Expression::Brackets(inner) => self.bind(inner),
            Expression::Number { part, value } => {
                let number = self.forms.number(Form::Number(*value));
                self.note(*part, number)
            }
            Expression::Name { part, name } => {
                let number = self.meaning(*name);
                self.note(*part, number)
            }
            Expression::Let { part, name, value, body } => {
                // The name is not in scope in its own value: let isn't recursive.
                let value = self.bind(value);
                let number = self.bind_in_scope(*name, Meaning::Value(value), body);
                self.note(*part, number)
            }
            Expression::Lambda { part, name, body } => {
                let variable = Variable { name: *name, level: self.lambdas };
                self.lambdas += 1;
                let body = self.bind_in_scope(*name, Meaning::Variable(variable), body);
                self.lambdas -= 1;
                let number = self.forms.number(Form::Function(variable, body));
                self.note(*part, number)
            }
            Expression::Call { part, member, operands } => {
                let operands = operands.iter().map(|operand| self.bind(operand)).collect();
                let number = self.forms.number(Form::Member(*member, operands));
                self.note(*part, number)
            }
        }
    }

    /// Binds a body in which a name has this meaning, hiding any outer one.
    fn bind_in_scope(&mut self, name: Name, meaning: Meaning, body: &Expression) -> usize {
        self.scope.push((name, meaning));
        let number = self.bind(body);
        self.scope.pop();
        number
    }

    /// The number of the form that a name in use means.
    fn meaning(&mut self, name: Name) -> usize {
        if Some(name) == Name::new(DATA) {
            return self.forms.number(Form::Data);
        }
        match self.scope.iter().rev().find(|(bound, _)| *bound == name) {
            Some((_, Meaning::Value(number))) => *number,
            Some((_, Meaning::Variable(variable))) => self.forms.number(Form::Variable(*variable)),
            None => self.forms.number(Form::Unbound(name)),
        }
    }

    fn note(&mut self, part: usize, number: usize) -> usize {
        self.places[part] = Some(number);
        number
    }
}
