//! Evaluation of let-free forms over a recording: Figure 5, as 01 mends it.
//!
//! Running a function puts a number for its variable, by name and level, in its body, by
//! substitution.
//! The substituted forms are added behind the others for the time of the run. What a
//! form shows depends on the form and the recording alone, so within one evaluation
//! each form is looked at once, however often it is shared.

use crate::form::{Form, Forms};
use crate::member::Member;
use crate::name::Variable;
use crate::rule::{Rule, fit};
use crate::shown::{Reason, Shown, UNBOUND_NAME, WRONG_KIND, Window};
use std::collections::HashMap;

/// What a form comes to: what it shows, or the variables that it awaits, by first
/// occurrence in the let-free form. Two variables of one name are two.
#[derive(Clone)]
enum Outcome {
    Shown(Shown),
    Delayed(Vec<Variable>),
}

/// One evaluation over a recording.
pub struct Evaluation<'a> {
    recording: &'a [i32],
    /// The forms held, then those made by the runs under way.
    forms: Vec<Form>,
    /// For each form what it comes to, once that is known.
    outcomes: Vec<Option<Outcome>>,
}

impl<'a> Evaluation<'a> {
    pub fn new(forms: &Forms, recording: &'a [i32]) -> Evaluation<'a> {
        let outcomes = vec![None; forms.list.len()];
        Evaluation { recording, forms: forms.list.clone(), outcomes }
    }

    /// What the form of this number shows. A delayed one shows the names of the variables
    /// that it awaits: two of one spelling show it twice.
    pub fn show(&mut self, number: usize) -> Shown {
        match self.outcome(number) {
            Outcome::Shown(shown) => shown,
            Outcome::Delayed(awaited) => {
                Shown::Delayed(awaited.iter().map(|variable| variable.name).collect())
            }
        }
    }

    fn outcome(&mut self, number: usize) -> Outcome {
        if let Some(outcome) = &self.outcomes[number] {
            return outcome.clone();
        }
        let outcome = match self.forms[number].clone() {
            Form::Number(value) => Outcome::Shown(Shown::Number(value)),
            Form::Variable(variable) => Outcome::Delayed(vec![variable]),
            Form::Unbound(_) => Outcome::Shown(Shown::Missing(UNBOUND_NAME)),
            Form::Data => {
                let length = self.recording.len();
                Outcome::Shown(Shown::Window(Window { start: 0, length }))
            }
            Form::Function(variable, body) => self.function(variable, body),
            Form::Member(member, operands) => self.member(member, &operands),
        };
        self.outcomes[number] = Some(outcome.clone());
        outcome
    }

    /// A function with a missing body is missing. One whose body awaits other variables
    /// than its own is delayed by those.
    fn function(&mut self, variable: Variable, body: usize) -> Outcome {
        let mut awaited = match self.outcome(body) {
            Outcome::Shown(Shown::Missing(reason)) => {
                return Outcome::Shown(Shown::Missing(reason));
            }
            Outcome::Shown(_) => Vec::new(),
            Outcome::Delayed(awaited) => awaited,
        };
        awaited.retain(|other| *other != variable);
        if awaited.is_empty() {
            Outcome::Shown(Shown::Function(variable.name))
        } else {
            Outcome::Delayed(awaited)
        }
    }

    /// First the reason of the first missing dependency, then the delay, then the
    /// kinds, then the rule.
    fn member(&mut self, member: Member, operands: &[usize]) -> Outcome {
        let outcomes: Vec<Outcome> =
            operands.iter().map(|operand| self.outcome(*operand)).collect();
        if let Some(reason) = first_missing(&outcomes) {
            return Outcome::Shown(Shown::Missing(reason));
        }
        let awaited = awaited_variables(&outcomes);
        if !awaited.is_empty() {
            return Outcome::Delayed(awaited);
        }
        let shown: Vec<Shown> = operands.iter().map(|operand| self.show(*operand)).collect();
        match self.apply(member, operands, &shown) {
            Ok(result) => Outcome::Shown(result),
            Err(reason) => Outcome::Shown(Shown::Missing(reason)),
        }
    }

    /// Applies a member's rule. Operands of any other kinds than the rule takes are
    /// reason 2, whichever of them comes first.
    fn apply(
        &mut self,
        member: Member,
        operands: &[usize],
        shown: &[Shown],
    ) -> Result<Shown, Reason> {
        let exact = match (member.rule(), shown) {
            (Rule::Cut(rule), [Shown::Window(window), Shown::Number(n)]) => {
                return Ok(Shown::Window(rule(*window, *n)));
            }
            (Rule::Numbers(rule), [Shown::Number(left), Shown::Number(right)]) => {
                rule(i64::from(*left), i64::from(*right))?
            }
            (Rule::Readings(rule), [Shown::Window(window)]) => rule(self.readings(*window))?,
            (Rule::ReadingsAndNumber(rule), [Shown::Window(window), Shown::Number(n)]) => {
                rule(self.readings(*window), *n)?
            }
            (Rule::Runs(rule), [Shown::Window(window), Shown::Function(_)]) => {
                rule(&self.run_over(operands[1], *window)?)?
            }
            _ => return Err(WRONG_KIND),
        };
        Ok(Shown::Number(fit(exact)?))
    }

    fn readings(&self, window: Window) -> &'a [i32] {
        &self.recording[window.start..window.start + window.length]
    }

    /// What a function gives for each reading of a window. Runs go by reading, and
    /// the first one without a number decides.
    fn run_over(&mut self, function: usize, window: Window) -> Result<Vec<i32>, Reason> {
        let Form::Function(variable, body) = self.forms[function] else {
            unreachable!("only a function form shows a function");
        };
        let readings = self.readings(window).iter();
        readings.map(|reading| self.run(variable, body, *reading)).collect()
    }

    /// One run: the body with the reading put for the variable. The forms made for
    /// it are dropped afterwards.
    fn run(&mut self, variable: Variable, body: usize, reading: i32) -> Result<i32, Reason> {
        let held = self.forms.len();
        let replaced = self.substitute(body, variable, reading, &mut HashMap::new());
        let shown = self.show(replaced);
        self.forms.truncate(held);
        self.outcomes.truncate(held);
        match shown {
            Shown::Number(value) => Ok(value),
            Shown::Missing(reason) => Err(reason),
            _ => Err(WRONG_KIND),
        }
    }

    /// The number of the form with `value` put for the variable. A form in which the
    /// variable isn't free stays as it is. `done` has the shared forms
    /// already replaced in this run.
    fn substitute(
        &mut self,
        number: usize,
        variable: Variable,
        value: i32,
        done: &mut HashMap<usize, usize>,
    ) -> usize {
        if let Some(replaced) = done.get(&number) {
            return *replaced;
        }
        let form = self.forms[number].clone();
        let replaced = match &form {
            Form::Variable(other) if *other == variable => Form::Number(value),
            // In a function of the same variable it is that function's own.
            Form::Function(other, body) if *other != variable => {
                Form::Function(*other, self.substitute(*body, variable, value, done))
            }
            Form::Member(member, operands) => {
                let each = |operand: &usize| self.substitute(*operand, variable, value, done);
                Form::Member(*member, operands.iter().map(each).collect())
            }
            _ => form.clone(),
        };
        let result = if replaced == form { number } else { self.add_for_run(replaced) };
        done.insert(number, result);
        result
    }

    fn add_for_run(&mut self, form: Form) -> usize {
        self.forms.push(form);
        self.outcomes.push(None);
        self.forms.len() - 1
    }
}

/// The reason of the first missing dependency, receiver first.
fn first_missing(outcomes: &[Outcome]) -> Option<Reason> {
    outcomes.iter().find_map(|outcome| match outcome {
        Outcome::Shown(Shown::Missing(reason)) => Some(*reason),
        _ => None,
    })
}

/// The variables that dependencies await, by first occurrence.
fn awaited_variables(outcomes: &[Outcome]) -> Vec<Variable> {
    let mut variables = Vec::new();
    for variable in outcomes.iter().flat_map(awaited_by) {
        if !variables.contains(variable) {
            variables.push(*variable);
        }
    }
    variables
}

fn awaited_by(outcome: &Outcome) -> &[Variable] {
    match outcome {
        Outcome::Delayed(variables) => variables,
        _ => &[],
    }
}
