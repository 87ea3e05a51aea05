//! How deep runs of functions stand in one another, and what each run works out again.
//! docs/NESTING.md has the least parts that a text needs for a depth.

use crate::form::{Form, Forms};
use crate::member::Kind;
use crate::name::Variable;
use std::collections::BTreeSet;

/// For each form, the most runs that are under way at once when it is worked out
/// from its dependencies: its own, and within it those of the forms that await the
/// variable which it sets. Other forms keep their results during the run.
pub fn nesting(forms: &Forms) -> Vec<u32> {
    let awaited = awaited(forms);
    let mut nested: Vec<u32> = Vec::new();
    for form in &forms.list {
        let inner = function_run(form, forms).map(|(variable, body)| {
            let again = worked_again(forms, &awaited, variable, body);
            1 + again.into_iter().map(|number| nested[number]).max().unwrap_or(0)
        });
        nested.push(inner.unwrap_or(0));
    }
    nested
}

/// What a run works out again for each reading, its variable not counted.
#[derive(Clone, Copy, PartialEq, Eq, Debug)]
pub enum Again {
    /// So many members, none of which takes a function.
    Members(usize),
    /// A function, or a member that takes one, among others.
    Functions,
}

/// For each form that runs a function over a window, what it works out again.
pub fn again(forms: &Forms) -> Vec<Option<Again>> {
    let awaited = awaited(forms);
    let of_run = |form: &Form| {
        let (variable, body) = function_run(form, forms)?;
        let mut again = worked_again(forms, &awaited, variable, body);
        again.retain(|number| !matches!(forms.list[*number], Form::Variable(_)));
        let are_plain = again.iter().all(|number| is_plain(&forms.list[*number]));
        Some(if are_plain { Again::Members(again.len()) } else { Again::Functions })
    };
    forms.list.iter().map(of_run).collect()
}

/// Whether a form is a member that takes no function.
fn is_plain(form: &Form) -> bool {
    matches!(form, Form::Member(member, _) if member.argument() != Some(Kind::Function))
}

/// The variable and body of the function that a form runs over a window.
fn function_run(form: &Form, forms: &Forms) -> Option<(Variable, usize)> {
    let Form::Member(member, operands) = form else { return None };
    let is_run = member.argument() == Some(Kind::Function);
    match operands[..] {
        [receiver, argument] if is_run && is_window(&forms.list[receiver]) => {
            match forms.list[argument] {
                Form::Function(variable, body) => Some((variable, body)),
                _ => None,
            }
        }
        _ => None,
    }
}

/// Whether a form can come to a window.
fn is_window(form: &Form) -> bool {
    match form {
        Form::Data => true,
        Form::Member(member, _) => member.result() == Kind::Window,
        _ => false,
    }
}

/// The variables that each form awaits.
fn awaited(forms: &Forms) -> Vec<BTreeSet<Variable>> {
    let mut awaited: Vec<BTreeSet<Variable>> = Vec::new();
    for form in &forms.list {
        let below = form.dependencies().into_iter().flat_map(|number| awaited[number].clone());
        let mut variables: BTreeSet<Variable> = below.collect();
        match form {
            Form::Variable(variable) => variables.extend([*variable]),
            Form::Function(own, _) => variables.retain(|variable| variable != own),
            _ => (),
        }
        awaited.push(variables);
    }
    awaited
}

/// The forms that a run of a body works out again: those that it reaches through
/// forms that await the variable.
fn worked_again(
    forms: &Forms,
    awaited: &[BTreeSet<Variable>],
    variable: Variable,
    body: usize,
) -> BTreeSet<usize> {
    let mut reached = BTreeSet::new();
    let mut next = vec![body];
    while let Some(number) = next.pop() {
        if awaited[number].contains(&variable) && reached.insert(number) {
            next.extend(forms.list[number].dependencies());
        }
    }
    reached
}
