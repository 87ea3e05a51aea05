//! Shared forms against literal trees: names are marked, lets are replaced and
//! functions are run by rewriting trees, as 01 words it. Only small texts fit.
//!
//! A variable of a literal tree belongs to one lambda of the text, by its mark, so nothing
//! can be captured. That a name and a level tell variables apart as well (02, T-05) is what
//! is tested: the trees show the same with their marks and without them.

mod common;

use plain::bind::bind;
use plain::eval::Evaluation;
use plain::form::{Form, Forms};
use plain::member::Member;
use plain::name::{Name, Variable};
use plain::random::formula::{formula, join};
use plain::random::nested::nested;
use plain::random::pasted::pasted;
use plain::random::rng::Rng;
use plain::random::single::single;
use plain::rule::{Rule, fit};
use plain::shown::{Shown, UNBOUND_NAME, WRONG_KIND, Window};
use plain::syntax::{Expression, parse};

/// A lambda's variable, and the part that the lambda is; 0 where the mark is left out, since
/// the first part counts as 1.
type Own = (Variable, usize);

#[derive(Clone, PartialEq, Eq, Debug)]
enum Tree {
    Number(i32),
    /// A name that a let around it binds.
    Bound(Name),
    /// A name that a lambda around it binds.
    Variable(Own),
    Unbound(Name),
    Data,
    Let(Name, Box<Tree>, Box<Tree>),
    Member(Member, Vec<Tree>),
    Function(Own, Box<Tree>),
}

/// The names bound around a point, the innermost last, each with its variable if a lambda
/// binds it; and how many lambdas are around.
#[derive(Clone, Default)]
struct Scope {
    names: Vec<(Name, Option<Own>)>,
    lambdas: usize,
}

impl Scope {
    fn with(&self, name: Name, own: Option<Own>) -> Scope {
        let names = [&self.names[..], &[(name, own)]].concat();
        Scope { names, lambdas: self.lambdas + usize::from(own.is_some()) }
    }

    fn tree(&self, name: Name) -> Tree {
        match self.names.iter().rev().find(|(bound, _)| *bound == name) {
            _ if name == common::name("data") => Tree::Data,
            Some((_, Some(own))) => Tree::Variable(*own),
            Some((_, None)) => Tree::Bound(name),
            None => Tree::Unbound(name),
        }
    }
}

/// The tree with its names marked: as unbound, by a let, or by which lambda.
fn mark(expression: &Expression, scope: &Scope) -> Tree {
    match expression {
        Expression::Number { value, .. } => Tree::Number(*value),
        Expression::Name { name, .. } => scope.tree(*name),
        Expression::Brackets(inner) => mark(inner, scope),
        Expression::Let { name, value, body, .. } => {
            let inner = scope.with(*name, None);
            Tree::Let(*name, mark(value, scope).into(), mark(body, &inner).into())
        }
        Expression::Lambda { part, name, body } => {
            let own = (Variable { name: *name, level: scope.lambdas }, part + 1);
            Tree::Function(own, mark(body, &scope.with(*name, Some(own))).into())
        }
        Expression::Call { member, operands, .. } => {
            let operands = operands.iter().map(|operand| mark(operand, scope));
            Tree::Member(*member, operands.collect())
        }
    }
}

/// The tree with `value` put for a let's name. Nothing is captured: the value has no name of
/// a let left, and its variables are known by their lambdas.
fn put(tree: &Tree, name: Name, value: &Tree) -> Tree {
    match tree {
        Tree::Bound(other) if *other == name => value.clone(),
        Tree::Let(other, bound, body) => {
            let bound = put(bound, name, value).into();
            let is_hidden = *other == name;
            let body = if is_hidden { (**body).clone() } else { put(body, name, value) };
            Tree::Let(*other, bound, body.into())
        }
        Tree::Function(own, body) => Tree::Function(*own, put(body, name, value).into()),
        Tree::Member(member, operands) => {
            let operands = operands.iter().map(|operand| put(operand, name, value));
            Tree::Member(*member, operands.collect())
        }
        _ => tree.clone(),
    }
}

/// The let-free tree with a number put for a variable, but for functions that have it as
/// their own.
fn put_number(tree: &Tree, own: Own, value: i32) -> Tree {
    match tree {
        Tree::Variable(other) if *other == own => Tree::Number(value),
        Tree::Function(other, body) if *other != own => {
            Tree::Function(*other, put_number(body, own, value).into())
        }
        Tree::Member(member, operands) => {
            let operands = operands.iter().map(|operand| put_number(operand, own, value));
            Tree::Member(*member, operands.collect())
        }
        _ => tree.clone(),
    }
}

/// The tree with its lets replaced, the outer first.
fn without_lets(tree: &Tree) -> Tree {
    match tree {
        Tree::Let(name, value, body) => without_lets(&put(body, *name, &without_lets(value))),
        Tree::Function(own, body) => Tree::Function(*own, without_lets(body).into()),
        Tree::Member(member, operands) => {
            Tree::Member(*member, operands.iter().map(without_lets).collect())
        }
        _ => tree.clone(),
    }
}

/// The let-free tree without the marks of its lambdas: names and levels are left.
fn without_marks(tree: &Tree) -> Tree {
    match tree {
        Tree::Variable((variable, _)) => Tree::Variable((*variable, 0)),
        Tree::Function((variable, _), body) => {
            Tree::Function((*variable, 0), without_marks(body).into())
        }
        Tree::Member(member, operands) => {
            Tree::Member(*member, operands.iter().map(without_marks).collect())
        }
        _ => tree.clone(),
    }
}

/// The let-free tree that a form stands for.
fn unfold(forms: &Forms, number: usize) -> Tree {
    match &forms.list[number] {
        Form::Number(value) => Tree::Number(*value),
        Form::Variable(variable) => Tree::Variable((*variable, 0)),
        Form::Unbound(name) => Tree::Unbound(*name),
        Form::Data => Tree::Data,
        Form::Function(variable, body) => {
            Tree::Function((*variable, 0), unfold(forms, *body).into())
        }
        Form::Member(member, operands) => {
            let operands = operands.iter().map(|operand| unfold(forms, *operand));
            Tree::Member(*member, operands.collect())
        }
    }
}

/// The variables awaited in a let-free tree by first occurrence, those in `bound` left out.
fn awaited(tree: &Tree, bound: &[Own], found: &mut Vec<Own>) {
    match tree {
        Tree::Variable(own) if !bound.contains(own) && !found.contains(own) => found.push(*own),
        Tree::Function(own, body) => awaited(body, &[bound, &[*own]].concat(), found),
        Tree::Member(_, operands) => {
            operands.iter().for_each(|operand| awaited(operand, bound, found))
        }
        _ => (),
    }
}

/// The reason of the first missing part, or none: functions too are looked into.
fn show(tree: &Tree, recording: &[i32]) -> Shown {
    let shown = match tree {
        Tree::Number(value) => Shown::Number(*value),
        Tree::Variable((variable, _)) => Shown::Delayed(vec![variable.name]),
        Tree::Unbound(_) => Shown::Missing(UNBOUND_NAME),
        Tree::Data => Shown::Window(Window { start: 0, length: recording.len() }),
        Tree::Let(..) | Tree::Bound(_) => panic!("lets are replaced"),
        Tree::Function((variable, _), body) => match show(body, recording) {
            Shown::Missing(reason) => Shown::Missing(reason),
            _ => Shown::Function(variable.name),
        },
        Tree::Member(member, operands) => show_member(*member, operands, recording),
    };
    let mut found = Vec::new();
    awaited(tree, &[], &mut found);
    match shown {
        Shown::Missing(reason) => Shown::Missing(reason),
        _ if !found.is_empty() => {
            Shown::Delayed(found.iter().map(|(variable, _)| variable.name).collect())
        }
        value => value,
    }
}

/// A member of operands that may be delayed; the caller then takes the delay.
fn show_member(member: Member, operands: &[Tree], recording: &[i32]) -> Shown {
    let shown: Vec<Shown> = operands.iter().map(|operand| show(operand, recording)).collect();
    if let Some(first) = shown.iter().find(|operand| matches!(operand, Shown::Missing(_))) {
        return first.clone();
    }
    if let Some(first) = shown.iter().find(|operand| matches!(operand, Shown::Delayed(_))) {
        return first.clone();
    }
    let part = |window: &Window| &recording[window.start..][..window.length];
    let exact = match (member.rule(), shown.as_slice()) {
        (Rule::Numbers(rule), [Shown::Number(left), Shown::Number(right)]) => {
            rule((*left).into(), (*right).into())
        }
        (Rule::Readings(rule), [Shown::Window(window)]) => rule(part(window)),
        (Rule::ReadingsAndNumber(rule), [Shown::Window(window), Shown::Number(n)]) => {
            rule(part(window), *n)
        }
        (Rule::Runs(rule), [Shown::Window(window), Shown::Function(_)]) => {
            run_over(&operands[1], part(window), recording).and_then(|results| rule(&results))
        }
        (Rule::Cut(rule), [Shown::Window(window), Shown::Number(n)]) => {
            return Shown::Window(rule(*window, *n));
        }
        _ => Err(WRONG_KIND),
    };
    exact.and_then(fit).map_or_else(Shown::Missing, Shown::Number)
}

fn run_over(function: &Tree, readings: &[i32], recording: &[i32]) -> Result<Vec<i32>, u8> {
    let Tree::Function(own, body) = function else {
        panic!("only a function shows a function");
    };
    let run = |reading: &i32| match show(&put_number(body, *own, *reading), recording) {
        Shown::Number(value) => Ok(value),
        Shown::Missing(reason) => Err(reason),
        _ => Err(WRONG_KIND),
    };
    readings.iter().map(run).collect()
}

fn size(tree: &Tree) -> usize {
    match tree {
        Tree::Let(_, value, body) => 1 + size(value) + size(body),
        Tree::Function(_, body) => 1 + size(body),
        Tree::Member(_, operands) => 1 + operands.iter().map(size).sum::<usize>(),
        _ => 1,
    }
}

/// With its marks a tree shows what it shows without them, and so does each tree below it.
fn check_marks(tree: &Tree, recording: &[i32]) {
    assert_eq!(show(tree, recording), show(&without_marks(tree), recording), "{tree:?}");
    match tree {
        Tree::Function(_, body) => check_marks(body, recording),
        Tree::Member(_, operands) => {
            operands.iter().for_each(|operand| check_marks(operand, recording))
        }
        _ => (),
    }
}

/// Compares one text. Gives whether it was taken and small.
fn agrees(text: &[u8], recording: &[i32]) -> bool {
    let Ok(parsed) = parse(text) else {
        return false;
    };
    let mut forms = Forms::default();
    let bound = bind(&parsed, &mut forms);
    let tree = without_lets(&mark(&parsed.tree, &Scope::default()));
    if size(&tree) > 300 || !plain::random::is_affordable(text, recording.len()) {
        return false;
    }
    let text = String::from_utf8_lossy(text);
    assert_eq!(unfold(&forms, bound.whole), without_marks(&tree), "{text}");
    check_marks(&tree, recording);
    let trees: Vec<Tree> = (0..forms.list.len()).map(|number| unfold(&forms, number)).collect();
    let mut evaluation = Evaluation::new(&forms, recording);
    for (number, tree) in trees.iter().enumerate() {
        assert!(!trees[..number].contains(tree), "form {number} of {text} is held twice");
        let shown = evaluation.show(number);
        assert_eq!(shown, show(tree, recording), "form {number} of {text} over {recording:?}");
    }
    true
}

#[test]
fn random_texts_agree_with_literal_substitution() {
    let mut rng = Rng::new(1);
    let mut compared = 0;
    for _ in 0..4000 {
        let tokens = match rng.below(7) {
            0 | 1 => formula(&mut rng),
            2 | 3 => nested(&mut rng),
            4 => single(&mut rng),
            _ => vec![String::from_utf8(pasted(&mut rng)).expect("the texts are ASCII")],
        };
        let text = join(&mut rng, &tokens);
        let recording: Vec<i32> = (0..rng.below(5)).map(|_| rng.reading()).collect();
        compared += usize::from(agrees(&text, &recording));
    }
    assert!(compared > 2000, "{compared}");
}

#[test]
fn chosen_texts_agree_with_literal_substitution() {
    for text in [
        "let h = \\y -> data.skip(1).sumBy(\\x -> y.div(x)) in \
         data.sumBy(\\x -> data.skip(x).sumBy(h))",
        "let y = b in \\b -> y.add(b)",
        "let f = \\a -> a.add(1) in \\a -> data.take(a).sumBy(f)",
        "\\a -> let b = a in let a = b in \\c -> a.add(b).add(c)",
        "\\a -> let y = a in let a = 1 in y.add(a)",
        "let a = a in let b = a in \\a -> b.add(a)",
        "data.sumBy(\\p -> data.take(0).countWhere(\\q -> 1.div(p)))",
        "\\a -> let x = a in \\a -> x.add(a)",
        "data.sumBy(\\a -> let x = a in data.sumBy(\\a -> x.mul(10).add(a)))",
        "data.sumBy(\\a -> data.sumBy(\\a -> a).add(a))",
        "data.sumBy(\\a -> let f = \\b -> a in data.sumBy(\\a -> data.take(a).sumBy(f)))",
        "let f = \\a -> a in data.sumBy(\\a -> data.take(a).sumBy(f).add(data.sumBy(\\a -> a)))",
        "let w = data.skip(1) in data.skip(1).sumBy(\\p -> w.bestSum(p.sub(1)).add(w.bestAt(1)))",
    ] {
        assert!(agrees(text.as_bytes(), &[0, 2, 3]), "{text}");
    }
}

#[test]
fn samples_agree_with_literal_substitution() {
    for sample in plain::samples::previews() {
        assert!(agrees(sample.text.as_bytes(), &plain::samples::RECORDING), "{}", sample.text);
    }
}
