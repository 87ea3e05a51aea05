//! How often each kind of answer came, what each member's rule came to, what runs worked out
//! again and why texts were not printed, so that tests over random calls can ask for enough of
//! each.

use crate::bind::bind;
use crate::eval::Evaluation;
use crate::form::{Form, Forms};
use crate::limits::TEXT_BYTES;
use crate::member::{Kind, Member};
use crate::model::{Answer, Call, Model};
use crate::nesting::{Again, again};
use crate::print::{Fault, print, written};
use crate::refusal::{LAMBDA_NAME_REPEATED, OTHER_FORM, Refusal, TEXT_TOO_LONG};
use crate::shown::{OUTSIDE_WINDOW, Shown, UNBOUND_NAME};
use crate::syntax::parse;
use std::collections::BTreeMap;

/// Numbers that never come up in a session: 4, an ill-formed cache, and 11.
const NEVER: [u8; 2] = [4, LAMBDA_NAME_REPEATED];

type Counts<Key> = BTreeMap<Key, usize>;

#[derive(Default, Debug)]
pub struct Tally {
    /// Answers, as `edited`, `refused 5` or `missing 2`.
    answers: Counts<String>,
    /// Results of rules, by the member's name.
    rules: Counts<(&'static str, String)>,
    /// Runs over a reading or more, by what they work out again.
    runs: Counts<&'static str>,
    /// What printing a form came to, as `Room` or `Declined(12)`.
    prints: Counts<String>,
}

impl Tally {
    pub fn count(&mut self, answer: &Answer) {
        *self.answers.entry(label(answer)).or_default() += 1;
    }

    /// Counts what an evaluation (02, T-07) came to.
    pub fn count_evaluated(&mut self, answer: Result<&Shown, Refusal>) {
        let label = match answer {
            Ok(shown) => shown_label(shown),
            Err(refusal) => format!("refused {}", refusal.number),
        };
        *self.answers.entry(label).or_default() += 1;
    }

    /// Counts what a member shows by its own rule. With a dependency that is missing or
    /// delayed no rule is applied.
    pub fn count_rule(&mut self, member: Member, operands: &[Shown], shown: &Shown) {
        let is_there = |operand: &Shown| !matches!(operand, Shown::Missing(_) | Shown::Delayed(_));
        if operands.iter().all(is_there) {
            *self.rules.entry((member.name(), shown_label(shown))).or_default() += 1;
        }
        if member.name() == "div" && is_rounded_below_0(operands, shown) {
            *self.rules.entry((member.name(), ROUNDED_BELOW_0.into())).or_default() += 1;
        }
        if let Some(label) = from_the_end(member, operands) {
            *self.rules.entry((member.name(), label.into())).or_default() += 1;
        }
    }

    /// Counts what the marked members show by their rules, and their runs.
    pub fn count_rules(&mut self, model: &Model) {
        let again = again(model.forms());
        let mut evaluation = Evaluation::new(model.forms(), model.recording());
        for (number, shown) in model.marks() {
            if let Form::Member(member, operands) = &model.forms().list[*number] {
                let kept = |operand: &usize| model.marks().get(operand).cloned();
                let operands: Vec<Shown> = operands
                    .iter()
                    .map(|operand| kept(operand).unwrap_or_else(|| evaluation.show(*operand)))
                    .collect();
                self.count_rule(*member, &operands, shown);
                self.count_run(again[*number], &operands);
            }
        }
    }

    fn count_run(&mut self, again: Option<Again>, operands: &[Shown]) {
        if let (Some(again), [Shown::Window(window), Shown::Function(_)]) = (again, operands)
            && window.length > 0
        {
            *self.runs.entry(again_label(again)).or_default() += 1;
        }
    }

    /// Counts what printing comes to, if the call is a print of a form that is held.
    pub fn count_print(&mut self, model: &Model, call: &Call) {
        if let Call::Print { entry, bytes, enough: true } = call
            && model.form(*entry).is_some()
        {
            let label = match print(model.forms(), *entry as usize, bytes.len()) {
                Ok(text) if text.len() == bytes.len() => "no byte left".into(),
                Ok(_) => "bytes left".into(),
                Err(Fault::OtherForm) if differs_in_levels(model.forms(), *entry as usize) => {
                    OTHER_LEVELS.into()
                }
                Err(fault) => format!("{fault:?}"),
            };
            *self.prints.entry(label).or_default() += 1;
        }
    }

    pub fn add(&mut self, other: Tally) {
        add(&mut self.answers, other.answers);
        add(&mut self.rules, other.rules);
        add(&mut self.runs, other.runs);
        add(&mut self.prints, other.prints);
    }

    /// How many answers were counted.
    pub fn total(&self) -> usize {
        self.answers.values().sum()
    }

    /// That all answers of these labels came at least so often.
    pub fn check(&self, labels: &[&str], least: usize) {
        for label in labels {
            let count = self.answers.get(*label).copied().unwrap_or(0);
            assert!(count >= least, "{label} came {count} times: {:?}", self.answers);
        }
    }

    /// That the rules of these members came to these results at least so often.
    pub fn check_rules(&self, rows: &[(&'static str, &str)], least: usize) {
        for (member, label) in rows {
            let count = self.rules.get(&(*member, label.to_string())).copied().unwrap_or(0);
            assert!(count >= least, "{member}: {label} came {count} times: {:?}", self.rules);
        }
    }

    /// That runs of each label came at least so often.
    pub fn check_runs(&self, least: usize) {
        for label in RUNS {
            let count = self.runs.get(label).copied().unwrap_or(0);
            assert!(count >= least, "{label} came {count} times: {:?}", self.runs);
        }
    }

    /// That printing came to each of these results at least so often.
    pub fn check_prints(&self, labels: &[&str], least: usize) {
        for label in labels {
            let count = self.prints.get(*label).copied().unwrap_or(0);
            assert!(count >= least, "{label} came {count} times: {:?}", self.prints);
        }
    }

    /// That numbers which never come up did not.
    pub fn check_never(&self) {
        for number in NEVER {
            assert_eq!(self.answers.get(&format!("refused {number}")), None);
            assert_eq!(self.prints.get(&format!("Declined({number})")), None);
        }
    }

    /// That each answer to a session's calls came at least `least` times, and so did runs of
    /// each label and each result of printing; and each result of a member at least
    /// `least_rules` times: a number or a window, and those in the list.
    pub fn check_all(&self, least: usize, least_rules: usize) {
        self.check_never();
        let refused = (TEXT_TOO_LONG..=OTHER_FORM).filter(|number| !NEVER.contains(number));
        let refused = refused.map(|number| format!("refused {number}"));
        let missing = (UNBOUND_NAME..=OUTSIDE_WINDOW).map(|reason| format!("missing {reason}"));
        for label in refused.chain(missing) {
            self.check(&[&label], least);
        }
        self.check(&["opened", "edited", "not yet", "number", "window", "function"], least);
        self.check(&["delayed 1", "delayed 2", DELAYED_TWICE, "printed"], least);
        self.check_prints(PRINTS, least);
        for member in Member::all() {
            let is_window = member.result() == Kind::Window;
            let label = if is_window { "window" } else { "number" };
            self.check_rules(&[(member.name(), label)], least_rules);
        }
        self.check_rules(RESULTS, least_rules);
        self.check_runs(least);
    }
}

/// Reasons that rules give by themselves, other than 2, quotients that are rounded, and
/// counts from the end.
const RESULTS: &[(&str, &str)] = &[
    ("add", "missing 4"),
    ("sub", "missing 4"),
    ("mul", "missing 4"),
    ("div", "missing 3"),
    ("div", ROUNDED_BELOW_0),
    ("skip", FROM_THE_END),
    ("skip", PAST_THE_FIRST),
    ("take", FROM_THE_END),
    ("take", PAST_THE_FIRST),
    ("at", FROM_THE_END),
    ("at", PAST_THE_FIRST),
    ("sum", "missing 4"),
    ("min", "missing 5"),
    ("max", "missing 5"),
    ("at", "missing 5"),
    ("sumBy", "missing 4"),
    ("bestSum", "missing 4"),
    ("bestSum", "missing 5"),
    ("bestAt", "missing 5"),
];

/// What runs work out again: up to two members, more of them, or functions and runs.
const RUNS: [&str; 3] = ["few members again", "many members again", "functions again"];

fn again_label(again: Again) -> &'static str {
    match again {
        Again::Members(0..=2) => RUNS[0],
        Again::Members(_) => RUNS[1],
        Again::Functions => RUNS[2],
    }
}

/// Not printed, for levels alone: by their names the text would be read as the form.
pub const OTHER_LEVELS: &str = "OtherForm in levels";

/// Awaiting two variables of one name.
pub const DELAYED_TWICE: &str = "delayed 2 of one name";

/// What printing a form can come to. The reader declines no printed text with 5 to 9, or
/// with 11.
pub const PRINTS: &[&str] = &[
    "no byte left",
    "bytes left",
    "Room",
    "Declined(1)",
    "Declined(10)",
    "Declined(12)",
    "OtherForm",
    OTHER_LEVELS,
];

fn add<Key: Ord>(counts: &mut Counts<Key>, others: Counts<Key>) {
    for (key, count) in others {
        *counts.entry(key).or_default() += count;
    }
}

/// A count from the end of a window, within it.
pub const FROM_THE_END: &str = "from the end";

/// A count from the end of a window that has fewer readings.
pub const PAST_THE_FIRST: &str = "from the end, past the first";

fn from_the_end(member: Member, operands: &[Shown]) -> Option<&'static str> {
    match operands {
        [Shown::Window(window), Shown::Number(n @ ..0)] if member.counts_from_the_end() => {
            let is_within = n.unsigned_abs() as usize <= window.length;
            Some(if is_within { FROM_THE_END } else { PAST_THE_FIRST })
        }
        _ => None,
    }
}

/// A quotient below 0 that is not exact: rounded towards 0 it would be another.
pub const ROUNDED_BELOW_0: &str = "number rounded below 0";

fn is_rounded_below_0(operands: &[Shown], quotient: &Shown) -> bool {
    match (operands, quotient) {
        ([Shown::Number(a), Shown::Number(b)], Shown::Number(q)) => {
            *q < 0 && i64::from(*q) * i64::from(*b) != i64::from(*a)
        }
        _ => false,
    }
}

fn label(answer: &Answer) -> String {
    match answer {
        Answer::Opened => "opened".into(),
        Answer::Edited { .. } => "edited".into(),
        Answer::NotYet { .. } => "not yet".into(),
        Answer::Refused { number, .. } => format!("refused {number}"),
        Answer::Finished { shown, .. } => shown_label(shown),
        Answer::Printed { .. } => "printed".into(),
    }
}

fn shown_label(shown: &Shown) -> String {
    match shown {
        Shown::Number(_) => "number".into(),
        Shown::Window(_) => "window".into(),
        Shown::Function(_) => "function".into(),
        Shown::Delayed(names) if names.len() == 2 && names[0] == names[1] => DELAYED_TWICE.into(),
        Shown::Delayed(names) => format!("delayed {}", names.len()),
        Shown::Missing(reason) => format!("missing {reason}"),
    }
}

/// Whether the text of a form, read by itself, has the same form but for its levels.
fn differs_in_levels(forms: &Forms, number: usize) -> bool {
    let text = written(forms, number, TEXT_BYTES).expect("a text that was read");
    let read = parse(text.as_bytes()).expect("a text that was read");
    let mut forms = forms.clone();
    let other = bind(&read, &mut forms).whole;
    is_same_by_names(&forms, number, other)
}

fn is_same_by_names(forms: &Forms, one: usize, other: usize) -> bool {
    let (first, second) = (&forms.list[one], &forms.list[other]);
    let are_alike = match (first, second) {
        (Form::Variable(first), Form::Variable(second)) => first.name == second.name,
        (Form::Function(first, _), Form::Function(second, _)) => first.name == second.name,
        (Form::Member(first, _), Form::Member(second, _)) => first == second,
        _ => first == second,
    };
    let below = first.dependencies().into_iter().zip(second.dependencies());
    are_alike && below.into_iter().all(|(one, other)| is_same_by_names(forms, one, other))
}
