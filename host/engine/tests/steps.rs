//! The header's steps: those of every entry, and the most at or below it, are what their
//! definition gives for the plain evaluator's forms. It is followed here with sets, and with
//! numbers wide enough for every sum.

mod script;

use engine::program::{check, linked};
use plain::form::{Form, Forms};
use plain::member::{Kind, Member};
use plain::name::Variable;
use plain::samples::previews;
use plain::samples::taken::{doubled, nested_runs};
use script::{Script, program, random_texts};
use std::collections::{BTreeMap, BTreeSet};
use std::path::Path;
use std::process::Command;

/// How many readings the recordings have.
const READINGS: [u64; 5] = [0, 1, 7, 240, 1024];

/// The steps of beginning a frame of the stack.
const FRAME: u128 = 40;

const MOST: u64 = u64::MAX;

/// Texts with the steps of their whole entry over each of the recordings.
const KNOWN: &[(&str, [u64; 5])] = &[
    ("7", [0; 5]),
    ("data", [0; 5]),
    ("7.add(x)", [1; 5]),
    ("data.count()", [1; 5]),
    ("data.skip(1)", [2; 5]),
    ("data.take(1)", [2; 5]),
    ("data.at(0)", [2; 5]),
    // 1 + r / 32
    ("data.sum()", [1, 2, 2, 9, 33]),
    ("data.take(1).min()", [1, 2, 2, 9, 33]),
    ("data.max()", [1, 2, 2, 9, 33]),
    // 1 + r / 8
    ("data.bestSum(3)", [1, 2, 2, 31, 129]),
    ("data.bestAt(3)", [1, 2, 2, 31, 129]),
    // a function: 1, and for a body that awaits its variable a frame and the body besides
    (r"\a -> 1", [1; 5]),
    (r"\a -> a", [41; 5]),
    (r"\a -> a.add(a)", [42; 5]),
    (r"\a -> data.sum().add(a)", [42; 5]),
    // the body of p: the inner function, 42, and p.add(q)
    (r"\p -> \q -> p.add(q)", [84; 5]),
    (r"\p -> \q -> q", [1; 5]),
    (r"\p -> \q -> p", [42; 5]),
    // 41 + r
    (r"data.sumBy(\a -> 1)", [41, 42, 48, 281, 1065]),
    (r"data.sumBy(\a -> a)", [41, 42, 48, 281, 1065]),
    (r"data.sumBy(\a -> data.sum())", [41, 42, 48, 281, 1065]),
    // 41 + 2 r
    (r"data.countWhere(\b -> b.gt(150))", [41, 43, 55, 521, 2089]),
    (r"data.take(3).longestRun(\b -> b.gt(150))", [41, 43, 55, 521, 2089]),
    (r"data.sumBy(\b -> b.add(data.sum()))", [41, 43, 55, 521, 2089]),
    // 41 + 3 r: b.mul(b) once
    (r"data.sumBy(\b -> b.mul(b).add(b.mul(b)))", [41, 44, 62, 761, 3113]),
    // 41 + 4 r: each let once
    (
        r"data.sumBy(\b -> let x = b.add(b) in let y = x.add(x) in y.add(y))",
        [41, 45, 69, 1001, 4137],
    ),
    // 41 + 3 r for the distance from a mean, which awaits nothing
    (
        r"let mean = data.sum().div(data.count()) in data.sumBy(\b -> let d = b.sub(mean) in d.mul(d))",
        [41, 44, 62, 761, 3113],
    ),
    // two windows, a sum and a maximum, and an addition: 41 + (1 + 2 + 2 + 2 (1 + r / 32) + 1) r
    (r"data.sumBy(\b -> data.skip(b).sum().add(data.take(b).max()))", [41, 51, 111, 5_801, 73_769]),
    // q.gt(p), its function and its run: 41 + (1 + 1 + 42 + 41 + 2 r) r
    (r"data.sumBy(\p -> data.countWhere(\q -> q.gt(p)))", [41, 128, 734, 135_641, 2_184_233]),
    // the inner run awaits nothing: 41 + 2 r
    (r"data.sumBy(\p -> p.add(data.countWhere(\q -> q.gt(1))))", [41, 43, 55, 521, 2089]),
    // two runs of one function: 41 + (1 + 1 + 42 + 2 (41 + 2 r) + 1) r
    (
        r"data.sumBy(\p -> let f = \q -> q.gt(p) in data.countWhere(f).add(data.longestRun(f)))",
        [41, 172, 1_126, 260_921, 4_324_393],
    ),
    // a mean of a window by p, and the distance from it: take, sum, count, div, sub and mul, the
    // function and its run: 41 + (1 + 2 + 1 + r / 32 + 4 + 43 + 41 + 3 r) r
    (
        r"data.sumBy(\p -> let w = data.take(p) in let mean = w.sum().div(w.count()) in
            w.sumBy(\b -> let d = b.sub(mean) in d.mul(d)))",
        [41, 137, 839, 196_841, 3_272_745],
    ),
    // no run: a function, but no window; a window, but no function; a member that runs none
    (r"1.sumBy(\q -> q)", [1; 5]),
    ("data.sumBy(3)", [1; 5]),
    (r"data.bestSum(\q -> q)", [1, 2, 2, 31, 129]),
    // p.add(q), its function, and the member: 41 + (1 + 1 + 42 + 1) r
    (r"data.sumBy(\p -> p.sumBy(\q -> p.add(q)))", [41, 86, 356, 10_841, 46_121]),
    // the inner lambda hides the outer one, whose variable the inner run doesn't await
    (r"data.sumBy(\a -> data.sumBy(\a -> a).add(a))", [41, 43, 55, 521, 2089]),
    // it awaits the outer one by a let between them
    (
        r"data.sumBy(\a -> let x = a in data.sumBy(\a -> a.add(x)))",
        [41, 128, 734, 135_641, 2_184_233],
    ),
    // a.add(1) is of f, which the outer run leaves as it is: 41 + (1 + 2 + 41 + 2 r) r
    (
        r"let f = \a -> a.add(1) in data.sumBy(\a -> data.take(a).sumBy(f))",
        [41, 87, 447, 125_801, 2_142_249],
    ),
    // here the outer body has it too: 41 + 3 r
    (
        r"let f = \a -> a.add(1) in data.sumBy(\a -> data.sumBy(f).add(a.add(1)))",
        [41, 44, 62, 761, 3113],
    ),
];

/// The same for texts that are put together. In the nests each body is a window, 2, and a run of
/// the body before it, 41 + r (1 + x), the first being a run and a function, 42 + r.
fn put_together() -> Vec<(String, [u64; 5])> {
    let ten_times = format!(r"data.sumBy(\b -> {})", doubled("b", 10, "LAST"));
    vec![
        (ten_times, [41, 52, 118, 2_681, 11_305]),
        (nested_runs(2), [41, 85, 391, 67_961, 1_092_649]),
        (nested_runs(21), [41, 921, 4_574_756_601_063_088_047, MOST, MOST]),
        (nested_runs(22), [41, 965, MOST, MOST, MOST]),
    ]
}

/// The steps of forms over so many readings.
struct Count<'a> {
    forms: &'a Forms,
    readings: u128,
    steps: Vec<u64>,
    /// For each variable the forms that await it.
    awaiting: BTreeMap<Variable, BTreeSet<usize>>,
}

/// The steps of each form.
fn steps(forms: &Forms, readings: u64) -> Vec<u64> {
    let variables = forms.list.iter().filter_map(|form| match form {
        Form::Variable(variable) => Some((*variable, awaiting(forms, *variable))),
        _ => None,
    });
    let awaiting = variables.collect();
    let mut count = Count { forms, readings: readings.into(), steps: Vec::new(), awaiting };
    for form in &forms.list {
        let steps = count.of(form).min(MOST.into());
        count.steps.push(steps as u64);
    }
    count.steps
}

/// The forms that await a variable.
fn awaiting(forms: &Forms, variable: Variable) -> BTreeSet<usize> {
    let mut awaiting = BTreeSet::new();
    for (number, form) in forms.list.iter().enumerate() {
        let awaits = match form {
            Form::Variable(own) => *own == variable,
            Form::Function(own, body) => *own != variable && awaiting.contains(body),
            _ => form.dependencies().iter().any(|below| awaiting.contains(below)),
        };
        if awaits {
            awaiting.insert(number);
        }
    }
    awaiting
}

impl Count<'_> {
    fn of(&self, form: &Form) -> u128 {
        match form {
            Form::Function(variable, body) => match self.again(*variable, *body) {
                Some(body) => 1 + FRAME + body,
                None => 1,
            },
            Form::Member(member, operands) => match self.function_run(*member, operands) {
                Some((variable, body)) => {
                    let body = self.again(variable, body).unwrap_or(0);
                    1 + FRAME + self.readings * (1 + body)
                }
                None => self.of_member(*member),
            },
            _ => 0,
        }
    }

    fn of_member(&self, member: Member) -> u128 {
        match member.name() {
            "skip" | "take" | "at" => 2,
            "sum" | "min" | "max" => 1 + self.readings.div_ceil(32),
            "bestSum" | "bestAt" => 1 + self.readings.div_ceil(8),
            _ => 1,
        }
    }

    /// The variable and body of the function that a member runs over what can be a window.
    fn function_run(&self, member: Member, operands: &[usize]) -> Option<(Variable, usize)> {
        let forms = &self.forms.list;
        let is_window = match &forms[operands[0]] {
            Form::Data => true,
            Form::Member(member, _) => member.result() == Kind::Window,
            _ => false,
        };
        match forms.get(*operands.get(1)?)? {
            Form::Function(variable, body)
                if is_window && member.argument() == Some(Kind::Function) =>
            {
                Some((*variable, *body))
            }
            _ => None,
        }
    }

    /// The steps of what is worked out again in a body when a variable is set, if the body awaits
    /// it: of the forms that await it, those that the body reaches through one another, without
    /// the variable.
    fn again(&self, variable: Variable, body: usize) -> Option<u128> {
        let awaiting = self.awaiting.get(&variable).filter(|awaiting| awaiting.contains(&body))?;
        let mut reached: BTreeSet<usize> = BTreeSet::new();
        let mut next = BTreeSet::from([body]);
        while !next.is_empty() {
            reached.extend(&next);
            let below = next.iter().flat_map(|number| self.forms.list[*number].dependencies());
            next = below.filter(|number| awaiting.contains(number)).collect();
            next.retain(|number| !reached.contains(number));
        }
        // the variable itself has no steps, as every leaf
        Some(reached.into_iter().map(|number| u128::from(self.steps[number])).sum())
    }
}

/// For each form the most steps of one at or below it.
fn most_steps(forms: &Forms, readings: u64) -> Vec<u64> {
    let mut most = steps(forms, readings);
    for (number, form) in forms.list.iter().enumerate() {
        let below = form.dependencies().into_iter().map(|number| most[number]).max();
        most[number] = most[number].max(below.unwrap_or(0));
    }
    most
}

/// steps.c, which is given the number of readings.
fn over(program: &Path, readings: u64) -> Command {
    let mut command = Command::new(program);
    command.arg(readings.to_string());
    command
}

/// The same for the most steps at or below.
fn most_over(program: &Path, readings: u64) -> Command {
    let mut command = over(program, readings);
    command.arg("most");
    command
}

#[test]
fn known_texts() {
    let program = linked(&[check("steps.c")], &program("known_steps"));
    let known = KNOWN.iter().map(|(text, steps)| (text.to_string(), *steps));
    let known: Vec<_> = known.chain(put_together()).collect();
    for (length, readings) in READINGS.into_iter().enumerate() {
        let mut script = Script::new(|forms: &Forms| steps(forms, readings));
        for (text, steps) in &known {
            assert_eq!(script.add(text.as_bytes()), Some(steps[length]), "{readings}: {text}");
            script.open();
        }
        for sample in previews() {
            script.add(sample.text.as_bytes()).expect("a sample is read");
        }
        script.check(&mut over(&program, readings));
    }
}

/// Over the longest recording the texts are of all sizes: with no run, and with runs up to three
/// deep.
#[test]
fn random_texts_of_every_size() {
    let program = linked(&[check("steps.c")], &program("random_steps"));
    for (seed, readings) in (1..).zip(READINGS) {
        let mut script = Script::new(|forms: &Forms| steps(forms, readings));
        let mut most = Script::new(|forms: &Forms| most_steps(forms, readings));
        let mut seen = [0; 4];
        for bytes in random_texts(seed, 4_000) {
            if let Some(steps) = script.add(&bytes) {
                seen[steps.max(1).ilog(1024).min(3) as usize] += 1;
            }
            most.add(&bytes);
        }
        assert!(readings < 1024 || seen.iter().all(|count| *count >= 20), "{seen:?}");
        script.check(&mut over(&program, readings));
        most.check(&mut most_over(&program, readings));
    }
}
