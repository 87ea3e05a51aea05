//! The header's run depth: the deepest nest of runs at an entry or below it, as the plain
//! evaluator finds it in the forms.

mod script;

use engine::memory::first_unknown;
use engine::program::{check, linked, run, sanitized, written};
use plain::form::Forms;
use plain::nesting::nesting;
use plain::samples::previews;
use plain::samples::taken::nested_runs;
use script::{Script, program, random_texts};
use std::process::Command;

/// Runs one after another: no run stands in another.
const MEAN_AND_DISTANCE: &str = r"let mean = data.sumBy(\b -> b).div(data.count()) in
    let far = data.sumBy(\b -> b.sub(mean).mul(b.sub(mean))).div(data.count()) in
    data.countWhere(\b -> b.sub(mean).mul(b.sub(mean)).gt(far))";

/// Texts with the depth of their whole entry.
fn known_depths() -> Vec<(String, u64)> {
    let known = [
        (r"data.sumBy(\p -> data.countWhere(\q -> q.gt(p)))", 2),
        // the inner run awaits nothing, and is worked out before the outer one
        (r"data.sumBy(\p -> p.add(data.countWhere(\q -> q.gt(1))))", 1),
        // a run in a receiver comes before
        (r"data.take(data.sumBy(\p -> p)).sumBy(\p -> p)", 1),
        // the third run awaits p, but not the variable of the second
        (r"let f = \s -> s in data.sumBy(\p -> data.sumBy(\q -> q.add(data.take(p).sumBy(f))))", 2),
        // the third run awaits both variables
        (
            r"let f = \s -> s in data.sumBy(\p -> data.sumBy(\q -> data.skip(p).take(q).sumBy(f)))",
            3,
        ),
        (
            r"let f = \s -> s in data.sumBy(\p -> data.sumBy(\q -> data.skip(q).take(p).sumBy(f)))",
            3,
        ),
        // no window to run over
        (r"data.sumBy(\p -> p.sumBy(\q -> p))", 1),
        (r"1.sumBy(\q -> q)", 0),
        // no function to run
        (r"data.sumBy(\p -> data.sumBy(p))", 1),
        // a function, but no member that runs it
        (r"data.sumBy(\p -> data.bestSum(\q -> q.add(p)))", 1),
        (r"data.bestAt(\q -> q)", 0),
        (r"data.sumBy(\p -> data.bestAt(p))", 1),
        (r"data.take(3).sum()", 0),
        (r"\p -> data.take(p).sumBy(\q -> q)", 1),
        (MEAN_AND_DISTANCE, 1),
        // the inner lambda hides the outer one, whose variable the inner run doesn't await
        (r"data.sumBy(\a -> data.sumBy(\a -> a).add(a))", 1),
        // it awaits the outer one by a let between them, in its window or in its function
        (r"data.sumBy(\a -> let x = a in data.take(x).sumBy(\a -> a))", 2),
        (r"data.sumBy(\a -> let x = a in data.sumBy(\a -> a.add(x)))", 2),
        (
            r"let f = \a -> a in data.sumBy(\a -> let x = a in data.sumBy(\a -> data.skip(x).take(a).sumBy(f)))",
            3,
        ),
    ];
    let texts = known.map(|(text, depth)| (text.to_string(), depth)).into_iter();
    texts.chain([(nested_runs(22), 22)]).collect()
}

/// For each form the deepest nest of runs at it or below it.
fn depths(forms: &Forms) -> Vec<u64> {
    let mut depths: Vec<u64> = nesting(forms).into_iter().map(u64::from).collect();
    for (number, form) in forms.list.iter().enumerate() {
        let below = form.dependencies().into_iter().map(|number| depths[number]).max();
        depths[number] = depths[number].max(below.unwrap_or(0));
    }
    depths
}

/// depths.c as a program of this name.
fn depths_program(name: &str) -> Command {
    Command::new(linked(&[check("depths.c")], &program(name)))
}

#[test]
fn known_texts() {
    let mut script = Script::new(depths);
    for (text, depth) in known_depths() {
        assert_eq!(script.add(text.as_bytes()), Some(depth), "{text}");
        script.open();
    }
    for sample in previews() {
        script.add(sample.text.as_bytes()).expect("a sample is read");
    }
    script.check(&mut depths_program("known_depths"));
}

#[test]
fn random_texts_at_every_depth() {
    let mut script = Script::new(depths);
    let mut seen = [0; 5];
    for bytes in random_texts(7, 4_000) {
        if let Some(depth) = script.add(&bytes) {
            seen[depth.min(4) as usize] += 1;
        }
    }
    assert!(seen[..4].iter().all(|count| *count >= 20), "{seen:?}");
    script.check(&mut depths_program("random_depths"));
}

/// The depth and the steps of contents that no edit makes: they read nothing outside of the cache.
#[test]
fn any_contents() {
    let program = sanitized(&[check("contents.c")], &program("contents"));
    let kinds = first_unknown().to_string();
    let lines = written(&run(Command::new(program).arg(kinds), b""));
    let depths = "all bits set: 0\nany contents: 1\nany runs: 4\nmost runs: 254\n";
    let steps = format!("most steps: {}\nsum of too many readings: 33 steps\n", u64::MAX);
    assert_eq!(lines, depths.to_string() + &steps);
}
