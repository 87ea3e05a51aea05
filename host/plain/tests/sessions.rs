//! Random sessions: the model keeps its own promises at each call.

mod common;

use plain::form::Form;
use plain::limits::{PLACES, TABLE_ENTRIES, TEXT_BYTES};
use plain::model::{Answer, Call, Model};
use plain::random::session;
use plain::samples::preview;
use plain::shown::Shown;
use plain::tally::Tally;
use std::collections::BTreeMap;

/// Checks one answer against the states before and after the call.
fn check(before: &Model, call: &Call, answer: &Answer, after: &Model) {
    let rise = after.forms().list.len() - before.forms().list.len().min(after.forms().list.len());
    match (call, answer) {
        (_, Answer::Refused { number, place }) => {
            assert_eq!(after, before);
            assert!((1..=16).contains(number) && ![4, 11].contains(number));
            assert!((5..=12).contains(number) || *place == 0);
        }
        (Call::Open { readings, .. }, Answer::Opened) => {
            assert_eq!(after.recording(), readings);
            assert!(after.forms().list.is_empty() && after.marks().is_empty());
        }
        (Call::Edit { .. }, Answer::Edited { whole, parts, new, places }) => {
            assert_eq!((*new as usize, *parts as usize), (rise, places.len()));
            assert!(places.len() <= PLACES && places.contains(whole));
            assert!(places.iter().all(|place| after.form(*place).is_some()));
            assert_eq!(after.marks(), before.marks());
            let held = before.forms().list.len();
            assert_eq!(after.forms().list[..held], before.forms().list);
        }
        (Call::Preview { entry, allowance, .. }, _) => {
            check_preview(before, *entry, *allowance, answer, after)
        }
        (Call::Print { bytes, .. }, Answer::Printed { text }) => {
            assert_eq!(after, before);
            assert!((1..=bytes.len().min(TEXT_BYTES)).contains(&text.len()));
        }
        _ => panic!("{call:?} got {answer:?}"),
    }
}

fn check_preview(before: &Model, entry: u32, allowance: u32, answer: &Answer, after: &Model) {
    assert_eq!(after.forms(), before.forms());
    let unmarked = before.unmarked(entry as usize);
    let marked = after.marks().len() - before.marks().len();
    assert!(before.marks().iter().all(|(form, shown)| after.marks().get(form) == Some(shown)));
    assert!(unmarked[..marked].iter().all(|form| after.marks().contains_key(form)));
    assert_eq!(marked, unmarked.len().min(allowance as usize));
    match answer {
        Answer::NotYet { worked } => {
            assert_eq!((*worked, *worked as usize), (allowance, marked));
            assert!(marked < unmarked.len());
        }
        Answer::Finished { worked, shown } => {
            assert_eq!((*worked as usize, marked), (marked, unmarked.len()));
            let kept = after.marks().get(&(entry as usize));
            assert!(kept.is_none_or(|kept| kept == shown));
        }
        other => panic!("{other:?}"),
    }
}

/// Checks what number 4 would test of a cache: no equal forms, lower dependencies, levels
/// up to 1, marks only over marked dependencies, awaited names, kept results.
fn check_state(model: &Model) {
    let list = &model.forms().list;
    assert!(list.len() <= TABLE_ENTRIES);
    for (number, form) in list.iter().enumerate() {
        assert!(!list[..number].contains(form));
        assert!(form.dependencies().iter().all(|dependency| *dependency < number));
        if let Form::Variable(variable) | Form::Function(variable, _) = form {
            assert!(variable.level <= 1);
        }
        if let Form::Member(member, operands) = form {
            assert_eq!(operands.len(), member.arguments() + 1);
        }
    }
    for (number, shown) in model.marks() {
        let is_worked = |form: usize| !list[form].needs_work() || model.marks().contains_key(&form);
        assert!(list[*number].needs_work());
        assert!(list[*number].dependencies().into_iter().all(is_worked));
        check_kept(model, shown);
    }
}

fn check_kept(model: &Model, shown: &Shown) {
    match shown {
        Shown::Delayed(names) => assert!((1..=2).contains(&names.len())),
        Shown::Window(window) => assert!(window.start + window.length <= model.recording().len()),
        Shown::Missing(reason) => assert!((1..=5).contains(reason)),
        Shown::Number(_) | Shown::Function(_) => (),
    }
}

#[test]
fn each_call_keeps_the_promises() {
    for seed in 0..150 {
        let mut model = Model::new();
        let mut worked_out = 0;
        for call in session(seed, 60) {
            let before = model.clone();
            let answer = model.call(&call);
            check(&before, &call, &answer, &model);
            check_state(&model);
            match answer {
                Answer::Opened => worked_out = 0,
                Answer::NotYet { worked } | Answer::Finished { worked, .. } => worked_out += worked,
                _ => (),
            }
            assert_eq!(worked_out as usize, model.marks().len());
        }
    }
}

/// Repeated previews of any entry finish in the number of calls that 01 gives: k
/// unmarked forms and an allowance of a take k / a calls, rounded up, or one.
#[test]
fn repeated_previews_finish_in_time() {
    for seed in 200..260 {
        let mut model = Model::new();
        session(seed, 40).iter().for_each(|call| drop(model.call(call)));
        for entry in (0..model.forms().list.len()).rev().step_by(7) {
            for allowance in [1, 3, 64] {
                let mut copy = model.clone();
                let calls = copy.unmarked(entry).len().div_ceil(allowance).max(1);
                let call = preview(entry as u32, allowance as u32);
                let answers: Vec<Answer> = (0..calls).map(|_| copy.call(&call)).collect();
                let (last, others) = answers.split_last().expect("there is one call at least");
                assert!(matches!(last, Answer::Finished { .. }));
                assert!(others.iter().all(|answer| matches!(answer, Answer::NotYet { .. })));
            }
        }
    }
}

/// The order of previews and their allowances does not change what is shown.
#[test]
fn an_entry_shows_the_same_whatever_was_worked_out_before() {
    for seed in 300..340 {
        let mut model = Model::new();
        session(seed, 40).iter().for_each(|call| drop(model.call(call)));
        let mut fresh = model.clone();
        let entries = 0..model.forms().list.len() as u32;
        let upwards: BTreeMap<u32, Shown> =
            entries.clone().map(|n| (n, shown(&mut model, n))).collect();
        let downwards: BTreeMap<u32, Shown> =
            entries.rev().map(|n| (n, shown(&mut fresh, n))).collect();
        assert_eq!(upwards, downwards);
    }
}

fn shown(model: &mut Model, entry: u32) -> Shown {
    match model.call(&preview(entry, u32::MAX)) {
        Answer::Finished { shown, .. } => shown,
        other => panic!("{other:?}"),
    }
}

#[test]
fn a_seed_always_gives_the_same_session() {
    assert_eq!(session(7, 50), session(7, 50));
    assert_ne!(session(7, 50), session(8, 50));
    assert_eq!(session(7, 80)[..50], session(7, 50));
    assert!(matches!(&session(7, 1)[..], [Call::Open { enough: true, .. }]));
}

/// Sessions meet every answer, and every result of a member, often enough to be of use.
#[test]
fn sessions_reach_all_kinds_of_answers() {
    let mut tally = Tally::default();
    for seed in 0..600 {
        let mut model = Model::new();
        for call in session(seed, 60) {
            tally.count_print(&model, &call);
            tally.count(&model.call(&call));
        }
        tally.count_rules(&model);
    }
    println!("{tally:?}");
    tally.check_all(5, 5);
}
