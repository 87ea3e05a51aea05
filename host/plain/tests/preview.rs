//! Working out: allowances, 'not yet', the count, and what stays worked out.

mod common;

use common::{edited, missing, number, opened, window};
use plain::model::{Answer, Model};
use plain::samples::{RECORDING, preview};
use plain::shown::Shown;

/// Four numbers (0, 1, 3, 5) and three members (2, 4, 6) in a chain.
const CHAIN: &str = "1.add(2).add(3).add(4)";

fn not_yet(worked: u32) -> Answer {
    Answer::NotYet { worked }
}

fn finished(worked: u32, shown: Shown) -> Answer {
    Answer::Finished { worked, shown }
}

fn marked(model: &Model) -> Vec<usize> {
    model.marks().keys().copied().collect()
}

#[test]
fn an_allowance_of_nothing_does_nothing() {
    let mut model = opened(&RECORDING);
    edited(&mut model, CHAIN);
    let before = model.clone();
    assert_eq!(model.call(&preview(6, 0)), not_yet(0));
    assert_eq!(model, before);
}

#[test]
fn an_allowance_of_one_works_out_the_lowest() {
    let mut model = opened(&RECORDING);
    edited(&mut model, CHAIN);
    assert_eq!(model.call(&preview(6, 1)), not_yet(1));
    assert_eq!(marked(&model), [2]);
    assert_eq!(model.call(&preview(6, 1)), not_yet(1));
    assert_eq!(marked(&model), [2, 4]);
    assert_eq!(model.call(&preview(6, 1)), finished(1, number(10)));
    assert_eq!(marked(&model), [2, 4, 6]);
    assert_eq!(model.call(&preview(6, 1)), finished(0, number(10)));
    assert_eq!(model.call(&preview(6, 0)), finished(0, number(10)));
}

#[test]
fn an_allowance_may_be_just_enough_or_far_more() {
    for allowance in [3, 4, 512, u32::MAX] {
        let mut model = opened(&RECORDING);
        edited(&mut model, CHAIN);
        assert_eq!(model.call(&preview(6, allowance)), finished(3, number(10)));
    }
    let mut model = opened(&RECORDING);
    edited(&mut model, CHAIN);
    assert_eq!(model.call(&preview(6, 2)), not_yet(2));
    assert_eq!(model.call(&preview(6, 2)), finished(1, number(10)));
}

#[test]
fn only_what_lies_at_or_below_the_entry_is_worked_out() {
    let mut model = opened(&RECORDING);
    let (whole, _, places) = edited(&mut model, "data.skip(1).count().add(data.take(2).sum())");
    let (skip, count, take, sum) = (places[1], places[3], places[6], places[8]);
    assert_eq!(model.call(&preview(sum, 512)), finished(2, number(292)));
    assert_eq!(marked(&model), [take as usize, sum as usize]);
    assert_eq!(model.call(&preview(skip, 512)), finished(1, window(1, 4)));
    assert_eq!(model.call(&preview(whole, 1)), not_yet(1));
    assert!(model.marks().contains_key(&(count as usize)));
    assert_eq!(model.call(&preview(whole, 1)), finished(1, number(296)));
    assert_eq!(model.marks().len(), 5);
}

#[test]
fn numbers_names_and_data_never_count() {
    let mut model = opened(&RECORDING);
    let (_, _, places) = edited(&mut model, "\\a -> data.at(a).add(7).add(y)");
    let shown: Vec<Answer> =
        [1, 3, 5, 7].iter().map(|place| model.call(&preview(places[*place], 0))).collect();
    let awaited = common::delayed(&["a"]);
    let expected = [window(0, 5), awaited, number(7), missing(1)];
    assert_eq!(shown, expected.map(|shown| finished(0, shown)));
    assert!(model.marks().is_empty());
}

#[test]
fn the_value_of_an_unused_let_is_bound_and_can_be_previewed() {
    let mut model = opened(&RECORDING);
    let (whole, new, places) = edited(&mut model, "let u = 1.div(0) in 6");
    assert_eq!((new, model.call(&preview(whole, 0))), (4, finished(0, number(6))));
    assert_eq!(model.call(&preview(places[2], 1)), finished(1, missing(3)));
}

#[test]
fn marks_keep_what_their_forms_show() {
    let mut model = opened(&RECORDING);
    let text = "data.sumBy(\\p -> data.countWhere(\\q -> q.gt(p)))";
    let (whole, _, _) = edited(&mut model, text);
    model.call(&preview(whole, 512));
    let kept: Vec<(usize, Shown)> = model.marks().clone().into_iter().collect();
    let expected = [
        (3, common::delayed(&["q", "p"])),
        (4, common::delayed(&["p"])),
        (5, common::delayed(&["p"])),
        (6, common::function("p")),
        (7, number(10)),
    ];
    assert_eq!(kept, expected);
}

#[test]
fn edits_keep_work() {
    let mut model = opened(&RECORDING);
    let (whole, _, _) = edited(&mut model, "data.skip(1).take(2)");
    assert_eq!(model.call(&preview(whole, 512)), finished(2, window(1, 2)));
    let (sum, new, _) = edited(&mut model, "let w = data.skip(1).take(2) in w.sum()");
    assert_eq!(new, 1);
    assert_eq!(model.call(&preview(sum, 512)), finished(1, number(312)));
}

/// A lower entry of another text is below too, if it is reached.
#[test]
fn the_lowest_number_goes_first_even_if_an_older_text_made_it() {
    let mut model = opened(&RECORDING);
    edited(&mut model, "5.add(6)");
    edited(&mut model, "7.add(8)");
    let (whole, new, _) = edited(&mut model, "7.add(8).sub(5.add(6))");
    assert_eq!((whole, new), (6, 1));
    assert_eq!(model.call(&preview(whole, 1)), not_yet(1));
    assert_eq!(marked(&model), [2]);
    assert_eq!(model.call(&preview(whole, 1)), not_yet(1));
    assert_eq!(marked(&model), [2, 5]);
    assert_eq!(model.call(&preview(whole, 1)), finished(1, number(4)));
}

#[test]
fn a_delayed_part_is_worked_out_like_any_other() {
    let mut model = opened(&RECORDING);
    let (whole, _, places) = edited(&mut model, "\\a -> a.add(1)");
    assert_eq!(model.call(&preview(places[2], 1)), finished(1, common::delayed(&["a"])));
    assert_eq!(model.call(&preview(whole, 1)), finished(1, common::function("a")));
}
