//! Texts whose let-free trees are huge stay feasible, since equal forms are shared.

mod common;

use common::{missing, number, shown};
use plain::samples::taken::doubled;

#[test]
fn a_dozen_doubling_lets_over_a_long_recording() {
    let text = format!("data.sumBy(\\x -> {})", doubled("x", 12, "LAST"));
    assert_eq!(shown(&[1; 1024], &text), number(4096 * 1024));
    assert_eq!(shown(&[1024; 1024], &text), missing(4));
}

#[test]
fn twelve_quadrupling_lets_over_a_long_recording() {
    let mut text = String::from("data.sumBy(\\x -> ");
    for _ in 0..12 {
        text += "let x = x.sub(x).add(x.sub(x)) in ";
    }
    text += "x.add(1))";
    assert_eq!(shown(&[5; 1024], &text), number(1024));
}

#[test]
fn runs_within_runs_over_a_long_recording() {
    let recording: Vec<i32> = (0..1024).collect();
    let text = "data.sumBy(\\p -> data.countWhere(\\q -> q.gt(p)))";
    assert_eq!(shown(&recording, text), number(1024 * 1023 / 2));
}

/// A part without the variable is not worked out again for each reading.
#[test]
fn closed_parts_within_runs_within_runs() {
    let text = "let f = \\a -> data.sumBy(\\b -> 1) in \
                let g = \\a -> data.countWhere(f) in \
                let h = \\a -> data.countWhere(g) in \
                data.countWhere(h)";
    assert_eq!(shown(&[1; 1024], text), number(1024));
}
