//! Runs of functions with costly bodies, against those of the smallest body.

use crate::evaluating::{Formula, SINGLE, formula, work};
use crate::figures::{ENGINE, Figures};
use crate::{texts, timing};

pub fn measure(readings: &[i32], figures: &mut Figures) {
    for (name, text) in [
        ("62 members of numbers", texts::numbers_in_body()),
        ("27 sums, least and greatest readings", texts::sums_in_body()),
        ("29 best sums", texts::stretches_in_body()),
    ] {
        let mut costly = formula(&text, readings);
        let mut smallest = formula(SINGLE, readings);
        let (ours, least) =
            timing::best_of(1, || work_out(&mut costly), || work_out(&mut smallest));
        figures.row("bodies", name, 0, &[(ENGINE, ours), ("the smallest body", least)]);
    }
}

fn work_out(formula: &mut Formula) {
    assert!(!work(&mut formula.cache, formula.entry).1);
}
