//! Evaluation after one constant of a formula was edited: what does not depend on it is kept.

use crate::figures::Figures;
use crate::formulas::{beside_nested, limit, shared, windows, within_nested};
use crate::{compare, formulas::Formula};

pub fn measure(readings: &[i32], figures: &mut Figures) {
    let named = |name: &str, formula: Formula| Formula { name: name.to_string(), ..formula };
    for (held, edited) in [
        (windows(2), windows(3)),
        (limit(150), limit(151)),
        (beside_nested(2), beside_nested(3)),
        (within_nested(2), within_nested(3)),
        (shared(100, 1), named("shared lets: the last constant", shared(100, 2))),
        (shared(100, 1), named("shared lets: the first constant", shared(101, 1))),
    ] {
        compare::after(figures, "edit", (&held, &edited), readings);
    }
}
