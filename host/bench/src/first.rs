//! First evaluation: open, edit, and preview to the end.

use crate::figures::Figures;
use crate::{compare, formulas};

/// The recording of the sample previews.
const SAMPLE: [i32; 5] = [140, 152, 160, 148, 155];

pub fn measure(readings: &[i32], figures: &mut Figures) {
    let samples = [
        formulas::windows(2),
        formulas::sum(),
        formulas::count_where(),
        formulas::longest_run(),
        formulas::nested_sum(),
    ];
    let long = [
        formulas::sum(),
        formulas::count_where(),
        formulas::longest_run(),
        formulas::nested_sum(),
        formulas::variance(),
        formulas::twenty_members(),
        formulas::chain(),
        formulas::shared(100, 1),
    ];
    for (recording, list) in [(&SAMPLE[..], &samples[..]), (readings, &long[..])] {
        for formula in list {
            compare::first(figures, "first", formula, recording);
        }
    }
}

/// First evaluations against the number of readings.
pub fn against_readings(readings: &[i32], figures: &mut Figures) {
    for formula in [formulas::sum(), formulas::count_where(), formulas::nested_sum()] {
        for count in [1, 4, 16, 64, 256, 1_024] {
            compare::first(figures, "readings", &formula, &readings[..count]);
        }
    }
}
