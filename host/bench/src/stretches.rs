//! The best stretch of 1,024 readings: a first evaluation on all sides, and the member by itself against a loop. Each side takes one reading in
//! and lets one out at a step, so that the time should not grow with the length of a stretch.

use crate::figures::Figures;
use crate::windows::{MISSING, packed};
use crate::{compare, formulas, proved, timing};
use std::hint::black_box;

/// How many readings a stretch has.
pub const WIDTHS: [i32; 3] = [1, 32, 512];

/// The greatest sum of w readings next to each other, and where the first stretch with this sum begins; none if there is no such stretch.
pub fn best(readings: &[i32], w: i32) -> Option<(i64, usize)> {
    let w = usize::try_from(w).ok().filter(|w| (1..=readings.len()).contains(w))?;
    let mut sum: i64 = readings[..w].iter().map(|z| i64::from(*z)).sum();
    let mut best = (sum, 0);
    for (i, (first, next)) in readings.iter().zip(&readings[w..]).enumerate() {
        sum += i64::from(*next) - i64::from(*first);
        if best.0 < sum {
            best = (sum, i + 1);
        }
    }
    Some(best)
}

/// The greatest sum as the proved function gives it.
fn plain_best_sum(readings: &[i32], w: i32) -> u64 {
    best(readings, w).map_or(MISSING + 5, |(sum, _)| packed(sum))
}

pub fn measure(readings: &[i32], figures: &mut Figures) {
    for w in WIDTHS {
        compare::first(figures, "stretches", &formulas::best_sum(w), readings);
    }
    for w in WIDTHS {
        assert_eq!(proved::best_sum(readings, w), plain_best_sum(readings, w), "{w}");
        let times = timing::best_of(
            500,
            || proved::best_sum(black_box(readings), black_box(w)),
            || plain_best_sum(black_box(readings), black_box(w)),
        );
        figures.part_of("stretch", &format!("best sum of {w} in 1,024 readings"), times, Some(1.5));
    }
}
