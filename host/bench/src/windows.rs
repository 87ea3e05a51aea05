//! Sum, least and greatest of 1,024 readings, against plain loops.

use crate::figures::Figures;
use crate::{proved, timing};
use std::hint::black_box;

const NUMBER: i64 = (1 << 31) + 1;
/// A reason is kept as this and the reason.
pub const MISSING: u64 = 1 << 35;

/// A number as it is kept, or reason 4.
pub fn packed(total: i64) -> u64 {
    if i32::try_from(total).is_ok() { (total + NUMBER) as u64 } else { MISSING + 4 }
}

fn plain_sum(readings: &[i32]) -> u64 {
    let mut total: i64 = 0;
    for &x in readings {
        total += i64::from(x);
    }
    packed(total)
}

fn plain_least(readings: &[i32]) -> u64 {
    let mut best = readings[0];
    for &x in readings {
        if x < best {
            best = x;
        }
    }
    packed(i64::from(best))
}

fn plain_greatest(readings: &[i32]) -> u64 {
    let mut best = readings[0];
    for &x in readings {
        if best < x {
            best = x;
        }
    }
    packed(i64::from(best))
}

type OnReadings = fn(&[i32]) -> u64;

pub fn measure(readings: &[i32], figures: &mut Figures) {
    let cases: [(&str, OnReadings, OnReadings); 3] = [
        ("sum", proved::sum, plain_sum),
        ("least", proved::least, plain_least),
        ("greatest", proved::greatest, plain_greatest),
    ];
    for (name, ours, theirs) in cases {
        assert_eq!(ours(readings), theirs(readings), "{name}");
        let times =
            timing::best_of(2_000, || ours(black_box(readings)), || theirs(black_box(readings)));
        figures.part(&format!("{name} of 1,024 readings"), times, Some(1.5));
    }
}
