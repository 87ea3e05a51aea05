//! Evaluations without a cache, of the whole of a text, against a first evaluation through a cache: open, edit, and preview to the end.

use crate::cache::{self, Cache};
use crate::figures::Figures;
use crate::{formulas, timing};
use engine::fields::Fields;
use plain::samples::taken::doubled_deep;
use std::hint::black_box;

/// The words of the two sides.
pub const SIDES: [&str; 2] = ["evaluate", "through a cache"];

const ROUNDS: usize = 18;

/// How often a value is doubled, each time by a let that uses the one before it twice.
const DOUBLED: [usize; 5] = [4, 8, 16, 24, 30];

fn compare(figures: &mut Figures, name: &str, text: &str, readings: &[i32]) {
    let (text, place) = (text.as_bytes(), cache::place_of_whole(text.as_bytes()));
    let mut cache = Cache::new(readings);
    let mut alone = || cache::evaluate(black_box(text), black_box(readings), place);
    let mut through = || {
        cache.open(black_box(readings));
        cache.show(black_box(text)).expect("it is accepted")
    };
    let (one, other) = (alone(), through());
    assert_eq!((one.refusal, Fields::from(one)), (0, Fields::from(other)), "{name}");
    let (ours, theirs) = (timing::calls(&mut alone), timing::calls(&mut through));
    let mut alone = || timing::batch(ours, &mut alone);
    let mut through = || timing::batch(theirs, &mut through);
    let best = timing::in_turn(ROUNDS, &mut [&mut alone, &mut through]);
    let row: Vec<_> = SIDES.into_iter().zip(best).collect();
    figures.row("plain", name, readings.len() as u32, &row);
}

pub fn measure(readings: &[i32], figures: &mut Figures) {
    for formula in formulas::all() {
        compare(figures, &formula.name, &formula.text, readings);
    }
    for times in DOUBLED {
        let name = format!("lets that double {times} times");
        compare(figures, &name, &doubled_deep("1", times), readings);
        let run = format!(r"data.countWhere(\x -> {})", doubled_deep("x.gt(150)", times));
        compare(figures, &format!("{name} in a run"), &run, readings);
    }
}
