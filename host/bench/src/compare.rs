//! One formula on all sides, in turn: the engine, a plain recomputation from the text, and Lua.

use crate::cache::{Cache, shown};
use crate::figures::{ENGINE, Figures, PLAIN};
use crate::formulas::Formula;
use crate::tree::{self, Shown};
use crate::{lua, timing};
use std::hint::black_box;
use std::time::Instant;

const ROUNDS: usize = 6;
/// Batches of a side in each round; lua/measure.lua has as many.
const BATCHES: usize = 3;

/// First evaluation: the engine opens, edits, and previews to the end.
pub fn first(figures: &mut Figures, group: &str, formula: &Formula, recording: &[i32]) {
    let mut cache = Cache::new(recording);
    let mut show = || {
        cache.open(black_box(recording));
        cache.show(black_box(formula.text.as_bytes())).expect("it is accepted")
    };
    let value = shown(show());
    let mut engine = |calls| timing::batch(calls, &mut show);
    all_sides(figures, group, formula, recording, value, &mut engine);
}

/// After an edit: the engine edits and previews to the end in a cache in which another text is worked out. Setting it back is not timed.
pub fn after(
    figures: &mut Figures,
    group: &str,
    (held, formula): (&Formula, &Formula),
    recording: &[i32],
) {
    let mut before = Cache::new(recording);
    before.show(held.text.as_bytes()).expect("it is accepted");
    let mut cache = before.clone();
    let mut show = || {
        cache.restore(&before);
        let begun = Instant::now();
        let answer = black_box(cache.show(black_box(formula.text.as_bytes())));
        (begun.elapsed(), answer.expect("it is accepted"))
    };
    let value = shown(show().1);
    let mut engine =
        |calls| (0..calls).map(|_| show().0.as_nanos() as f64).sum::<f64>() / f64::from(calls);
    all_sides(figures, group, formula, recording, value, &mut engine);
}

/// `engine` gives the nanoseconds of an evaluation, the mean over so many calls.
fn all_sides(
    figures: &mut Figures,
    group: &str,
    formula: &Formula,
    recording: &[i32],
    value: Shown,
    engine: &mut dyn FnMut(u32) -> f64,
) {
    let text = formula.text.as_bytes();
    let plain = || tree::recomputed(black_box(text), black_box(recording));
    assert_eq!(plain(), Ok(value), "{}", formula.text);
    let (own, others) = (timing::calls_of(engine(3)), timing::calls(plain));
    let words = recording.iter().map(i32::to_string).collect::<Vec<_>>().join(" ");
    let mut names = vec![ENGINE, PLAIN];
    let mut in_lua: Vec<_> = Vec::new();
    for side in lua::SIDES.iter().filter(|side| side.is_installed()) {
        names.push(side.name);
        let words = &words;
        in_lua.push(move || {
            let (nanoseconds, given) = side.run(others, words, &formula.lua);
            assert_eq!(given, written(value), "{}: {}", side.name, formula.lua);
            nanoseconds
        });
    }
    let mut ours = || timing::in_turn(BATCHES, &mut [&mut || engine(own)])[0];
    let mut plainly = || timing::in_turn(BATCHES, &mut [&mut || timing::batch(others, plain)])[0];
    let mut sides: Vec<&mut dyn FnMut() -> f64> = vec![&mut ours, &mut plainly];
    sides.extend(in_lua.iter_mut().map(|side| side as &mut dyn FnMut() -> f64));
    let best = timing::in_turn(ROUNDS, &mut sides);
    let row: Vec<_> = names.into_iter().zip(best).collect();
    figures.row(group, &formula.name, recording.len() as u32, &row);
}

/// A value as the Lua script writes it.
fn written(value: Shown) -> String {
    match value {
        Shown::Number(z) => z.to_string(),
        Shown::Window(start, length) => format!("{start} {length}"),
        other => panic!("{other:?} is not compared with Lua"),
    }
}
