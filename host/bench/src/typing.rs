//! A formula typed key by key: each text so far is edited and, if it is accepted, previewed whole; against reading and evaluating it anew.

use crate::cache::{Cache, shown};
use crate::figures::{ENGINE, Figures, PLAIN};
use crate::{texts, tree};
use std::hint::black_box;
use std::time::Instant;

const ROUNDS: usize = 7;

/// The best nanoseconds of each keystroke, over the rounds.
type Keys = Vec<f64>;

fn note(best: &mut Keys, key: usize, begun: Instant) {
    let taken = begun.elapsed().as_nanos() as f64;
    best[key] = best[key].min(taken);
}

/// The session over one cache: what each text so far shows, if it is accepted.
fn by_engine(text: &[u8], readings: &[i32], best: &mut Keys) -> Vec<Option<tree::Shown>> {
    let mut cache = Cache::new(readings);
    cache.open(readings);
    let mut results = Vec::with_capacity(text.len());
    for key in 0..text.len() {
        let begun = Instant::now();
        let answer = black_box(cache.show(black_box(&text[..=key])));
        note(best, key, begun);
        results.push(answer.ok().map(shown));
    }
    results
}

/// The same with nothing kept.
fn recomputed(text: &[u8], readings: &[i32], best: &mut Keys) -> Vec<Option<tree::Shown>> {
    let mut results = Vec::with_capacity(text.len());
    for key in 0..text.len() {
        let begun = Instant::now();
        let answer = black_box(tree::recomputed(black_box(&text[..=key]), readings));
        note(best, key, begun);
        results.push(answer.ok());
    }
    results
}

fn session(figures: &mut Figures, name: &str, text: &[u8], readings: &[i32]) -> (Keys, Keys) {
    let (mut ours, mut theirs) = (vec![f64::INFINITY; text.len()], vec![f64::INFINITY; text.len()]);
    let mut results = Vec::new();
    for _ in 0..ROUNDS {
        results = by_engine(text, readings, &mut ours);
        assert_eq!(results, recomputed(text, readings, &mut theirs), "{name}");
    }
    for (which, accepted) in
        [("all keys", None), ("refused", Some(false)), ("accepted", Some(true))]
    {
        let is_in = |key: &usize| accepted.is_none_or(|is| results[*key].is_some() == is);
        let keys: Vec<usize> = (0..text.len()).filter(is_in).collect();
        let total = |best: &Keys| keys.iter().map(|key| best[*key]).sum::<f64>();
        let sides = [(ENGINE, total(&ours)), (PLAIN, total(&theirs))];
        figures.row("typing", &format!("{name}: {which}"), keys.len() as u32, &sides);
    }
    (ours, theirs)
}

pub fn measure(readings: &[i32], figures: &mut Figures) {
    let dense = texts::dense();
    session(figures, "ten lets and a chain", dense.trim_ascii_end(), readings);
    session(figures, "windows and sums", texts::windows_and_sums().as_bytes(), readings);
    let nested = texts::with_nested();
    let (ours, theirs) = session(figures, "with a nested sum", nested.as_bytes(), readings);
    for (key, (ours, theirs)) in ours.into_iter().zip(theirs).enumerate() {
        figures.put("keys", "with a nested sum", key as u32 + 1, ENGINE, ours);
        figures.put("keys", "with a nested sum", key as u32 + 1, PLAIN, theirs);
    }
}
