//! Cost against the number of entries held, and the calls by themselves.

use crate::cache::{Cache, ENTRIES};
use crate::figures::{ENGINE, Figures};
use crate::{evaluating, tables, texts, timing};
use std::hint::black_box;

/// Calls in a batch.
const CALLS: u32 = 100;

/// A cache of so many entries, all worked out, of which entry 0 is the number 1; and the last run's entry.
fn held(entries: usize, readings: &[i32]) -> (Cache, u32) {
    let mut cache = Cache::new(readings);
    let mut add = |text: String| {
        let whole = cache.edit(text.as_bytes()).whole;
        cache.preview(whole);
        (cache.heads[0] as usize, whole)
    };
    let (mut count, mut last) = add("1".to_string());
    let mut i = 2;
    while count + 8 <= entries {
        (count, last) = add(format!(r"data.skip({i}).countWhere(\b -> b.gt({i}))"));
        i += 1;
    }
    while count < entries {
        count = add(format!("{}", 5_000 + count)).0;
    }
    (cache, last)
}

/// A call over a cache whose last run is at an entry. None of them changes the cache.
type Call = fn(&mut Cache, u32);

const EDIT: Call = |cache, _| assert_eq!(cache.edit(black_box(b"1")).refusal, 0);
const REFUSED: Call = |cache, _| assert_ne!(cache.edit(black_box(b"1.")).refusal, 0);
const PREVIEW: Call = |cache, last| assert_eq!(cache.preview(black_box(last)).finished, 1);

/// The sizes come in turn, as sides do elsewhere.
pub fn measure(readings: &[i32], figures: &mut Figures) {
    let sizes = [1, 2, 4, 8, 16, 32, 64, 128, 192, 256, 320, 384, 448, 512];
    let mut caches = sizes.map(|entries| held(entries, readings));
    for _ in 0..timing::ROUNDS {
        for (cache, last) in &mut caches {
            for (side, call) in [("edit", EDIT), ("refused edit", REFUSED), ("preview", PREVIEW)] {
                let nanoseconds = timing::batch(CALLS, || call(cache, *last));
                figures.put("entries", "entries held", cache.heads[0], side, nanoseconds);
            }
        }
    }
}

/// Each call by itself.
pub fn calls(readings: &[i32], figures: &mut Figures) {
    let (mut cache, mut fresh, dense) =
        (Cache::new(readings), Cache::new(readings), texts::dense());
    cache.edit(&dense);
    let (mut full, last) = held(ENTRIES, readings);
    let mut worst = tables::colliding(readings);
    let mut call = |case: &str, nanoseconds| figures.put("calls", case, 0, ENGINE, nanoseconds);
    for _ in 0..timing::ROUNDS {
        let open = timing::batch(CALLS, || fresh.open(black_box(readings)));
        call("open with 1,024 readings", open);
        let edit = timing::batch(CALLS, || cache.edit(black_box(&dense)));
        call("edit of 1,024 bytes with nothing new", edit);
        let edit = timing::batch(CALLS, || EDIT(&mut full, last));
        call("edit of 1 byte with 512 entries held", edit);
        let preview = timing::batch(CALLS, || PREVIEW(&mut full, last));
        call("preview with nothing to work out and 512 entries held", preview);
        let refused = timing::batch(1, || REFUSED(&mut worst, 0));
        call("refused edit with 512 entries held, all of one hash", refused);
        let shown = timing::batch(CALLS, || {
            fresh.open(black_box(readings));
            fresh.show(evaluating::SINGLE.as_bytes())
        });
        call(r"one of 1,024 runs of `\b -> b.gt(150)`", shown / readings.len() as f64);
    }
}
