//! Working out, against a plain tree interpreter.

use crate::cache::Cache;
use crate::figures::Figures;
use crate::tree::{self, Shown, Tree};
use crate::{proved, timing};
use std::hint::black_box;

pub const SINGLE: &str = r"data.countWhere(\b -> b.gt(150))";
pub const NESTED: &str = r"data.sumBy(\p -> data.countWhere(\q -> q.gt(p)))";
/// Three runs in one another.
pub const THREE_DEEP: &str =
    r"let g = \c -> data.sumBy(\d -> d.add(c)) in data.sumBy(\x -> data.take(x).sumBy(g))";

/// A formula as a cache with its entry, and as a tree.
pub struct Formula {
    pub cache: Cache,
    pub entry: u16,
    pub tree: Box<Tree>,
}

/// Nothing is worked out yet.
pub fn formula(text: &str, readings: &[i32]) -> Formula {
    let mut cache = Cache::new(readings);
    let entry = cache.edit(text.as_bytes()).whole as u16;
    Formula { cache, entry, tree: tree::read(text.as_bytes()).expect("it is read") }
}

/// Works out the entry from nothing: the kept values are cleared first.
pub fn work(cache: &mut Cache, entry: u16) -> (u64, bool) {
    for cells in cache.cells.chunks_exact_mut(4).take(cache.heads[0] as usize) {
        cells[1..].fill(0);
    }
    cache.work(entry)
}

/// Both sides give the same number.
fn agree(mut formula: Formula) -> Formula {
    let cache = &mut formula.cache;
    assert!(proved::is_well_formed(&cache.heads, &cache.links, &cache.cells));
    assert!(!work(cache, formula.entry).1);
    let kept = Shown::Number(cache.kept(formula.entry) as i32);
    assert_eq!(tree::evaluated(&formula.tree, cache.recording()), kept);
    formula
}

pub fn measure(readings: &[i32], figures: &mut Figures) {
    agree(formula(THREE_DEEP, &[3, 1, 2]));
    for (text, calls) in [(NESTED, 1), (SINGLE, 500)] {
        let Formula { mut cache, entry, tree } = agree(formula(text, readings));
        let times = timing::best_of(
            calls,
            || work(&mut cache, entry),
            || tree::evaluated(black_box(&tree), black_box(readings)),
        );
        figures.part(&format!("working out `{text}`"), times, Some(4.0));
    }
}
