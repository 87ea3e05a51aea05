//! Well-formedness of a full table, binding, and a preview with nothing to work out.

use crate::cache::{Cache, ENTRIES, packed};
use crate::figures::Figures;
use crate::member::Member::{Add, CountWhere, Gt, SumBy, Take};
use crate::{proved, table, timing};
use engine::memory::{DATA, FUNCTION, NUMBER, VARIABLE};
use std::hint::black_box;

const HELD: usize = 384;
const RECORDS: usize = 128;

/// A full table: the recording, numbers, variables, and windows, comparisons, functions and runs over them.
pub fn full(readings: &[i32]) -> Cache {
    let mut cache = Cache::new(readings);
    let data = cache.data();
    let numbers: Vec<u16> = (0..100).map(|n| cache.number(7 * n - 300)).collect();
    let names = ["bpm", "speed", "x", "y", "height", "dist", "q", "p", "lap", "z"];
    let variables = names.map(|name| cache.variable(name));
    let mut i = 0;
    while cache.heads[0] as usize + 6 <= ENTRIES {
        let (v, number, other) = (i % 10, numbers[i % 100], numbers[(i / 10 + 50) % 100]);
        let window = cache.member(Take, data, number);
        let sum = cache.member(Add, variables[v], number);
        let test = cache.member(Gt, sum, other);
        let function = cache.function(names[v], test);
        cache.member(CountWhere, window, function);
        cache.member(SumBy, data, function);
        i += 1;
    }
    while (cache.heads[0] as usize) < ENTRIES {
        let n = 1_000 + cache.heads[0] as i32;
        cache.number(n);
    }
    cache
}

/// 512 numbers in one chain of the proved table's hash.
pub fn colliding(readings: &[i32]) -> Cache {
    let mut cache = Cache::new(readings);
    let one_chain = |n: &i32| (i64::from(*n) + (1 << 31)) % 65_521 % 512 == 0;
    for n in (0..).filter(one_chain).take(ENTRIES) {
        cache.number(n);
    }
    cache
}

/// Works out every entry.
pub fn worked(mut cache: Cache) -> Cache {
    for entry in 0..cache.heads[0] as u16 {
        assert!(!cache.work(entry).1);
    }
    cache
}

/// 128 records: of each window, comparison and run about half are held already.
pub fn records() -> [u64; 256] {
    let mut records = [0; 256];
    let mut count = 0;
    let mut put = |kind: u16, key: u64, first: usize, second: usize| {
        let link = |record: usize| if record == usize::MAX { 0 } else { record as u64 + 1 };
        records[2 * count] = u64::from(kind) | link(first) << 5 | link(second) << 13;
        records[2 * count + 1] = key;
        count += 1;
        count - 1
    };
    const NONE: usize = usize::MAX;
    let data = put(DATA, 0, NONE, NONE);
    let bpm = put(VARIABLE, packed("bpm"), NONE, NONE);
    for i in 0..18 {
        let held = 70 * (i % 10) - 300;
        let key = (i64::from(if i % 2 == 0 { held } else { 5_000 + i }) + (1 << 31)) as u64;
        let number = put(NUMBER, key, NONE, NONE);
        let window = put(Take.kind(), 0, data, number);
        let sum = put(Add.kind(), 0, bpm, number);
        let test = put(Gt.kind(), 0, sum, number);
        let function = put(FUNCTION, packed("bpm"), test, NONE);
        put(CountWhere.kind(), 0, window, function);
        put(SumBy.kind(), 0, data, function);
    }
    assert_eq!(count, RECORDS);
    records
}

pub fn measure(readings: &[i32], figures: &mut Figures) {
    let cache = worked(full(readings));
    let (heads, links, cells) = (&cache.heads, &cache.links, &cache.cells);
    assert!(proved::is_well_formed(heads, links, cells));
    assert!(table::is_well_formed(heads, links, cells));
    let checks = timing::best_of(
        50,
        || proved::is_well_formed(black_box(heads), links, cells),
        || table::is_well_formed(black_box(heads), links, cells),
    );
    figures.part("well-formedness of 512 entries", checks, Some(3.0));

    let worst = colliding(readings);
    let checks = timing::best_of(
        10,
        || proved::is_well_formed(black_box(&worst.heads), &worst.links, &worst.cells),
        || table::is_well_formed(black_box(&worst.heads), &worst.links, &worst.cells),
    );
    figures.part("well-formedness of 512 entries, all of one hash", checks, None);

    let (records, held, n) = (records(), HELD as u16, RECORDS as u16);
    let bound = proved::bind(links, cells, held, &records, n);
    assert_eq!(bound, table::bind(links, cells, held, &records, n));
    let times = timing::best_of(
        50,
        || proved::bind(links, cells, black_box(held), &records, n),
        || table::bind(links, cells, black_box(held), &records, n),
    );
    let name = format!(
        "binding 128 records ({} new) to 384 entries, with the test that they differ",
        bound.0 - HELD as u64
    );
    figures.part(&name, times, Some(3.0));
    let (test, bind) = timing::best_of(
        50,
        || proved::can_bind(links, cells, black_box(held), n),
        || proved::bind(links, cells, black_box(held), &records, n),
    );
    figures.row("idle", "the test that 384 entries differ", 0, &[("test", test), ("bind", bind)]);

    let last = (ENTRIES - 1) as u16;
    for (name, entry) in [("of entry 511", last), ("of the last run", last - 5)] {
        let mut own = cells.clone();
        let (work, check) = timing::best_of(
            50,
            || proved::work(readings, links, &mut own, black_box(entry), u32::MAX),
            || proved::is_well_formed(black_box(heads), links, cells),
        );
        let name = format!("working out nothing {name}");
        figures.row("idle", &name, 0, &[("work", work), ("well-formedness", check)]);
    }
}
