//! Lent memory of other sizes: too little is refused, and more changes nothing.

use engine::cache::{Cache, Lengths};
use engine::compare::Pair;
use engine::damage::with_spare;
use engine::memory::Memory;
use plain::model::{Answer, Call};
use plain::random::rng::Rng;
use plain::random::session;
use plain::samples::{ALL, RECORDING, edit, open, preview, print};

fn refused(number: u8) -> Answer {
    Answer::Refused { number, place: 0 }
}

/// A cache with three entries, the last of them worked out.
fn used() -> Cache {
    let mut cache = Cache::new(&Memory::filled(|| 0));
    cache.call(&open(&RECORDING));
    cache.call(&edit("data.skip(1)"));
    cache.call(&preview(2, ALL));
    cache
}

/// Each slice in turn: one cell too few, half, none. What is cut off is not written.
#[test]
fn too_little_memory_is_refused() {
    let mut cache = used();
    for turn in 0..12 {
        let lengths = Lengths::cut(turn);
        assert_ne!(lengths, Lengths::WHOLE);
        for call in [open(&[7; 9]), open(&[]), edit("data.sum()"), edit("#"), preview(2, ALL)] {
            assert_eq!(cache.call_with(&call, lengths), refused(3), "{lengths:?} {call:?}");
        }
        for room in [0, 11, 12, 2000] {
            assert_eq!(cache.call_with(&print(2, room), lengths), refused(3), "{lengths:?}");
        }
        // 1 and 2 come first, 14 to 16 later.
        assert_eq!(cache.call_with(&edit(" ".repeat(1025)), lengths), refused(1));
        assert_eq!(cache.call_with(&open(&[0; 1025]), lengths), refused(2));
        assert_eq!(cache.call_with(&preview(9, 1), lengths), refused(3));
        assert_eq!(cache.call_with(&print(9, 0), lengths), refused(3));
    }
    assert!(matches!(cache.call(&preview(2, 0)), Answer::Finished { worked: 0, .. }));
    assert_eq!(cache.call(&print(2, 12)), Answer::Printed { text: "data.skip(1)".into() });
}

/// 3 comes before 4, and 4 before all that the text or the number would give.
#[test]
fn an_ill_formed_cache_with_too_little_memory() {
    let mut cache = used();
    let mut memory = cache.memory();
    memory.links[0] = 99;
    cache.overwrite(&memory);
    for turn in 0..12 {
        let lengths = Lengths::cut(turn);
        assert_eq!(cache.call_with(&edit("1"), lengths), refused(3), "{lengths:?}");
        assert_eq!(cache.call_with(&preview(0, 1), lengths), refused(3), "{lengths:?}");
        assert_eq!(cache.call_with(&print(0, 0), lengths), refused(3), "{lengths:?}");
    }
    assert_eq!(cache.call(&edit("#")), refused(4));
    assert_eq!(cache.call(&edit(" ".repeat(1025))), refused(1));
    assert_eq!(cache.call(&preview(9, 1)), refused(4));
    assert_eq!(cache.call(&print(9, 0)), refused(4));
    assert_eq!(cache.call(&print(0, 1024)), refused(4));
    assert_eq!(cache.call(&open(&[1])), Answer::Opened);
    assert!(matches!(cache.call(&edit("data")), Answer::Edited { new: 1, .. }));
}

#[test]
fn too_few_places_are_refused() {
    let mut cache = used();
    for places in [0, 1, 2, 64, 126, 127] {
        let call = Call::Edit { text: b"data".to_vec(), places, enough: true };
        assert_eq!(cache.call(&call), refused(3), "{places}");
    }
    for places in [128, 129, 1000] {
        let call = Call::Edit { text: b"data".to_vec(), places, enough: true };
        let edited = Answer::Edited { whole: 0, parts: 1, new: 0, places: vec![0] };
        assert_eq!(cache.call(&call), edited, "{places}");
    }
}

/// Longer slices: the same answers, and the cells past the sizes keep their contents,
/// which `Cache` tests at each call.
#[test]
fn more_memory_changes_nothing() {
    for seed in 0..100 {
        let mut rng = Rng::new(seed);
        let memory = Memory::filled(|| rng.draw());
        let memory = with_spare(&mut rng, &memory);
        let mut pair = Pair { cache: Cache::new(&memory), ..Pair::new(seed) };
        for call in session(1_000_000 + seed, 80) {
            pair.call(&call);
        }
        pair.check_state();
    }
}
