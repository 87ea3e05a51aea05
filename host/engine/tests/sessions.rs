//! Random sessions against the reference model, call by call, and the state at the end.
//!
//! FORMULA_SEED and FORMULA_CALLS set another first seed and number of calls:
//!     FORMULA_SEED=77 FORMULA_CALLS=5000000 cargo test --release -p engine --test sessions

mod previews;

use engine::compare::{Pair, setting};
use plain::limits::{TABLE_ENTRIES, TEXT_BYTES};
use plain::model::Answer;
use plain::random::formula::{formula, join};
use plain::random::limit::{grown, wide};
use plain::random::nested::nested;
use plain::random::pasted::pasted;
use plain::random::rng::Rng;
use plain::random::single::single;
use plain::random::{is_affordable, session};
use plain::samples::{edit, open, preview, print};
use plain::tally::{
    DELAYED_TWICE, FROM_THE_END, OTHER_LEVELS, PAST_THE_FIRST, ROUNDED_BELOW_0, Tally,
};
use previews::{FULL, preview_to_end, show};
use std::thread;

const CALLS_OF_SESSION: usize = 80;

/// One session in both, from memory of any contents.
fn run(seed: u64) -> Tally {
    let mut tally = Tally::default();
    let mut pair = Pair::new(seed);
    for (at, call) in session(seed, CALLS_OF_SESSION).iter().enumerate() {
        tally.count_print(&pair.model, call);
        let answer = pair.call_in(call, || format!("seed {seed}, call {at}:"));
        tally.count(&answer);
    }
    pair.check_state();
    tally.count_rules(&pair.model);
    tally
}

/// Sessions of as many seeds from the first one on, on a few threads.
fn run_all(first: u64, sessions: u64) -> Tally {
    let threads = thread::available_parallelism().map_or(1, |count| count.get() as u64).min(4);
    let part = |thread: u64| {
        let mut tally = Tally::default();
        for seed in (thread..sessions).step_by(threads as usize) {
            tally.add(run(first.wrapping_add(seed)));
        }
        tally
    };
    let mut all = Tally::default();
    thread::scope(|scope| {
        let workers: Vec<_> =
            (0..threads).map(|thread| scope.spawn(move || part(thread))).collect();
        workers.into_iter().for_each(|worker| all.add(worker.join().expect("a session failed")));
    });
    all
}

/// Each kind of answer, and each result of a member, comes often enough to be of use.
#[test]
fn random_sessions() {
    let calls = setting("FORMULA_CALLS", 200_000);
    let sessions = calls.div_ceil(CALLS_OF_SESSION as u64);
    let tally = run_all(setting("FORMULA_SEED", 0), sessions);
    assert!(tally.total() as u64 >= calls);
    if calls >= 200_000 {
        tally.check_all(50, 20);
    }
}

/// Reading a printed text yields that very entry, and printing what was read gives back the
/// printed text.
fn print_and_read(pair: &mut Pair, entry: u32) -> Answer {
    let answer = pair.call(&print(entry, TEXT_BYTES));
    if let Answer::Printed { text } = &answer {
        let edited = pair.call(&edit(text));
        assert!(matches!(edited, Answer::Edited { whole, new: 0, .. } if whole == entry));
        assert_eq!(pair.call(&print(entry, text.len())), answer);
    }
    answer
}

/// Fills the table with long texts and then, one entry at a time, to the last.
fn fill(pair: &mut Pair, rng: &mut Rng) -> Vec<Vec<u8>> {
    let mut taken = Vec::new();
    loop {
        let text = wide(rng);
        match pair.call(&edit(&text)) {
            Answer::Edited { .. } => taken.push(text),
            FULL => break,
            _ => (),
        }
    }
    let held = pair.model.forms().list.len();
    for number in 0..TABLE_ENTRIES - held {
        let answer = pair.call(&edit((10_000 + number).to_string()));
        assert!(matches!(answer, Answer::Edited { new: 1, .. }), "{answer:?}");
    }
    taken
}

#[test]
fn full_tables() {
    for seed in 0..40 {
        let mut rng = Rng::new(seed);
        let mut pair = Pair::new(seed);
        pair.call(&open(&[3, -1, 4]));
        let taken = fill(&mut pair, &mut rng);
        assert_eq!(pair.cache.memory().entries(), 512);
        for text in ["20000", "let u = 20000 in 10000", "\\z -> z", "unknown.add(20000)"] {
            assert_eq!(pair.call(&edit(text)), FULL, "{text}");
        }
        for text in &taken {
            let answer = pair.call(&edit(text));
            assert!(matches!(answer, Answer::Edited { new: 0, .. }), "{answer:?}");
        }
        for entry in (0..512).step_by(5) {
            preview_to_end(&mut pair, entry, [1, 2, 7, u32::MAX][entry as usize % 4]);
            print_and_read(&mut pair, entry);
        }
        pair.call(&preview(512, 1));
        pair.call(&print(512, TEXT_BYTES));
        pair.check_state();
        pair.call(&open(&[]));
        pair.call(&edit("20000"));
        pair.check_state();
    }
}

/// Recordings with the extreme readings, of no reading, one, and as many as there can be.
fn recordings() -> Vec<Vec<i32>> {
    let mut rng = Rng::new(11);
    let both = [i32::MIN, i32::MAX];
    vec![
        vec![],
        vec![i32::MIN],
        vec![i32::MAX],
        vec![0],
        vec![i32::MIN; 1024],
        vec![i32::MAX; 1024],
        (0..1024).map(|at| both[at % 2]).collect(),
        (0..1024).map(|at| both[usize::from(at < 511)]).collect(),
        (-512..512).collect(),
        (0..1024).map(|_| rng.reading()).collect(),
        (0..1023).map(|_| rng.draw() as i32).collect(),
    ]
}

/// Every member at the limits of recordings and numbers.
#[rustfmt::skip]
const TEXTS: &[&str] = &[
    "data", "data.sum()", "data.min()", "data.max()", "data.count()",
    "data.at(0)", "data.at(1022)", "data.at(1023)", "data.at(1024)", "data.at(2147483647)",
    "data.at(-1)", "data.at(-1022)", "data.at(-1023)", "data.at(-1024)", "data.at(-1025)",
    "data.at(-65535)", "data.at(-65536)", "data.at(-65537)", "data.at(-2147483648)",
    "data.skip(1023)", "data.skip(1024)", "data.skip(1025)", "data.skip(2147483647).min()",
    "data.skip(-1)", "data.skip(-1022)", "data.skip(-1023)", "data.skip(-1024)",
    "data.skip(-1025)", "data.skip(-65536)", "data.skip(-65537)", "data.skip(-2147483648)",
    "data.take(1024)", "data.take(1025)", "data.take(2147483647)", "data.take(-1)",
    "data.take(-1022)", "data.take(-1023)", "data.take(-1024)", "data.take(-1025)",
    "data.take(-65536)", "data.take(-65537)", "data.take(-2147483647)", "data.take(-2147483648)",
    "data.skip(512).take(511).sum()", "data.skip(512).take(-1).skip(-511)", "data.take(0).max()",
    "data.max().sub(data.min())", "data.min().div(-1)", "data.max().add(1)",
    "data.min().mul(data.max())", "data.sumBy(\\x -> x)", "data.sumBy(\\x -> x.div(-1))",
    "data.sumBy(\\x -> x.div(x))", "data.sumBy(\\x -> x.mul(x))", "data.sumBy(\\x -> 2147483647)",
    "data.sumBy(\\x -> data.min())", "data.countWhere(\\x -> x.gt(-2147483648))",
    "data.longestRun(\\x -> x.eq(2147483647))", "data.longestRun(\\x -> x.gt(0))",
    "data.countWhere(\\x -> data.skip(x))", "data.take(0).countWhere(\\x -> y)",
    "data.take(30).sumBy(\\p -> data.skip(990).countWhere(\\q -> q.gt(p)))",
    "data.bestSum(-2147483648)", "data.bestSum(-1)", "data.bestSum(0)", "data.bestSum(1)",
    "data.bestSum(2)", "data.bestSum(3)", "data.bestSum(511)", "data.bestSum(512)",
    "data.bestSum(1022)", "data.bestSum(1023)", "data.bestSum(1024)", "data.bestSum(1025)",
    "data.bestSum(2147483647)", "data.bestSum(65537)", "data.bestAt(-2147483648)",
    "data.bestAt(-1)", "data.bestAt(0)", "data.bestAt(1)", "data.bestAt(2)", "data.bestAt(3)",
    "data.bestAt(511)", "data.bestAt(512)", "data.bestAt(1022)", "data.bestAt(1023)",
    "data.bestAt(1024)", "data.bestAt(1025)", "data.bestAt(2147483647)", "data.bestAt(65537)",
    "data.skip(512).take(511).bestSum(2)", "data.skip(512).take(511).bestAt(2)",
    "data.skip(512).take(511).bestAt(511)", "data.skip(512).take(511).bestSum(512)",
    "data.skip(1022).bestAt(2)", "data.skip(1024).bestSum(1)", "data.take(0).bestAt(1)",
    "data.take(9).sumBy(\\w -> data.bestAt(w))", "data.take(9).sumBy(\\w -> data.bestSum(w))",
];

#[test]
fn extreme_recordings() {
    let mut rng = Rng::new(12);
    for (seed, recording) in recordings().iter().enumerate() {
        let mut pair = Pair::new(seed as u64);
        pair.call(&open(recording));
        for (at, text) in TEXTS.iter().enumerate() {
            show(&mut pair, recording, text.as_bytes(), [1, 2, u32::MAX][at % 3]);
        }
        for _ in 0..150 {
            let text = match rng.below(6) {
                5 => pasted(&mut rng),
                kind => {
                    let tokens = match kind {
                        0 | 1 => formula(&mut rng),
                        2 | 3 => nested(&mut rng),
                        _ => single(&mut rng),
                    };
                    join(&mut rng, &tokens)
                }
            };
            if is_affordable(&text, recording.len()) {
                show(&mut pair, recording, &text, 1);
            }
        }
        pair.check_state();
    }
}

/// A recording for best stretches: readings of any size, or so few different ones that
/// many stretches have the greatest sum.
fn readings(rng: &mut Rng) -> Vec<i32> {
    let length = rng.pick(&[0, 1, 2, 3, 5, 8, 13, 33]);
    let sort = rng.below(4);
    let reading = |rng: &mut Rng| match sort {
        0 => rng.reading(),
        1 => rng.draw() as i32,
        2 => rng.below(3) as i32 - 1,
        _ => rng.pick(&[i32::MIN, -1, 0, i32::MAX]),
    };
    (0..length).map(|_| reading(rng)).collect()
}

/// Stretches of every length, and of one too short and too long, in windows and parts of
/// them.
#[test]
fn best_stretches() {
    let mut tally = Tally::default();
    for seed in 0..100 {
        let mut rng = Rng::new(seed);
        let recording = readings(&mut rng);
        let mut pair = Pair::new(seed);
        pair.call(&open(&recording));
        for w in -1..=recording.len() as i32 + 1 {
            for window in ["data", "data.skip(1)", "data.skip(1).take(4)"] {
                for member in ["bestSum", "bestAt"] {
                    let text = format!("{window}.{member}({w})");
                    show(&mut pair, &recording, text.as_bytes(), u32::MAX);
                }
            }
        }
        pair.check_state();
        tally.count_rules(&pair.model);
    }
    tally.check_rules(&[("bestSum", "number"), ("bestAt", "number")], 500);
    tally.check_rules(&[("bestSum", "missing 4")], 200);
    tally.check_rules(&[("bestSum", "missing 5"), ("bestAt", "missing 5")], 500);
}

/// Counts from either end of windows of every length up to 8, within them and past them.
#[test]
fn counts_from_either_end() {
    let mut tally = Tally::default();
    let readings = [3, -1, 4, -1, 5, -9, 2, 6];
    for length in 0..=readings.len() {
        let recording = &readings[..length];
        let mut pair = Pair::new(length as u64);
        for window in ["data", "data.skip(1)", "data.take(-1)", "data.skip(1).take(-1)"] {
            for member in ["skip", "take", "at"] {
                pair.call(&open(recording));
                let near = (-10..=10).chain([i32::MIN, i32::MIN + 1, i32::MAX - 1, i32::MAX]);
                for n in near {
                    let text = format!("{window}.{member}({n})");
                    show(&mut pair, recording, text.as_bytes(), u32::MAX);
                }
                pair.check_state();
                tally.count_rules(&pair.model);
            }
        }
    }
    for member in ["skip", "take", "at"] {
        tally.check_rules(&[(member, FROM_THE_END), (member, PAST_THE_FIRST)], 100);
    }
    tally.check_rules(&[("at", "number"), ("at", "missing 5")], 100);
}

/// Quotients of all signs, exact and not, and at the ends of the range.
#[test]
fn divisions() {
    let mut rng = Rng::new(15);
    let edges = [i32::MIN, i32::MIN + 1, -65_536, -1_000_003, 1_000_003, i32::MAX - 1, i32::MAX];
    let drawn: Vec<i32> = (0..8).map(|_| rng.draw() as i32 >> rng.below(30)).collect();
    let numbers: Vec<i32> = (-17..=17).chain(edges).chain(drawn).collect();
    let mut tally = Tally::default();
    for a in &numbers {
        let mut pair = Pair::new(0);
        pair.call(&open(&[]));
        for b in &numbers {
            show(&mut pair, &[], format!("{a}.div({b})").as_bytes(), 1);
        }
        pair.check_state();
        tally.count_rules(&pair.model);
    }
    tally.check_rules(&[("div", "number"), ("div", ROUNDED_BELOW_0)], 500);
    tally.check_rules(&[("div", "missing 3")], numbers.len());
    tally.check_rules(&[("div", "missing 4")], 1);
}

/// Every entry after random calls, and of texts that grow when their lets are replaced.
#[test]
fn printed_texts_are_read_as_their_entries() {
    let mut tally = Tally::default();
    for seed in 0..60 {
        let mut rng = Rng::new(seed);
        let mut pair = Pair::after(seed, &session(3_000_000 + seed, 40));
        for _ in 0..20 {
            pair.call(&edit(grown(&mut rng)));
            pair.call(&edit(pasted(&mut rng)));
        }
        for entry in 0..pair.model.forms().list.len() as u32 {
            let call = print(entry, TEXT_BYTES);
            tally.count_print(&pair.model, &call);
            tally.count(&print_and_read(&mut pair, entry));
        }
        pair.check_state();
    }
    tally.check(&["printed", "refused 15", "refused 16"], 500);
    tally.check_prints(&["Declined(1)", "Declined(10)", "Declined(12)", OTHER_LEVELS], 50);
    tally.check_never();
}

/// Formulas pasted inside one another: every part is previewed, in the order of places or
/// against it, and printed. No text is refused with 11.
#[test]
fn pasted_formulas() {
    let mut tally = Tally::default();
    for seed in 0..150 {
        let mut rng = Rng::new(seed);
        let recording: Vec<i32> = (0..rng.below(6)).map(|_| rng.reading()).collect();
        let mut pair = Pair::new(seed);
        pair.call(&open(&recording));
        for _ in 0..40 {
            let text = pasted(&mut rng);
            if !is_affordable(&text, recording.len()) {
                continue;
            }
            let answer = pair.call(&edit(&text));
            tally.count(&answer);
            let Answer::Edited { mut places, .. } = answer else { continue };
            if rng.one_in(2) {
                places.reverse();
            }
            for place in places {
                tally.count(&pair.call(&preview(place, u32::MAX)));
                tally.count_print(&pair.model, &print(place, TEXT_BYTES));
                print_and_read(&mut pair, place);
            }
        }
        pair.check_state();
    }
    tally.check(&["edited", "function", "delayed 1", "number", DELAYED_TWICE], 500);
    tally.check(&["delayed 2", "refused 10"], 50);
    tally.check_prints(&["bytes left", "OtherForm", OTHER_LEVELS], 500);
    tally.check_never();
}

#[test]
fn runs_within_runs_over_the_longest_recording() {
    let recording: Vec<i32> = (0..1024).map(|at| at * 37 % 101).collect();
    let mut pair = Pair::new(0);
    pair.call(&open(&recording));
    let text = b"data.sumBy(\\p -> data.countWhere(\\q -> q.gt(p)))";
    show(&mut pair, &recording, text, 2);
    pair.check_state();
}
