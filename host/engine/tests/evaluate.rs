//! Evaluations without a cache: each place of a text gets what the plain evaluator gives it,
//! and what the engine's own cache finally shows there. That text and recording keep their
//! contents is tested at each call.
//!
//! FORMULA_SEED and FORMULA_TEXTS set another seed and number of random texts:
//!     FORMULA_SEED=77 FORMULA_TEXTS=100000 cargo test --release -p engine --test evaluate

use engine::cache::Cache;
use engine::compare::setting;
use engine::evaluate::evaluate;
use engine::memory::Memory;
use plain::evaluate::Evaluated;
use plain::model::Answer;
use plain::random::rng::Rng;
use plain::random::{any_text, is_affordable, short_recording};
use plain::refusal::{NO_SUCH_ENTRY, Refusal};
use plain::samples::evaluated::{evaluated, short};
use plain::samples::refused::refused_texts;
use plain::samples::taken::{
    calls_on_one, doubled, doubled_deep, in_brackets, nested_runs, taken_texts,
};
use plain::samples::{RECORDING, edit, open, preview, previews};
use plain::shown::Shown;
use plain::tally::{DELAYED_TWICE, Tally};

/// Places that no text has, some of them equal to lower ones in fewer bits.
const BEYOND: [u32; 7] = [128, 129, 255, 256, 65_535, 65_536, u32::MAX];

fn refused(number: u8, place: usize) -> Refusal {
    Refusal { number, place }
}

/// A cache over memory of any contents after an open and an edit; and the entry of each part,
/// or why the text is refused.
fn fresh(rng: &mut Rng, text: &[u8], recording: &[i32]) -> (Cache, Result<Vec<u32>, Refusal>) {
    let mut cache = Cache::new(&Memory::filled(|| rng.draw()));
    assert_eq!(cache.call(&open(recording)), Answer::Opened);
    let places = match cache.call(&edit(text)) {
        Answer::Edited { places, .. } => Ok(places),
        Answer::Refused { number, place } => Err(refused(number, place as usize)),
        other => panic!("{other:?}"),
    };
    (cache, places)
}

/// What an entry shows in the end, by previews with any allowance.
fn finally(rng: &mut Rng, cache: &mut Cache, entry: u32) -> Shown {
    loop {
        let allowance = rng.pick(&[1, 1, 2, 3, 7, 512, u32::MAX]);
        match cache.call(&preview(entry, allowance)) {
            Answer::Finished { shown, .. } => return shown,
            Answer::NotYet { .. } => (),
            other => panic!("{other:?}"),
        }
    }
}

/// Compares all places of a text, and places beyond, with the cache and the plain evaluator.
/// Now and then a place has a cache of its own; the others share one. Gives what the parts
/// show, or why the text is refused.
fn check(rng: &mut Rng, text: &[u8], recording: &[i32]) -> Result<Vec<Shown>, Refusal> {
    let compare = |place: u32, expected: Result<Evaluated, Refusal>| {
        let words = || format!("place {place} of {} over {recording:?}", text.escape_ascii());
        assert_eq!(evaluate(text, recording, place), expected, "{}", words());
        assert_eq!(plain::evaluate::evaluate(text, recording, place), expected, "{}", words());
    };
    let (mut cache, places) = fresh(rng, text, recording);
    let entries = match places {
        Ok(entries) => entries,
        Err(refusal) => {
            BEYOND.into_iter().chain([0, 1]).for_each(|place| compare(place, Err(refusal)));
            return Err(refusal);
        }
    };
    let parts = entries.len();
    let mut all = Vec::new();
    for (place, entry) in entries.into_iter().enumerate() {
        if rng.one_in(8) {
            cache = fresh(rng, text, recording).0;
        }
        let shown = finally(rng, &mut cache, entry);
        compare(place as u32, Ok(Evaluated { parts, shown: shown.clone() }));
        all.push(shown);
    }
    let no_part = Err(refused(NO_SUCH_ENTRY, 0));
    BEYOND.into_iter().chain([parts as u32]).for_each(|place| compare(place, no_part.clone()));
    Ok(all)
}

/// What the parts of a text show, which is read.
fn shown(text: &str, recording: &[i32]) -> Vec<Shown> {
    let shown = check(&mut Rng::new(1), text.as_bytes(), recording);
    shown.unwrap_or_else(|refusal| panic!("{refusal:?}: {text}"))
}

/// The same in short.
fn in_short(text: &str, recording: &[i32]) -> String {
    let all: Vec<String> = shown(text, recording).iter().map(short).collect();
    all.join(" ")
}

/// How many parts a text has, or its number and place.
fn parts(text: &str) -> Result<usize, (u8, usize)> {
    let shown = check(&mut Rng::new(2), text.as_bytes(), &RECORDING);
    shown.map(|shown| shown.len()).map_err(|refusal| (refusal.number, refusal.place))
}

/// A recording over which a text takes little time.
fn recording(rng: &mut Rng, text: &[u8]) -> Vec<i32> {
    let is_long = rng.one_in(12);
    let mut readings =
        if is_long { (0..1024).map(|_| rng.reading()).collect() } else { short_recording(rng) };
    if !is_affordable(text, readings.len()) {
        readings.truncate(1);
    }
    readings
}

#[test]
fn random_texts() {
    let mut rng = Rng::new(setting("FORMULA_SEED", 0));
    let mut tally = Tally::default();
    let texts = setting("FORMULA_TEXTS", 8_000);
    for _ in 0..texts {
        let mut text = any_text(&mut rng);
        if rng.one_in(40) {
            text.resize(1022 + rng.below(5) as usize, b' ');
        }
        let recording = recording(&mut rng, &text);
        match check(&mut rng, &text, &recording) {
            Ok(all) => all.iter().for_each(|shown| tally.count_evaluated(Ok(shown))),
            Err(refusal) => tally.count_evaluated(Err(refusal)),
        }
    }
    if texts >= 8_000 {
        tally.check(&["number", "window", "function", "delayed 1", "delayed 2"], 100);
        tally.check(&["missing 1", "missing 2", "missing 3", "missing 4", "missing 5"], 50);
        tally.check(&[DELAYED_TWICE], 50);
        tally.check(&["refused 1", "refused 5", "refused 6", "refused 7", "refused 8"], 10);
        tally.check(&["refused 9", "refused 10", "refused 12"], 10);
    }
    tally.check_never();
}

/// What was worked out by hand, and the sample previews.
#[test]
fn known_texts() {
    for (text, expected) in evaluated() {
        assert_eq!(in_short(text, &RECORDING), expected, "{text}");
    }
    // Compared in words: of two kinds the compiler may compare what only one of them has, which
    // Valgrind reports.
    for sample in previews() {
        let expected = format!("{:?}", sample.shown);
        let mut parts = shown(sample.text, &RECORDING).into_iter();
        assert!(parts.any(|part| format!("{part:?}") == expected), "{}", sample.text);
    }
}

#[test]
fn texts_that_are_taken_and_refused() {
    let mut rng = Rng::new(3);
    for taken in taken_texts() {
        let shown = check(&mut rng, &taken.text, &RECORDING).expect("it is taken");
        assert_eq!(shown.len() as u32, taken.parts);
    }
    for text in refused_texts() {
        let expected = refused(text.number, text.place as usize);
        assert_eq!(check(&mut rng, &text.text, &RECORDING), Err(expected));
    }
}

/// The number alone, 0 where there is none.
fn number(text: &[u8], recording: &[i32], place: u32) -> u8 {
    let answer = evaluate(text, recording, place);
    assert_eq!(answer, plain::evaluate::evaluate(text, recording, place));
    answer.map_or_else(|refusal| refusal.number, |_| 0)
}

/// 1 comes before 2, 2 before what the text is refused for, and that before 14; and each
/// before all that come later.
#[test]
fn refusals_in_order() {
    let (long, blanks) = ([7; 1025], [b' '; 1025]);
    for text in refused_texts() {
        let longer = [&text.text[..], &blanks].concat();
        for place in BEYOND.into_iter().chain([0, 1]) {
            assert_eq!(number(&longer, &long, place), 1);
            assert_eq!(number(&longer, &long[1..], place), 1);
            assert_eq!(number(&text.text, &long, place), 2);
            assert_eq!(number(&text.text, &long[1..], place), text.number);
        }
    }
    let text = [&b"1"[..], &blanks].concat();
    for (place, otherwise) in BEYOND.map(|place| (place, 14)).into_iter().chain([(0, 0), (1, 14)]) {
        assert_eq!(number(&text[..1025], &long, place), 1);
        assert_eq!(number(&text[..1025], &long[1..], place), 1);
        assert_eq!(number(&text[..1024], &long, place), 2);
        assert_eq!(number(&text[..1024], &long[1..], place), otherwise);
    }
}

#[test]
fn bytes_and_parts_of_a_text() {
    let digits = format!("{}7", "0".repeat(1023));
    assert_eq!(in_short(&digits, &[]), "7");
    assert_eq!(parts(&format!("0{digits}")), Err((1, 0)));
    let full = format!("{}.count()", calls_on_one(63));
    assert_eq!(parts(&full), Ok(128));
    assert_eq!(parts(&format!("{full}.count()")), Err((12, full.len())));
}

#[test]
fn open_marks_and_lambdas_of_a_text() {
    let lets = |count: usize| format!("{}x", "let x = 1 in ".repeat(count));
    let values = |count: usize| format!("{}1{}", "let x = ".repeat(count), " in x".repeat(count));
    let calls = |count: usize| format!("{}1{}", "1.add(".repeat(count), ")".repeat(count));
    assert_eq!(parts(&in_brackets("1", 16)), Ok(1));
    assert_eq!(parts(&in_brackets("1", 17)), Err((12, 16)));
    assert_eq!((parts(&lets(16)), parts(&lets(17))), (Ok(33), Err((12, 16 * 13))));
    assert_eq!((parts(&values(16)), parts(&values(17))), (Ok(33), Err((12, 16 * 8))));
    assert_eq!((parts(&calls(16)), parts(&calls(17))), (Ok(33), Err((12, 16 * 6 + 5))));
    assert_eq!(in_short(&in_brackets(r"\a -> \b -> a", 14), &[]), r"\a a a");
    assert_eq!(parts(&in_brackets(r"\a -> \b -> a", 15)), Err((12, 21)));
    assert_eq!(parts(r"\a -> \a -> \a -> a"), Err((10, 12)));
}

#[test]
fn names_and_numbers_of_a_text() {
    let names = in_short(r"\abcdefgh -> \z9 -> abcdefgh.add(z9)", &[]);
    assert_eq!(names, r"\abcdefgh abcdefgh abcdefgh abcdefgh&z9 z9");
    assert_eq!(parts(r"\a -> abcdefghi"), Err((7, 6)));
    assert_eq!(parts("let abcdefghi = 1 in 2"), Err((7, 4)));
    let ends = in_short("2147483647.add(-2147483648)", &[]);
    assert_eq!(ends, "2147483647 -1 -2147483648");
    assert_eq!(parts("2147483648"), Err((6, 0)));
    assert_eq!(parts("1.add(-2147483649)"), Err((6, 6)));
}

#[test]
fn readings_of_a_recording() {
    for length in [0, 1, 1023, 1024] {
        let shown = in_short(r"data.countWhere(\b -> b)", &vec![-1; length]);
        assert_eq!(shown, format!(r"0+{length} {length} \b b"));
    }
    for length in [1025, 2048, 65_536, 65_537] {
        assert_eq!(evaluate(b"data", &vec![-1; length], 0), Err(refused(2, 0)));
    }
}

/// Chains as long, and runs as deep in one another, as a text can have. The windows of the
/// runs have one reading, but for the first one's and the last one's.
#[test]
fn deepest_texts() {
    assert_eq!(shown(&format!("data{}", ".sum()".repeat(127)), &[7]).len(), 128);
    let deep = format!("{}data{}{}", "data.skip(".repeat(15), ".sum()".repeat(97), ")".repeat(15));
    assert_eq!(shown(&deep, &[7]).len(), 128);
    for depth in 2..=22 {
        for (recording, sum) in [(&[][..], 0), (&[0], 0), (&[1], 1), (&[1, 1, 1], 9)] {
            let all = shown(&nested_runs(depth), recording);
            assert!(all.contains(&Shown::Number(sum)), "{depth}: {all:?}");
        }
    }
}

/// Lets that each use the one before twice, as many as a text has marks or parts for: by
/// themselves, and in a function that is run.
#[test]
fn doubling_lets() {
    let first = |text: &str| shown(text, &[]).swap_remove(0);
    assert_eq!(first(&doubled("1", 15, "LAST")), Shown::Number(1 << 15));
    assert_eq!(first(&doubled_deep("1", 30)), Shown::Number(1 << 30));
    assert_eq!(first(&doubled_deep("1", 31)), Shown::Missing(4));
    assert_eq!(first(&doubled_deep("-1", 31)), Shown::Number(i32::MIN));
    let marks = format!("data.sumBy(\\x -> {})", doubled("x", 13, "LAST"));
    assert_eq!(shown(&marks, &[1; 1024])[1], Shown::Number(1 << 23));
    let full = format!("data.countWhere(\\x -> {})", doubled_deep("x", 31));
    let all = shown(&full, &[0, -1, 0, -1, -1]);
    assert_eq!((all.len(), &all[1]), (128, &Shown::Number(3)));
    assert_eq!(shown(&full, &[0, -1, 1])[1], Shown::Missing(4));
}
