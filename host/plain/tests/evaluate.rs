//! The plain evaluator (02, T-07): what each part shows, the refusals and their order, and
//! that it shows what a fresh model finally shows.

mod common;

use common::{edited, missing, number, opened};
use plain::evaluate::{Evaluated, evaluate};
use plain::model::Answer;
use plain::random::rng::Rng;
use plain::random::{any_text, is_affordable, short_recording};
use plain::refusal::Refusal;
use plain::samples::evaluated::{evaluated, short};
use plain::samples::refused::refused_texts;
use plain::samples::taken::{doubled, doubled_deep, taken_texts};
use plain::samples::{ALL, RECORDING, edit, preview, previews};
use plain::shown::Shown;
use plain::tally::{DELAYED_TWICE, Tally};

/// Places that no text has, some of them equal to lower ones in fewer bits.
const BEYOND: [u32; 6] = [128, 255, 256, 65_535, 65_536, u32::MAX];

fn refused(number: u8, place: usize) -> Result<Evaluated, Refusal> {
    Err(Refusal { number, place })
}

/// What each part of a text shows.
fn shown(text: &str, recording: &[i32]) -> Vec<Shown> {
    let show = |place: usize| evaluate(text.as_bytes(), recording, place as u32);
    let parts = show(0).expect("the text is read").parts;
    let show = |place: usize| match show(place) {
        Ok(evaluated) if evaluated.parts == parts => evaluated.shown,
        other => panic!("{text}, {place}: {other:?}"),
    };
    (0..parts).map(show).collect()
}

#[test]
fn parts_show_what_they_come_to() {
    for (text, expected) in evaluated() {
        let shown: Vec<String> = shown(text, &RECORDING).iter().map(short).collect();
        assert_eq!(shown.join(" "), expected, "{text}");
    }
}

/// A part of the whole's entry shows what the sample shows.
#[test]
fn samples() {
    for sample in previews() {
        let (whole, _, places) = edited(&mut opened(&RECORDING), sample.text);
        let place = places.iter().position(|entry| *entry == whole).expect("the whole is a part");
        assert_eq!(shown(sample.text, &RECORDING)[place], sample.shown, "{}", sample.text);
    }
}

/// The part has its number of parts beside it, and one place more is none.
#[test]
fn places_of_texts_at_the_limits() {
    for taken in taken_texts() {
        let show = |place: u32| evaluate(&taken.text, &RECORDING, place);
        let last = show(taken.parts - 1).expect("the last part");
        assert_eq!(last.parts as u32, taken.parts);
        for place in BEYOND.into_iter().chain([taken.parts]) {
            assert_eq!(show(place), refused(14, 0), "{place}");
        }
    }
}

#[test]
fn recordings_at_the_limits() {
    let count = |readings: usize| evaluate(b"data.count()", &vec![7; readings], 1);
    for readings in [0, 1, 1023, 1024] {
        let shown = number(readings as i32);
        assert_eq!(count(readings), Ok(Evaluated { parts: 2, shown }));
    }
    for readings in [1025, 65_536] {
        assert_eq!(count(readings), refused(2, 0));
    }
}

/// 1 comes before 2, 2 before what the text is refused for, and that before 14; and each
/// before all that come later. A text that is refused has no part, so that each place is 14
/// too.
#[test]
fn refusals_in_order() {
    let long = [0; 1025];
    for text in refused_texts() {
        let expected = refused(text.number, text.place as usize);
        let longer = [&text.text[..], &[b' '; 1025]].concat();
        for place in BEYOND.into_iter().chain([0, 1]) {
            assert_eq!(evaluate(&longer, &long, place), refused(1, 0));
            assert_eq!(evaluate(&longer, &[], place), refused(1, 0));
            assert_eq!(evaluate(&text.text, &long, place), refused(2, 0));
            assert_eq!(evaluate(&text.text, &long[1..], place), expected);
        }
    }
    let spaces = [&b"1"[..], &[b' '; 1024]].concat();
    for place in BEYOND.into_iter().chain([0, 1]) {
        assert_eq!(evaluate(&spaces, &long, place), refused(1, 0));
        assert_eq!(evaluate(&spaces, &[], place), refused(1, 0));
        assert_eq!(evaluate(b"1", &long, place), refused(2, 0));
    }
    assert_eq!(evaluate(&spaces[..1024], &long[1..], 1), refused(14, 0));
    assert!(evaluate(&spaces[..1024], &long[1..], 0).is_ok());
}

/// Lets that double, as many as a text has parts for.
#[test]
fn doubling_lets() {
    let whole = |text: &str, recording: &[i32]| shown(text, recording)[0].clone();
    assert_eq!(whole(&doubled("1", 15, "LAST"), &[]), number(1 << 15));
    assert_eq!(whole(&doubled_deep("1", 30), &[]), number(1 << 30));
    assert_eq!(whole(&doubled_deep("1", 31), &[]), missing(4));
    assert_eq!(whole(&doubled_deep("-1", 31), &[]), number(i32::MIN));
    let run = format!("data.countWhere(\\x -> {})", doubled_deep("x", 31));
    assert_eq!(shown(&run, &[0, -1, 0, -1, -1])[1], number(3));
    assert_eq!(shown(&run, &[0, -1, 1])[1], missing(4));
}

/// Each place of random texts, against a model that is opened and edited with the text.
#[test]
fn a_fresh_model_finally_shows_the_same() {
    let mut rng = Rng::new(7);
    let mut tally = Tally::default();
    for _ in 0..6_000 {
        let (text, recording) = (any_text(&mut rng), short_recording(&mut rng));
        if !is_affordable(&text, recording.len()) {
            continue;
        }
        let mut model = opened(&recording);
        let places = match model.call(&edit(&text)) {
            Answer::Edited { places, .. } => places,
            Answer::Refused { number, place } => {
                let refusal = Refusal { number, place: place as usize };
                tally.count_evaluated(Err(refusal));
                assert_eq!(evaluate(&text, &recording, 0), Err(refusal));
                continue;
            }
            other => panic!("{other:?}"),
        };
        for (place, entry) in places.iter().enumerate() {
            let Answer::Finished { shown, .. } = model.call(&preview(*entry, ALL)) else {
                panic!("an allowance of all entries finishes");
            };
            tally.count_evaluated(Ok(&shown));
            let expected = Ok(Evaluated { parts: places.len(), shown });
            assert_eq!(evaluate(&text, &recording, place as u32), expected);
        }
    }
    tally.check(&["number", "window", "function", "delayed 1", "delayed 2", DELAYED_TWICE], 100);
    tally.check(&["missing 1", "missing 2", "missing 3", "missing 4", "missing 5"], 50);
    tally.check(&["refused 5", "refused 6", "refused 7", "refused 8", "refused 9"], 10);
    tally.check(&["refused 10", "refused 12"], 10);
}
