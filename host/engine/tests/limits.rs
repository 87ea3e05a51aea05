//! Each limit of 01: what is just taken, and one more is refused.

use engine::cache::Cache;
use engine::memory::Memory;
use plain::model::{Answer, Call};
use plain::samples::printed::{declined, printed_at_limits};
use plain::samples::taken::{calls_on_one, forms_128, in_brackets, nest};
use plain::samples::{ALL, edit, open, preview, print};
use plain::shown::{Shown, Window};

fn opened(recording: &[i32]) -> Cache {
    let mut cache = Cache::new(&Memory::filled(|| u64::MAX));
    assert_eq!(cache.call(&open(recording)), Answer::Opened);
    cache
}

/// What an edit of a text in a new cache gives: the parts, or the number and place.
fn parts(text: &str) -> Result<u32, (u8, u32)> {
    match opened(&[1, 2, 3]).call(&edit(text)) {
        Answer::Edited { parts, .. } => Ok(parts),
        Answer::Refused { number, place } => Err((number, place)),
        other => panic!("{text}: {other:?}"),
    }
}

#[test]
fn bytes_of_a_text() {
    let long = format!("1.add(2){}", " ".repeat(1016));
    assert_eq!((long.len(), parts(&long)), (1024, Ok(3)));
    assert_eq!(parts(&format!("{long} ")), Err((1, 0)));
    let digits = format!("{}7", "0".repeat(1023));
    assert_eq!(parts(&digits), Ok(1));
    assert_eq!(parts(&format!("0{digits}")), Err((1, 0)));
}

#[test]
fn parts_of_a_text() {
    let full = format!("{}.count()", calls_on_one(63));
    assert_eq!(parts(&full), Ok(128));
    assert_eq!(parts(&format!("{full}.count()")), Err((12, full.len() as u32)));
    let one_more = format!("{}.add(1)", calls_on_one(63));
    assert_eq!(parts(&one_more), Err((12, one_more.len() as u32 - 2)));
}

#[test]
fn open_marks_of_a_text() {
    assert_eq!(parts(&in_brackets("1", 16)), Ok(1));
    assert_eq!(parts(&in_brackets("1", 17)), Err((12, 16)));
    assert_eq!(parts(&nest(17)), Err((12, 16)));
    let lets = |count: usize| format!("{}x", "let x = 1 in ".repeat(count));
    assert_eq!(parts(&lets(16)), Ok(33));
    assert_eq!(parts(&lets(17)), Err((12, 16 * 13)));
    let calls = |count: usize| format!("{}1{}", "1.add(".repeat(count), ")".repeat(count));
    assert_eq!(parts(&calls(16)), Ok(33));
    assert_eq!(parts(&calls(17)), Err((12, 16 * 6 + 5)));
    assert_eq!(parts(&in_brackets("\\a -> \\b -> a", 14)), Ok(3));
    assert_eq!(parts(&in_brackets("\\a -> \\b -> a", 15)), Err((12, 21)));
}

#[test]
fn open_lambdas_of_a_text() {
    assert_eq!(parts("\\a -> \\b -> a.add(b)"), Ok(5));
    assert_eq!(parts("\\a -> \\a -> a.add(a)"), Ok(5));
    assert_eq!(parts("\\a -> \\a -> \\a -> 1"), Err((10, 12)));
    assert_eq!(parts("\\a -> \\b -> \\c -> 1"), Err((10, 12)));
}

#[test]
fn bytes_of_a_name() {
    assert_eq!(parts("let abcdefgh = 1 in \\hgfedcba -> abcdefgh"), Ok(4));
    assert_eq!(parts("abcdefghi"), Err((7, 0)));
    assert_eq!(parts("let abcdefghi = 1 in 2"), Err((7, 4)));
    assert_eq!(parts("\\abcdefghi -> 1"), Err((7, 1)));
    let mut cache = opened(&[]);
    cache.call(&edit("\\abcdefgh -> \\z9 -> abcdefgh.add(z9)"));
    let words = |entry: u32, cache: &mut Cache| match cache.call(&preview(entry, ALL)) {
        Answer::Finished { shown: Shown::Delayed(names), .. } => {
            names.iter().map(|name| name.word()).collect::<Vec<String>>()
        }
        other => panic!("{other:?}"),
    };
    assert_eq!(words(2, &mut cache), ["abcdefgh", "z9"]);
}

#[test]
fn numbers() {
    assert_eq!(parts("2147483647.add(-2147483648)"), Ok(3));
    assert_eq!(parts("2147483648"), Err((6, 0)));
    assert_eq!(parts("1.add(-2147483649)"), Err((6, 6)));
}

#[test]
fn readings_of_a_recording() {
    let mut cache = opened(&[5; 1024]);
    cache.call(&edit("data"));
    let shown = Shown::Window(Window { start: 0, length: 1024 });
    let whole = Answer::Finished { worked: 0, shown };
    assert_eq!(cache.call(&preview(0, 0)), whole);
    assert_eq!(cache.call(&open(&[5; 1025])), Answer::Refused { number: 2, place: 0 });
    assert_eq!(cache.call(&preview(0, 0)), whole);
    assert_eq!(cache.call(&open(&[])), Answer::Opened);
}

#[test]
fn entries_of_a_table() {
    let mut cache = opened(&[]);
    for round in 0..4 {
        let answer = cache.call(&edit(forms_128(64 * round)));
        assert!(matches!(answer, Answer::Edited { new: 128, .. }), "{answer:?}");
    }
    let full = Answer::Refused { number: 13, place: 0 };
    assert_eq!(cache.call(&edit("1000")), full);
    assert_eq!(cache.call(&edit(forms_128(256))), full);
    assert!(matches!(cache.call(&preview(511, 512)), Answer::Finished { worked: 64, .. }));
    assert_eq!(cache.call(&preview(512, 1)), Answer::Refused { number: 14, place: 0 });
    assert_eq!(cache.call(&preview(u32::MAX, 1)), Answer::Refused { number: 14, place: 0 });
    assert_eq!(cache.call(&print(511, 1024)), Answer::Printed { text: forms_128(192) });
    assert_eq!(cache.call(&print(512, 1024)), Answer::Refused { number: 14, place: 0 });
    assert_eq!(cache.call(&print(u32::MAX, 0)), Answer::Refused { number: 14, place: 0 });
}

#[test]
fn places_lent() {
    let with =
        |places: usize| opened(&[]).call(&Call::Edit { text: b"7".to_vec(), places, enough: true });
    assert_eq!(with(128), Answer::Edited { whole: 0, parts: 1, new: 1, places: vec![0] });
    assert_eq!(with(127), Answer::Refused { number: 3, place: 0 });
}

/// The bytes of the whole of a text when it is printed into so many, or the number.
fn printed(text: &str, room: usize) -> Result<usize, u8> {
    let mut cache = opened(&[1, 2, 3]);
    let Answer::Edited { whole, .. } = cache.call(&edit(text)) else { panic!("{text}") };
    match cache.call(&print(whole, room)) {
        Answer::Printed { text } => Ok(text.len()),
        Answer::Refused { number, .. } => Err(number),
        other => panic!("{text}: {other:?}"),
    }
}

/// Bytes, parts, open marks and open lambdas of a printed text: what is just taken.
#[test]
fn printed_texts_at_the_limits() {
    for (text, bytes) in printed_at_limits() {
        for room in [bytes, bytes + 1, 1024, 1025, 5000] {
            assert_eq!(printed(&text, room), Ok(bytes), "{text}");
        }
        assert_eq!(printed(&text, bytes - 1), Err(15), "{text}");
    }
}

/// One more, and no text is printed, however many bytes are lent.
#[test]
fn printed_texts_beyond_the_limits() {
    for (text, _) in declined() {
        for room in [0, 1, 1023, 1024, 1025, 5000, 100_000] {
            assert_eq!(printed(&text, room), Err(15), "{text}");
        }
    }
}
