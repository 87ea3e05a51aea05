//! Reading a text of 1,024 bytes, against a reader written by hand.

use crate::figures::Figures;
use crate::reader::{self, Counts, Output, Refusal};
use crate::{member, proved, texts, timing};
use std::hint::black_box;

/// What the proved reader gives, in the terms of the plain one.
fn proved_read(text: &[u8], output: &mut Output) -> Result<Counts, Refusal> {
    let answer = proved::read(text, &mut output.records, &mut output.places);
    match answer >> 32 {
        0 => Ok(Counts { parts: (answer >> 16) as usize, records: (answer & 0xffff) as usize }),
        number => Err(Refusal { number: number as u8, place: (answer & 0xffff) as u16 }),
    }
}

/// Both readers give the same answer, records and places.
fn agree(text: &[u8]) -> Result<Counts, Refusal> {
    let (mut ours, mut theirs) = (Output::new(), Output::new());
    let answer = proved_read(text, &mut ours);
    assert_eq!(answer, reader::read(text, &mut theirs), "{}", String::from_utf8_lossy(text));
    if answer.is_ok() {
        assert_eq!(ours.records, theirs.records, "{}", String::from_utf8_lossy(text));
        assert_eq!(ours.places, theirs.places, "{}", String::from_utf8_lossy(text));
    }
    answer
}

/// Each member with no argument, with one and with two.
fn agree_on_members() {
    for (name, _) in member::TABLE {
        for arguments in ["()", "(1)", "(1, 1)"] {
            let _ = agree(&[b"data.", *name, arguments.as_bytes()].concat());
        }
    }
}

/// Texts with one to three bytes changed: nearly all are refused, at many places and by all numbers.
fn agree_on_damaged(text: &[u8], rounds: u32) {
    const BYTES: &[u8] = b" .()\\=-,>ab01479xletindat";
    let mut state: u64 = 0x9e37_79b9_7f4a_7c15;
    let mut next = |below: usize| {
        state =
            state.wrapping_mul(6_364_136_223_846_793_005).wrapping_add(1_442_695_040_888_963_407);
        (state >> 33) as usize % below
    };
    for _ in 0..rounds {
        let mut damaged = text.to_vec();
        for _ in 0..=next(3) {
            let at = next(damaged.len());
            damaged[at] = BYTES[next(BYTES.len())];
        }
        let _ = agree(&damaged);
    }
}

pub fn measure(figures: &mut Figures) {
    agree_on_members();
    for (name, text, parts) in [
        ("128 parts, dense", texts::dense(), 128),
        ("128 parts, with blanks", texts::spaced(), 128),
        ("117 parts, names", texts::names(), 117),
    ] {
        assert_eq!(agree(&text).map(|counts| counts.parts), Ok(parts));
        agree_on_damaged(&text, 2_000);
        let (mut ours, mut theirs) = (Output::new(), Output::new());
        let times = timing::best_of(
            100,
            || proved_read(black_box(&text), &mut ours),
            || reader::read(black_box(&text), &mut theirs),
        );
        figures.part_of("reading", &format!("1,024 bytes and {name}"), times, Some(3.0));
    }
    for text in [
        texts::nested_calls(),
        texts::nested_lets(),
        texts::nested_brackets(),
        texts::long_chain(),
        texts::long_chain_with_arguments(),
        texts::chain_in_calls(),
        texts::hidden(),
    ] {
        assert!(agree(&text).is_ok());
        agree_on_damaged(&text, 2_000);
    }
}
