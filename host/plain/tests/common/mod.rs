//! Helpers of the tests.
#![allow(dead_code)]

use plain::model::{Answer, Model};
use plain::name::{Name, Variable};
use plain::samples::{ALL, RECORDING, Step, edit, open, preview};
use plain::shown::{Shown, Window};

/// A model just opened.
pub fn opened(recording: &[i32]) -> Model {
    let mut model = Model::new();
    assert_eq!(model.call(&open(recording)), Answer::Opened);
    model
}

/// Makes the calls and checks each answer.
pub fn follow(model: &mut Model, steps: &[Step]) {
    for (call, answer) in steps {
        assert_eq!(model.call(call), *answer, "{call:?}");
    }
}

/// Edits a text that must be accepted. Gives the whole, the new entries, the places.
pub fn edited(model: &mut Model, text: &str) -> (u32, u32, Vec<u32>) {
    match model.call(&edit(text)) {
        Answer::Edited { whole, parts, new, places } => {
            assert_eq!(parts as usize, places.len(), "{text}");
            (whole, new, places)
        }
        other => panic!("{text}: {other:?}"),
    }
}

/// What a text finally shows over a recording.
pub fn shown(recording: &[i32], text: &str) -> Shown {
    let mut model = opened(recording);
    let (whole, _, _) = edited(&mut model, text);
    match model.call(&preview(whole, ALL)) {
        Answer::Finished { shown, .. } => shown,
        other => panic!("{text}: {other:?}"),
    }
}

/// What each text shows over the recording of the sample previews.
pub fn check_shown(rows: &[(&str, Shown)]) {
    for (text, expected) in rows {
        assert_eq!(shown(&RECORDING, text), *expected, "{text}");
    }
}

pub fn name(word: &str) -> Name {
    Name::new(word).expect("a name has at most 8 bytes")
}

pub fn variable(word: &str, level: usize) -> Variable {
    Variable { name: name(word), level }
}

pub fn number(value: i32) -> Shown {
    Shown::Number(value)
}

pub fn window(start: usize, length: usize) -> Shown {
    Shown::Window(Window { start, length })
}

pub fn function(word: &str) -> Shown {
    Shown::Function(name(word))
}

pub fn delayed(words: &[&str]) -> Shown {
    Shown::Delayed(words.iter().map(|word| name(word)).collect())
}

pub fn missing(reason: u8) -> Shown {
    Shown::Missing(reason)
}
