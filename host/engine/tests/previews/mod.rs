//! Texts that are edited and previewed to the end in the engine and the reference model.

use engine::compare::Pair;
use plain::model::Answer;
use plain::refusal::TABLE_FULL;
use plain::samples::{edit, open, preview};

pub const FULL: Answer = Answer::Refused { number: TABLE_FULL, place: 0 };

/// Previews of an entry, first without an allowance, then with this one up to the end. Gives
/// the last answer.
pub fn preview_to_end(pair: &mut Pair, entry: u32, allowance: u32) -> Answer {
    pair.call(&preview(entry, 0));
    loop {
        match pair.call(&preview(entry, allowance)) {
            Answer::NotYet { .. } => (),
            answer => return answer,
        }
    }
}

/// Edits a text and previews it to the end, over a new opening if the table is full. Gives the
/// last answer.
pub fn show(pair: &mut Pair, recording: &[i32], text: &[u8], allowance: u32) -> Answer {
    let mut answer = pair.call(&edit(text));
    if answer == FULL {
        pair.check_state();
        pair.call(&open(recording));
        answer = pair.call(&edit(text));
    }
    match answer {
        Answer::Edited { whole, .. } => preview_to_end(pair, whole, allowance),
        refused => refused,
    }
}
