//! The plain evaluator (02, T-07): what a part of a text shows over a recording, without a
//! state. It reads, binds and evaluates from nothing at each call.

use crate::bind::bind;
use crate::eval::Evaluation;
use crate::form::Forms;
use crate::limits::{RECORDING_READINGS, TEXT_BYTES};
use crate::refusal::{NO_SUCH_ENTRY, RECORDING_TOO_LONG, Refusal, TEXT_TOO_LONG};
use crate::shown::Shown;
use crate::syntax::parse;

/// How many parts the text has, and what the part at the place shows.
#[derive(Clone, PartialEq, Eq, Debug)]
pub struct Evaluated {
    pub parts: usize,
    pub shown: Shown,
}

/// Shows the part at a place. Refused, in this order: a text too long, a recording too long,
/// a text that is not read, a place that is no part's.
pub fn evaluate(text: &[u8], recording: &[i32], place: u32) -> Result<Evaluated, Refusal> {
    let refused = |number: u8| Refusal { number, place: 0 };
    if text.len() > TEXT_BYTES {
        return Err(refused(TEXT_TOO_LONG));
    }
    if recording.len() > RECORDING_READINGS {
        return Err(refused(RECORDING_TOO_LONG));
    }
    let text = parse(text)?;
    let mut forms = Forms::default();
    let places = bind(&text, &mut forms).places;
    let number = *places.get(place as usize).ok_or(refused(NO_SUCH_ENTRY))?;
    let shown = Evaluation::new(&forms, recording).show(number);
    Ok(Evaluated { parts: text.parts, shown })
}
