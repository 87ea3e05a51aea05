//! An evaluation through the C interface, which takes no cache. Text and recording stand in
//! guarded memory, which no call writes.

use crate::ffi::formula_evaluate;
use crate::fields::Fields;
use crate::lent::Read;
use plain::evaluate::Evaluated;
use plain::refusal::Refusal;

/// What the part at a place of a text shows over a recording, in the plain evaluator's terms.
/// Fields without a value are 0.
pub fn evaluate(text: &[u8], recording: &[i32], place: u32) -> Result<Evaluated, Refusal> {
    let (mut text, mut recording) = (Read::new(text), Read::new(recording));
    // SAFETY: each pointer is good for its length.
    let raw = unsafe {
        formula_evaluate(
            text.pointer(),
            text.length(),
            recording.pointer(),
            recording.length(),
            place,
        )
    };
    text.check("text");
    recording.check("recording");
    let fields = Fields::from(raw);
    if raw.refusal == 0 {
        assert_eq!(raw.place, 0, "{raw:?}");
        return Ok(Evaluated { parts: raw.parts as usize, shown: fields.shown() });
    }
    assert_eq!((raw.parts, fields), (0, Fields::default()), "{raw:?}");
    let number = u8::try_from(raw.refusal).expect("refusals are 1 to 16");
    Err(Refusal { number, place: raw.place as usize })
}
