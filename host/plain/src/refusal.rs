//! The numbers of 01's table "When a call is declined", and those that 02, T-04 adds.
//!
//! Number 4, an ill-formed cache, is left out: the model's own forms are never
//! ill-formed, so it never comes up here.

/// 1: text over 1,024 bytes.
pub const TEXT_TOO_LONG: u8 = 1;
/// 2: over 1,024 readings.
pub const RECORDING_TOO_LONG: u8 = 2;
/// 3: too few places, or too little cache memory.
pub const MEMORY_TOO_SMALL: u8 = 3;
/// 5: no grammatical text goes on with this token or end.
pub const UNGRAMMATICAL: u8 = 5;
/// 6: number outside signed 32 bits.
pub const NUMBER_OUTSIDE: u8 = 6;
/// 7: name over 8 bytes, not after a dot.
pub const NAME_TOO_LONG: u8 = 7;
/// 8: `data` bound.
pub const DATA_BOUND: u8 = 8;
/// 9: unknown member, or a wrong number of arguments.
pub const WRONG_CALL: u8 = 9;
/// 10: third open `\`.
pub const THIRD_LAMBDA: u8 = 10;
/// 11: never occurs. It was a lambda name of an enclosing lambda; since 02, T-05 an inner
/// lambda hides an outer one of its name.
pub const LAMBDA_NAME_REPEATED: u8 = 11;
/// 12: 17th open mark or 129th part.
pub const TEXT_LIMIT: u8 = 12;
/// 13: entries held plus new forms exceed 512.
pub const TABLE_FULL: u8 = 13;
/// 14: no such entry; of an evaluation (02, T-07), no such part.
pub const NO_SUCH_ENTRY: u8 = 14;
/// 15: the printed text exceeds the lent bytes, or the reader would decline it with 1 or
/// 5 to 12.
pub const TEXT_UNFIT: u8 = 15;
/// 16: the printed text, read by itself, has a different let-free form.
pub const OTHER_FORM: u8 = 16;

/// Why a text is refused, and for 5 to 12 the byte place of the token, else 0.
#[derive(Clone, Copy, PartialEq, Eq, Debug)]
pub struct Refusal {
    pub number: u8,
    pub place: usize,
}
