//! What a form shows, and the reasons for a missing result.

use crate::name::Name;

/// A window of the recording: a start, counted in the recording, and a length.
#[derive(Clone, Copy, PartialEq, Eq, Debug)]
pub struct Window {
    pub start: usize,
    pub length: usize,
}

/// The reason of a missing result, 1 to 5.
pub type Reason = u8;

/// 1: unbound name.
pub const UNBOUND_NAME: Reason = 1;
/// 2: wrong kind.
pub const WRONG_KIND: Reason = 2;
/// 3: division by zero.
pub const DIVISION_BY_ZERO: Reason = 3;
/// 4: beyond signed 32 bits.
pub const BEYOND_32_BITS: Reason = 4;
/// 5: index outside, least or greatest of an empty window, or a stretch of no reading or
/// of more than the window has.
pub const OUTSIDE_WINDOW: Reason = 5;

/// What a form shows.
#[derive(Clone, PartialEq, Eq, Debug)]
pub enum Shown {
    Number(i32),
    Window(Window),
    /// A function shows its name.
    Function(Name),
    /// The awaited names by first occurrence in the let-free form: one name twice where two
    /// variables of that spelling are awaited (02, T-05).
    Delayed(Vec<Name>),
    Missing(Reason),
}
