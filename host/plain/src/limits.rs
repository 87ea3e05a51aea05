//! The limits of 01, each named after the thing it limits.

/// Most readings of a recording.
pub const RECORDING_READINGS: usize = 1024;
/// Most bytes of a text.
pub const TEXT_BYTES: usize = 1024;
/// Most parts of a text.
pub const TEXT_PARTS: usize = 128;
/// Fewest entries that a lent list of places must have.
pub const PLACES: usize = 128;
/// Most entries of the table, that is, most forms held.
pub const TABLE_ENTRIES: usize = 512;
/// Most of `let`, `\` and `(` that are open at one point of a text.
pub const OPEN_MARKS: usize = 16;
/// Most of `\` that are open at one point of a text.
pub const OPEN_LAMBDAS: usize = 2;
/// Most bytes of a name.
pub const NAME_BYTES: usize = 8;
