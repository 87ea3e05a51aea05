//! The engine's C interface, for tests that compare it with the reference model.
//!
//! `ffi` declares the calls and answers of include/formula.h, and `fields` says what an
//! answer shows. `lent` is memory with guard cells around it, and `cache` makes calls over
//! such memory and tests after each that only what the call may write was written;
//! `evaluate` makes the one call that takes no cache. `compare` makes the same calls in the
//! model. `memory` decodes a cache as docs/MEMORY.md says, and `judge` decides
//! refusal 4 from 01 and that page alone. `damage` makes caches that no call leaves,
//! and `program` compiles and runs programs in C.

pub mod cache;
pub mod compare;
pub mod damage;
pub mod evaluate;
pub mod ffi;
pub mod fields;
pub mod judge;
pub mod lent;
pub mod memory;
pub mod program;
