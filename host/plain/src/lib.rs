//! The reference model of the formula engine (01: the plain book).
//!
//! It answers the calls open, edit and preview as document 01 says, and print, with
//! requests T-01, T-02, T-04 and T-05 of 02, by plain recursion and without speed in mind, so
//! that the engine can be compared with it call by call. One edit passes through the
//! modules in this order: `token` cuts the text into tokens, `syntax` reads them or
//! refuses one, `bind` turns the tree into let-free forms, `form` numbers them. One
//! preview takes `eval`, which knows the members by the table in `member` and their rules
//! in `rule`. `print` writes a form as a text. `model` holds the state and decides each
//! call. `evaluate` (02, T-07) shows a part of a text without a state. `samples` and `random`
//! are data for tests, and `tally` counts what random data reaches.

pub mod bind;
pub mod eval;
pub mod evaluate;
pub mod form;
pub mod limits;
pub mod member;
pub mod model;
pub mod name;
pub mod nesting;
mod position;
pub mod print;
pub mod random;
pub mod refusal;
pub mod rule;
pub mod samples;
pub mod shown;
pub mod syntax;
pub mod tally;
pub mod token;
