//! The calls as include/formula.h declares them. A slice is a pointer and a length.

/// The answer to an edit.
#[repr(C)]
#[derive(Clone, Copy, PartialEq, Eq, Debug)]
pub struct EditAnswer {
    pub refusal: u32,
    pub place: u32,
    pub whole: u32,
    pub parts: u32,
    pub added: u32,
}

/// The answer to a preview.
#[repr(C)]
#[derive(Clone, Copy, PartialEq, Eq, Debug)]
pub struct PreviewAnswer {
    pub refusal: u32,
    pub finished: u32,
    pub worked: u32,
    pub kind: u32,
    pub first: i32,
    pub second: u32,
    pub name: u64,
    pub other: u64,
}

/// The answer to a print.
#[repr(C)]
#[derive(Clone, Copy, PartialEq, Eq, Debug)]
pub struct PrintAnswer {
    pub refusal: u32,
    pub length: u32,
}

/// The answer to an evaluation.
#[repr(C)]
#[derive(Clone, Copy, PartialEq, Eq, Debug)]
pub struct EvaluateAnswer {
    pub refusal: u32,
    pub place: u32,
    pub parts: u32,
    pub kind: u32,
    pub first: i32,
    pub second: u32,
    pub name: u64,
    pub other: u64,
}

unsafe extern "C" {
    pub fn formula_open(
        recording: *const i32,
        recording_length: usize,
        readings: *mut i32,
        readings_length: usize,
        heads: *mut u32,
        heads_length: usize,
        links: *const u16,
        links_length: usize,
        cells: *const u64,
        cells_length: usize,
    ) -> u32;

    pub fn formula_edit(
        text: *const u8,
        text_length: usize,
        places: *mut u16,
        places_length: usize,
        readings: *const i32,
        readings_length: usize,
        heads: *mut u32,
        heads_length: usize,
        links: *mut u16,
        links_length: usize,
        cells: *mut u64,
        cells_length: usize,
    ) -> EditAnswer;

    pub fn formula_preview(
        entry: u32,
        allowance: u32,
        readings: *const i32,
        readings_length: usize,
        heads: *const u32,
        heads_length: usize,
        links: *const u16,
        links_length: usize,
        cells: *mut u64,
        cells_length: usize,
    ) -> PreviewAnswer;

    pub fn formula_print(
        entry: u32,
        bytes: *mut u8,
        bytes_length: usize,
        readings: *const i32,
        readings_length: usize,
        heads: *const u32,
        heads_length: usize,
        links: *const u16,
        links_length: usize,
        cells: *const u64,
        cells_length: usize,
    ) -> PrintAnswer;

    pub fn formula_evaluate(
        text: *const u8,
        text_length: usize,
        recording: *const i32,
        recording_length: usize,
        place: u32,
    ) -> EvaluateAnswer;
}
