//! The proved functions, called over slices. A slice is passed as a pointer and a length.

mod raw {
    unsafe extern "C" {
        pub fn measured_sum(xs: *const i32, len: usize, start: u16, length: u16) -> u64;
        pub fn measured_least(xs: *const i32, len: usize, start: u16, length: u16) -> u64;
        pub fn measured_greatest(xs: *const i32, len: usize, start: u16, length: u16) -> u64;
        pub fn measured_best_sum(
            xs: *const i32,
            len: usize,
            start: u16,
            length: u16,
            w: i32,
        ) -> u64;
        pub fn measured_well_formed(
            heads: *const u32,
            heads_len: usize,
            links: *const u16,
            links_len: usize,
            cells: *const u64,
            cells_len: usize,
        ) -> u64;
        pub fn measured_read(
            text: *const u8,
            text_len: usize,
            records: *mut [u64; 256],
            places: *mut [u16; 128],
        ) -> u64;
        pub fn measured_print(
            entry: u32,
            bytes: *mut u8,
            bytes_len: usize,
            links: *const u16,
            links_len: usize,
            cells: *const u64,
            cells_len: usize,
        ) -> u64;
        pub fn measured_right(
            entry: u32,
            links: *const u16,
            links_len: usize,
            cells: *const u64,
            cells_len: usize,
        ) -> u64;
        pub fn measured_can_bind(
            links: *const u16,
            links_len: usize,
            cells: *const u64,
            cells_len: usize,
            count: u16,
            n: u16,
        ) -> u64;
        pub fn measured_bind(
            links: *const u16,
            links_len: usize,
            cells: *const u64,
            cells_len: usize,
            count: u16,
            records: *const [u64; 256],
            n: u16,
        ) -> u64;
        pub fn measured_work(
            readings: *const i32,
            readings_len: usize,
            links: *const u16,
            links_len: usize,
            cells: *mut u64,
            cells_len: usize,
            entry: u16,
            allowance: u32,
        ) -> u64;
    }
}

pub fn sum(xs: &[i32]) -> u64 {
    // SAFETY: the pointer and the length are those of one live slice.
    unsafe { raw::measured_sum(xs.as_ptr(), xs.len(), 0, xs.len() as u16) }
}

pub fn least(xs: &[i32]) -> u64 {
    // SAFETY: as for `sum`.
    unsafe { raw::measured_least(xs.as_ptr(), xs.len(), 0, xs.len() as u16) }
}

pub fn greatest(xs: &[i32]) -> u64 {
    // SAFETY: as for `sum`.
    unsafe { raw::measured_greatest(xs.as_ptr(), xs.len(), 0, xs.len() as u16) }
}

/// The greatest sum of w readings next to each other.
pub fn best_sum(xs: &[i32], w: i32) -> u64 {
    // SAFETY: as for `sum`.
    unsafe { raw::measured_best_sum(xs.as_ptr(), xs.len(), 0, xs.len() as u16, w) }
}

pub fn is_well_formed(heads: &[u32], links: &[u16], cells: &[u64]) -> bool {
    // SAFETY: each pointer and length are those of one live slice.
    let answer = unsafe {
        raw::measured_well_formed(
            heads.as_ptr(),
            heads.len(),
            links.as_ptr(),
            links.len(),
            cells.as_ptr(),
            cells.len(),
        )
    };
    answer == 1
}

/// How many entries were worked out, and whether some are left.
pub fn work(
    readings: &[i32],
    links: &[u16],
    cells: &mut [u64],
    entry: u16,
    allowance: u32,
) -> (u64, bool) {
    // SAFETY: each pointer and length are those of one live slice, and `cells` is not shared.
    let answer = unsafe {
        raw::measured_work(
            readings.as_ptr(),
            readings.len(),
            links.as_ptr(),
            links.len(),
            cells.as_mut_ptr(),
            cells.len(),
            entry,
            allowance,
        )
    };
    (answer / 2, answer % 2 == 1)
}

/// 65,536 times the number of parts and the number of records; or 2^32 times the refusal and its place.
pub fn read(text: &[u8], records: &mut [u64; 256], places: &mut [u16; 128]) -> u64 {
    // SAFETY: the slice is live, and the arrays are and are not shared.
    unsafe { raw::measured_read(text.as_ptr(), text.len(), records, places) }
}

/// Writes an entry's text: how many bytes it has, or 0 if there are too few. The nodes up to the entry are tested first, and the text is not
/// judged.
pub fn print(entry: u32, bytes: &mut [u8], links: &[u16], cells: &[u64]) -> u64 {
    // SAFETY: each pointer and length are those of one live slice, and `bytes` is not shared.
    unsafe {
        raw::measured_print(
            entry,
            bytes.as_mut_ptr(),
            bytes.len(),
            links.as_ptr(),
            links.len(),
            cells.as_ptr(),
            cells.len(),
        )
    }
}

/// The test of `print` alone.
pub fn is_right(entry: u32, links: &[u16], cells: &[u64]) -> bool {
    // SAFETY: each pointer and length are those of one live slice.
    let answer = unsafe {
        raw::measured_right(entry, links.as_ptr(), links.len(), cells.as_ptr(), cells.len())
    };
    answer == 1
}

/// Whether n records can be bound to the first `count` entries.
pub fn can_bind(links: &[u16], cells: &[u64], count: u16, n: u16) -> bool {
    // SAFETY: each pointer and length are those of one live slice.
    let answer = unsafe {
        raw::measured_can_bind(links.as_ptr(), links.len(), cells.as_ptr(), cells.len(), count, n)
    };
    answer == 1
}

/// How many entries there are with the n records bound, and the last record's entry.
pub fn bind(links: &[u16], cells: &[u64], count: u16, records: &[u64; 256], n: u16) -> (u64, u64) {
    // SAFETY: each pointer and length are those of one live slice, and the array is live.
    let answer = unsafe {
        raw::measured_bind(
            links.as_ptr(),
            links.len(),
            cells.as_ptr(),
            cells.len(),
            count,
            records,
            n,
        )
    };
    (answer >> 16, answer & 0xffff)
}
