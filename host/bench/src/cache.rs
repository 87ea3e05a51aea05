//! A cache's memory as docs/MEMORY.md says: built by hand, or by the engine's calls.

use crate::member::Member;
use crate::proved;
use crate::tree::Shown;
use engine::ffi::{self, EditAnswer, EvaluateAnswer, PreviewAnswer, PrintAnswer};
use engine::memory::{CELLS, DATA, FUNCTION, LINKS, NUMBER, READINGS, VARIABLE};

pub const ENTRIES: usize = 512;
const PLACES: usize = 128;

#[derive(Clone)]
pub struct Cache {
    pub readings: Vec<i32>,
    pub heads: [u32; 2],
    pub links: Vec<u16>,
    pub cells: Vec<u64>,
}

/// A name's bytes in base 256, the first highest.
pub fn packed(name: &str) -> u64 {
    name.bytes().fold(0, |k, b| k * 256 + u64::from(b))
}

impl Cache {
    pub fn new(recording: &[i32]) -> Cache {
        let mut readings = recording.to_vec();
        readings.resize(READINGS, 0);
        let heads = [0, recording.len() as u32];
        Cache { readings, heads, links: vec![0; LINKS], cells: vec![0; CELLS] }
    }

    pub fn recording(&self) -> &[i32] {
        &self.readings[..self.heads[1] as usize]
    }

    /// Works an entry out by the part of the engine that does so.
    pub fn work(&mut self, entry: u16) -> (u64, bool) {
        let recording = &self.readings[..self.heads[1] as usize];
        proved::work(recording, &self.links, &mut self.cells, entry, u32::MAX)
    }

    /// A new entry, of level 0 if it has one; each dependency is an entry's number.
    fn put(&mut self, kind: u16, key: u64, first: Option<u16>, second: Option<u16>) -> u16 {
        let i = self.heads[0] as usize;
        let link = |dependency: Option<u16>| dependency.map_or(0, |d| d + 1);
        self.links[4 * i..4 * i + 4].copy_from_slice(&[kind, link(first), link(second), 0]);
        self.cells[4 * i..4 * i + 4].copy_from_slice(&[key, 0, 0, 0]);
        self.heads[0] += 1;
        i as u16
    }

    pub fn number(&mut self, value: i32) -> u16 {
        self.put(NUMBER, (i64::from(value) + (1 << 31)) as u64, None, None)
    }

    pub fn variable(&mut self, name: &str) -> u16 {
        self.put(VARIABLE, packed(name), None, None)
    }

    pub fn data(&mut self) -> u16 {
        self.put(DATA, 0, None, None)
    }

    pub fn function(&mut self, name: &str, body: u16) -> u16 {
        self.put(FUNCTION, packed(name), Some(body), None)
    }

    pub fn member(&mut self, member: Member, receiver: u16, argument: u16) -> u16 {
        self.put(member.kind(), 0, Some(receiver), Some(argument))
    }

    /// The number that is kept for an entry.
    pub fn kept(&self, entry: u16) -> i64 {
        self.cells[4 * entry as usize + 1] as i64 - 1 - (1 << 31)
    }

    pub fn open(&mut self, recording: &[i32]) {
        // SAFETY: each pointer and length are those of one live slice, and no two overlap.
        let refusal = unsafe {
            ffi::formula_open(
                recording.as_ptr(),
                recording.len(),
                self.readings.as_mut_ptr(),
                self.readings.len(),
                self.heads.as_mut_ptr(),
                self.heads.len(),
                self.links.as_ptr(),
                self.links.len(),
                self.cells.as_ptr(),
                self.cells.len(),
            )
        };
        assert_eq!(refusal, 0);
    }

    pub fn edit(&mut self, text: &[u8]) -> EditAnswer {
        self.edit_into(text, &mut [0; PLACES])
    }

    fn edit_into(&mut self, text: &[u8], places: &mut [u16; PLACES]) -> EditAnswer {
        // SAFETY: each pointer and length are those of one live slice, and no two overlap.
        unsafe {
            ffi::formula_edit(
                text.as_ptr(),
                text.len(),
                places.as_mut_ptr(),
                places.len(),
                self.readings.as_ptr(),
                self.readings.len(),
                self.heads.as_mut_ptr(),
                self.heads.len(),
                self.links.as_mut_ptr(),
                self.links.len(),
                self.cells.as_mut_ptr(),
                self.cells.len(),
            )
        }
    }

    pub fn preview(&mut self, entry: u32) -> PreviewAnswer {
        // SAFETY: each pointer and length are those of one live slice, and no two overlap.
        unsafe {
            ffi::formula_preview(
                entry,
                u32::MAX,
                self.readings.as_ptr(),
                self.readings.len(),
                self.heads.as_ptr(),
                self.heads.len(),
                self.links.as_ptr(),
                self.links.len(),
                self.cells.as_mut_ptr(),
                self.cells.len(),
            )
        }
    }

    pub fn print(&self, entry: u32, bytes: &mut [u8]) -> PrintAnswer {
        // SAFETY: each pointer and length are those of one live slice, and no two overlap.
        unsafe {
            ffi::formula_print(
                entry,
                bytes.as_mut_ptr(),
                bytes.len(),
                self.readings.as_ptr(),
                self.readings.len(),
                self.heads.as_ptr(),
                self.heads.len(),
                self.links.as_ptr(),
                self.links.len(),
                self.cells.as_ptr(),
                self.cells.len(),
            )
        }
    }

    /// Edits a text and previews the whole of it to the end, if it is accepted.
    pub fn show(&mut self, text: &[u8]) -> Result<PreviewAnswer, u32> {
        let edited = self.edit(text);
        if edited.refusal != 0 {
            return Err(edited.refusal);
        }
        Ok(self.preview(edited.whole))
    }

    /// Goes back to an earlier state of this cache: its entries and what they keep. Cells past them are never read.
    pub fn restore(&mut self, earlier: &Cache) {
        let count = earlier.heads[0] as usize;
        self.heads = earlier.heads;
        self.links[..4 * count].copy_from_slice(&earlier.links[..4 * count]);
        self.cells[..4 * count].copy_from_slice(&earlier.cells[..4 * count]);
    }
}

/// An evaluation without a cache.
pub fn evaluate(text: &[u8], recording: &[i32], place: u32) -> EvaluateAnswer {
    // SAFETY: each pointer and length are those of one live slice, and no two overlap.
    unsafe {
        ffi::formula_evaluate(text.as_ptr(), text.len(), recording.as_ptr(), recording.len(), place)
    }
}

/// A place of the whole of a text, which is accepted.
pub fn place_of_whole(text: &[u8]) -> u32 {
    let mut places = [0; PLACES];
    let answer = Cache::new(&[]).edit_into(text, &mut places);
    assert_eq!(answer.refusal, 0);
    let whole = places.iter().position(|place| u32::from(*place) == answer.whole);
    whole.expect("the whole is a part") as u32
}

/// What a finished preview shows.
pub fn shown(answer: PreviewAnswer) -> Shown {
    assert_eq!((answer.refusal, answer.finished), (0, 1));
    match answer.kind {
        1 => Shown::Number(answer.first),
        2 => Shown::Window(answer.first as u32, answer.second),
        3 => Shown::Function(answer.name),
        5 => Shown::Missing(answer.first as u8),
        kind => panic!("kind {kind} is not shown by a whole text"),
    }
}
