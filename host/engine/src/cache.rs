//! A cache in guarded memory, called through the C interface. Each call is followed by
//! tests that it wrote what it may write and nothing else.

use crate::ffi::{
    EditAnswer, PreviewAnswer, PrintAnswer, formula_edit, formula_open, formula_preview,
    formula_print,
};
use crate::fields::Fields;
use crate::lent::{Cell, Lent, Read};
use crate::memory::{CELLS, HEADS, LINKS, Memory, READINGS};
use plain::model::{Answer, Call};

/// What the lent places hold before an edit.
const OLD_PLACE: u16 = 0xd17e;

/// How many cells of each slice are lent.
#[derive(Clone, Copy, PartialEq, Eq, Debug)]
pub struct Lengths {
    pub readings: usize,
    pub heads: usize,
    pub links: usize,
    pub cells: usize,
}

impl Lengths {
    pub const WHOLE: Lengths =
        Lengths { readings: READINGS, heads: HEADS, links: LINKS, cells: CELLS };

    /// Too little: one of the slices is cut, by one cell, by half or to nothing. The
    /// turns from 0 to 11 have them all.
    pub fn cut(turn: usize) -> Lengths {
        let mut lengths = Lengths::WHOLE;
        let slices =
            [&mut lengths.readings, &mut lengths.heads, &mut lengths.links, &mut lengths.cells];
        let slice = slices.into_iter().nth(turn % 4).expect("there are four");
        *slice = [*slice - 1, *slice / 2, 0][turn / 4 % 3];
        lengths
    }
}

pub struct Cache {
    readings: Lent<i32>,
    heads: Lent<u32>,
    links: Lent<u16>,
    cells: Lent<u64>,
    /// Which cut the next call with too little memory gets, so that they come in turn.
    pub turn: usize,
}

impl Cache {
    /// A cache over memory of any contents, of the cache's size or larger.
    pub fn new(memory: &Memory) -> Cache {
        Cache {
            readings: Lent::new(&memory.readings),
            heads: Lent::new(&memory.heads),
            links: Lent::new(&memory.links),
            cells: Lent::new(&memory.cells),
            turn: 0,
        }
    }

    /// A copy of what stands in the memory.
    pub fn memory(&self) -> Memory {
        Memory {
            readings: self.readings.contents().to_vec(),
            heads: self.heads.contents().to_vec(),
            links: self.links.contents().to_vec(),
            cells: self.cells.contents().to_vec(),
        }
    }

    /// Writes into the memory between calls.
    pub fn overwrite(&mut self, memory: &Memory) {
        self.readings.contents_mut().copy_from_slice(&memory.readings);
        self.heads.contents_mut().copy_from_slice(&memory.heads);
        self.links.contents_mut().copy_from_slice(&memory.links);
        self.cells.contents_mut().copy_from_slice(&memory.cells);
    }

    /// Makes a call: with all the memory, or with one slice cut if the call is to have
    /// too little.
    pub fn call(&mut self, call: &Call) -> Answer {
        let (Call::Open { enough, .. }
        | Call::Edit { enough, .. }
        | Call::Preview { enough, .. }
        | Call::Print { enough, .. }) = call;
        if *enough {
            return self.call_with(call, self.all());
        }
        self.turn += 1;
        self.call_with(call, Lengths::cut(self.turn - 1))
    }

    fn all(&self) -> Lengths {
        Lengths {
            readings: self.readings.contents().len(),
            heads: self.heads.contents().len(),
            links: self.links.contents().len(),
            cells: self.cells.contents().len(),
        }
    }

    /// Makes a call with so many cells lent.
    pub fn call_with(&mut self, call: &Call, lengths: Lengths) -> Answer {
        let before = self.memory();
        let answer = match call {
            Call::Open { readings, .. } => self.open(readings, lengths),
            Call::Edit { text, places, .. } => self.edit(text, *places, lengths),
            Call::Preview { entry, allowance, .. } => self.preview(*entry, *allowance, lengths),
            Call::Print { entry, bytes, .. } => self.print(*entry, bytes, lengths),
        };
        let are_guarded = self.readings.is_guarded()
            && self.heads.is_guarded()
            && self.links.is_guarded()
            && self.cells.is_guarded();
        assert!(are_guarded, "a guard of the cache was written by {call:?}");
        check_written(&before, call, &answer, &self.memory());
        answer
    }

    fn open(&mut self, recording: &[i32], lengths: Lengths) -> Answer {
        let mut recording = Read::new(recording);
        // SAFETY: each pointer is good for its length, and no two slices overlap.
        let refusal = unsafe {
            formula_open(
                recording.pointer(),
                recording.length(),
                self.readings.pointer(),
                lengths.readings,
                self.heads.pointer(),
                lengths.heads,
                self.links.pointer(),
                lengths.links,
                self.cells.pointer(),
                lengths.cells,
            )
        };
        recording.check("recording");
        if refusal == 0 { Answer::Opened } else { refused(refusal, 0) }
    }

    fn edit(&mut self, text: &[u8], places: usize, lengths: Lengths) -> Answer {
        let mut text = Read::new(text);
        let mut places = Lent::new(&vec![OLD_PLACE; places]);
        // SAFETY: each pointer is good for its length, and no two slices overlap.
        let answer = unsafe {
            formula_edit(
                text.pointer(),
                text.length(),
                places.pointer(),
                places.contents().len(),
                self.readings.pointer(),
                lengths.readings,
                self.heads.pointer(),
                lengths.heads,
                self.links.pointer(),
                lengths.links,
                self.cells.pointer(),
                lengths.cells,
            )
        };
        text.check("text");
        assert!(places.is_guarded(), "a guard of the places was written");
        edit_answer(answer, places.contents())
    }

    fn preview(&mut self, entry: u32, allowance: u32, lengths: Lengths) -> Answer {
        // SAFETY: each pointer is good for its length, and no two slices overlap.
        let answer = unsafe {
            formula_preview(
                entry,
                allowance,
                self.readings.pointer(),
                lengths.readings,
                self.heads.pointer(),
                lengths.heads,
                self.links.pointer(),
                lengths.links,
                self.cells.pointer(),
                lengths.cells,
            )
        };
        preview_answer(answer)
    }

    fn print(&mut self, entry: u32, old: &[u8], lengths: Lengths) -> Answer {
        let mut bytes = Lent::new(old);
        // SAFETY: each pointer is good for its length, and no two slices overlap.
        let answer = unsafe {
            formula_print(
                entry,
                bytes.pointer(),
                old.len(),
                self.readings.pointer(),
                lengths.readings,
                self.heads.pointer(),
                lengths.heads,
                self.links.pointer(),
                lengths.links,
                self.cells.pointer(),
                lengths.cells,
            )
        };
        assert!(bytes.is_guarded(), "a guard of the bytes was written");
        print_answer(answer, old, bytes.contents())
    }
}

fn refused(number: u32, place: u32) -> Answer {
    Answer::Refused { number: u8::try_from(number).expect("refusals are 1 to 16"), place }
}

/// A print's answer in the model's terms. The length is 0 where it is refused, and bytes
/// past it keep their contents.
fn print_answer(raw: PrintAnswer, old: &[u8], bytes: &[u8]) -> Answer {
    let length = raw.length as usize;
    assert!(raw.refusal == 0 || length == 0, "{raw:?}");
    assert_eq!(bytes[length..], old[length..], "bytes past the text were written: {raw:?}");
    if raw.refusal != 0 {
        return refused(raw.refusal, 0);
    }
    let text = String::from_utf8(bytes[..length].to_vec());
    Answer::Printed { text: text.expect("a printed text is ASCII") }
}

/// An edit's answer in the model's terms. Fields without a value are 0, and places
/// without a part keep their contents.
fn edit_answer(raw: EditAnswer, places: &[u16]) -> Answer {
    let (answer, parts) = if raw.refusal == 0 {
        let parts = raw.parts as usize;
        let numbers = places[..parts].iter().map(|place| u32::from(*place)).collect();
        let (whole, new) = (raw.whole, raw.added);
        assert_eq!(raw.place, 0, "{raw:?}");
        (Answer::Edited { whole, parts: raw.parts, new, places: numbers }, parts)
    } else {
        assert_eq!((raw.whole, raw.parts, raw.added), (0, 0, 0), "{raw:?}");
        (refused(raw.refusal, raw.place), 0)
    };
    let is_kept = places[parts..].iter().all(|place| *place == OLD_PLACE);
    assert!(is_kept, "places past the {parts} parts were written: {raw:?}");
    answer
}

/// A preview's answer in the model's terms. Fields without a value are 0.
fn preview_answer(raw: PreviewAnswer) -> Answer {
    let (worked, fields) = (raw.worked, Fields::from(raw));
    match (raw.refusal, raw.finished) {
        (0, 1) => Answer::Finished { worked, shown: fields.shown() },
        (refusal, finished) => {
            assert_eq!((finished, fields), (0, Fields::default()), "{raw:?}");
            if refusal == 0 {
                return Answer::NotYet { worked };
            }
            assert_eq!(worked, 0, "{raw:?}");
            refused(refusal, 0)
        }
    }
}

/// That the call wrote what its answer says, and nothing else.
fn check_written(before: &Memory, call: &Call, answer: &Answer, after: &Memory) {
    let mut expected = before.clone();
    match (call, answer) {
        (_, Answer::Refused { .. }) => (),
        (Call::Open { readings, .. }, Answer::Opened) => {
            expected.readings[..readings.len()].copy_from_slice(readings);
            expected.heads[..2].copy_from_slice(&[0, readings.len() as u32]);
        }
        (Call::Edit { .. }, Answer::Edited { new, .. }) => add_entries(&mut expected, *new, after),
        (Call::Preview { .. }, Answer::NotYet { worked } | Answer::Finished { worked, .. }) => {
            let marked = add_kept(&mut expected, after);
            assert_eq!(marked, *worked, "entries that became worked out in {call:?}");
        }
        (Call::Print { .. }, Answer::Printed { .. }) => (),
        _ => panic!("{call:?} was answered {answer:?}"),
    }
    let difference = first_difference(&expected, after);
    assert!(difference.is_none(), "{call:?}, answered {answer:?}, wrote {difference:?}");
}

/// The new entries have any links, keys and levels, and keep nothing.
fn add_entries(expected: &mut Memory, new: u32, after: &Memory) {
    let held = expected.entries();
    expected.heads[0] += new;
    for entry in held..expected.entries() {
        let links = 4 * entry..4 * entry + 4;
        expected.links[links.clone()].copy_from_slice(&after.links[links]);
        expected.cells[4 * entry..4 * entry + 4].copy_from_slice(&[after.key(entry), 0, 0, 0]);
    }
}

/// Entries that were not worked out may be so now. Gives how many are.
fn add_kept(expected: &mut Memory, after: &Memory) -> u32 {
    let mut marked = 0;
    for entry in 0..expected.entries() {
        if expected.needs_work(entry) && expected.kept(entry) == 0 && after.kept(entry) != 0 {
            let cells = 4 * entry + 1..4 * entry + 4;
            expected.cells[cells.clone()].copy_from_slice(&after.cells[cells]);
            marked += 1;
        }
    }
    marked
}

/// The first cell in which two memories differ.
fn first_difference(left: &Memory, right: &Memory) -> Option<String> {
    different("readings", &left.readings, &right.readings)
        .or_else(|| different("heads", &left.heads, &right.heads))
        .or_else(|| different("links", &left.links, &right.links))
        .or_else(|| different("cells", &left.cells, &right.cells))
}

fn different<T: Cell>(slice: &str, left: &[T], right: &[T]) -> Option<String> {
    if left == right {
        return None;
    }
    let at = left.iter().zip(right).position(|(left, right)| left != right);
    Some(format!("{slice}: {:?}", at.map(|at| (at, left[at], right[at]))))
}
