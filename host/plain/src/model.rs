//! The reference model (01: the plain book): its state, its calls and their answers.
//! Print (02, T-04) only looks at the state.

use crate::bind::bind;
use crate::eval::Evaluation;
use crate::form::{Form, Forms};
use crate::limits::{PLACES, RECORDING_READINGS, TABLE_ENTRIES, TEXT_BYTES};
use crate::print;
use crate::refusal::*;
use crate::shown::Shown;
use crate::syntax::parse;
use std::collections::BTreeMap;

/// A call with its arguments. `enough` says whether the cache is lent whole; if not,
/// too little of it is lent. `places` is the length of the lent list of places, and `bytes`
/// what the bytes lent for a printed text hold before.
#[derive(Clone, PartialEq, Eq, Debug)]
pub enum Call {
    Open { readings: Vec<i32>, enough: bool },
    Edit { text: Vec<u8>, places: usize, enough: bool },
    Preview { entry: u32, allowance: u32, enough: bool },
    Print { entry: u32, bytes: Vec<u8>, enough: bool },
}

/// The answer to a call.
#[derive(Clone, PartialEq, Eq, Debug)]
pub enum Answer {
    Opened,
    /// The whole text's entry, the number of parts, the number of new entries, and
    /// each part's entry at its place.
    Edited {
        whole: u32,
        parts: u32,
        new: u32,
        places: Vec<u32>,
    },
    /// How many entries were worked out; some remain.
    NotYet {
        worked: u32,
    },
    /// How many entries were worked out, and what the entry shows.
    Finished {
        worked: u32,
        shown: Shown,
    },
    /// The text in the first of the lent bytes. Those past it keep their contents.
    Printed {
        text: String,
    },
    /// The number, and the byte place for 5 to 12, else 0.
    Refused {
        number: u8,
        place: u32,
    },
}

/// The state: a recording, let-free forms numbered from 0, and marks on some of
/// them, each mark with what its form shows. A new model is as after the opening of
/// an empty recording.
#[derive(Clone, PartialEq, Eq, Debug, Default)]
pub struct Model {
    recording: Vec<i32>,
    forms: Forms,
    marks: BTreeMap<usize, Shown>,
}

impl Model {
    pub fn new() -> Model {
        Model::default()
    }

    pub fn recording(&self) -> &[i32] {
        &self.recording
    }

    /// The forms by number.
    pub fn forms(&self) -> &Forms {
        &self.forms
    }

    /// The marked (01: worked out) members and functions, with what each shows.
    pub fn marks(&self) -> &BTreeMap<usize, Shown> {
        &self.marks
    }

    /// The unmarked members and functions at or below a form, lowest first.
    pub fn unmarked(&self, number: usize) -> Vec<usize> {
        let unworked =
            |below: &usize| self.forms.list[*below].needs_work() && !self.marks.contains_key(below);
        self.forms.at_or_below(number).into_iter().filter(unworked).collect()
    }

    /// Answers any call.
    pub fn call(&mut self, call: &Call) -> Answer {
        match call {
            Call::Open { readings, enough } => self.open(readings, *enough),
            Call::Edit { text, places, enough } => self.edit(text, *places, *enough),
            Call::Preview { entry, allowance, enough } => self.preview(*entry, *allowance, *enough),
            Call::Print { entry, bytes, enough } => self.print(*entry, bytes.len(), *enough),
        }
    }

    /// Stores a recording and clears forms and marks.
    pub fn open(&mut self, readings: &[i32], enough: bool) -> Answer {
        if readings.len() > RECORDING_READINGS {
            return refused(RECORDING_TOO_LONG);
        }
        if !enough {
            return refused(MEMORY_TOO_SMALL);
        }
        self.recording = readings.to_vec();
        self.forms = Forms::default();
        self.marks.clear();
        Answer::Opened
    }

    /// Reads and binds a text, and adds its parts' forms not yet held.
    pub fn edit(&mut self, text: &[u8], places: usize, enough: bool) -> Answer {
        if text.len() > TEXT_BYTES {
            return refused(TEXT_TOO_LONG);
        }
        if places < PLACES || !enough {
            return refused(MEMORY_TOO_SMALL);
        }
        let text = match parse(text) {
            Ok(text) => text,
            Err(refusal) => {
                return Answer::Refused { number: refusal.number, place: narrow(refusal.place) };
            }
        };
        let mut forms = self.forms.clone();
        let bound = bind(&text, &mut forms);
        if forms.list.len() > TABLE_ENTRIES {
            return refused(TABLE_FULL);
        }
        let new = forms.list.len() - self.forms.list.len();
        self.forms = forms;
        Answer::Edited {
            whole: narrow(bound.whole),
            parts: narrow(text.parts),
            new: narrow(new),
            places: bound.places.into_iter().map(narrow).collect(),
        }
    }

    /// Marks the lowest unmarked members and functions at or below the entry, up to
    /// the allowance, and shows the entry if none remain.
    pub fn preview(&mut self, entry: u32, allowance: u32, enough: bool) -> Answer {
        if !enough {
            return refused(MEMORY_TOO_SMALL);
        }
        let number = entry as usize;
        if number >= self.forms.list.len() {
            return refused(NO_SUCH_ENTRY);
        }
        let unmarked = self.unmarked(number);
        let worked = unmarked.len().min(allowance as usize);
        let mut evaluation = Evaluation::new(&self.forms, &self.recording);
        for form in &unmarked[..worked] {
            self.marks.insert(*form, evaluation.show(*form));
        }
        if worked < unmarked.len() {
            return Answer::NotYet { worked: narrow(worked) };
        }
        Answer::Finished { worked: narrow(worked), shown: evaluation.show(number) }
    }

    /// Prints the let-free form of the entry into `room` bytes.
    pub fn print(&self, entry: u32, room: usize, enough: bool) -> Answer {
        if !enough {
            return refused(MEMORY_TOO_SMALL);
        }
        let number = entry as usize;
        if number >= self.forms.list.len() {
            return refused(NO_SUCH_ENTRY);
        }
        match print::print(&self.forms, number, room) {
            Ok(text) => Answer::Printed { text },
            Err(fault) => refused(fault.number()),
        }
    }

    /// The form of an entry, for inspection.
    pub fn form(&self, entry: u32) -> Option<&Form> {
        self.forms.list.get(entry as usize)
    }
}

/// A refusal that has no byte place.
fn refused(number: u8) -> Answer {
    Answer::Refused { number, place: 0 }
}

/// A count or number as an answer gives it; all of them are at most 1,024.
fn narrow(count: usize) -> u32 {
    u32::try_from(count).expect("counts are at most 1,024")
}
