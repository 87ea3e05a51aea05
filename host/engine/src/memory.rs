//! The cache's memory, decoded as docs/MEMORY.md says.

use plain::form::{Form, Forms};
use plain::member::Member;
use plain::name::{Name, Variable};
use plain::shown::{Shown, Window};
use std::collections::BTreeMap;

pub const READINGS: usize = 1024;
pub const HEADS: usize = 2;
pub const LINKS: usize = 2048;
pub const CELLS: usize = 2048;

/// Kinds of entries: below `FUNCTION` those worked out from the start, from `MEMBERS`
/// on the members in the order of their table.
pub const NUMBER: u16 = 0;
pub const VARIABLE: u16 = 1;
pub const UNBOUND: u16 = 2;
pub const DATA: u16 = 3;
pub const FUNCTION: u16 = 4;
pub const MEMBERS: u16 = 5;

/// The least kept value of each kind of result.
const KEPT_WINDOW: u64 = 1 << 33;
pub const KEPT_FUNCTION: u64 = 1 << 34;
pub const KEPT_DELAYED: u64 = 3 << 33;
const KEPT_MISSING: u64 = 1 << 35;

/// The four slices of a cache.
#[derive(Clone, PartialEq, Eq, Debug)]
pub struct Memory {
    pub readings: Vec<i32>,
    pub heads: Vec<u32>,
    pub links: Vec<u16>,
    pub cells: Vec<u64>,
}

/// What a cache holds, in the model's terms.
#[derive(PartialEq, Eq, Debug)]
pub struct State {
    pub recording: Vec<i32>,
    pub forms: Forms,
    pub marks: BTreeMap<usize, Shown>,
}

impl Memory {
    /// Memory of the cache's size, each cell made by a function of nothing.
    pub fn filled(mut fill: impl FnMut() -> u64) -> Memory {
        Memory {
            readings: (0..READINGS).map(|_| fill() as i32).collect(),
            heads: (0..HEADS).map(|_| fill() as u32).collect(),
            links: (0..LINKS).map(|_| fill() as u16).collect(),
            cells: (0..CELLS).map(|_| fill()).collect(),
        }
    }

    pub fn entries(&self) -> usize {
        self.heads[0] as usize
    }

    pub fn kind(&self, entry: usize) -> u16 {
        self.links[4 * entry]
    }

    /// The level of a variable or a function; 0 for all others.
    pub fn level(&self, entry: usize) -> u16 {
        self.links[4 * entry + 3]
    }

    pub fn key(&self, entry: usize) -> u64 {
        self.cells[4 * entry]
    }

    /// The kept value; 0 is none.
    pub fn kept(&self, entry: usize) -> u64 {
        self.cells[4 * entry + 1]
    }

    pub fn names(&self, entry: usize) -> [u64; 2] {
        [self.cells[4 * entry + 2], self.cells[4 * entry + 3]]
    }

    pub fn recording(&self) -> &[i32] {
        &self.readings[..self.heads[1] as usize]
    }

    /// The numbers of an entry's dependencies.
    pub fn dependencies(&self, entry: usize) -> Vec<usize> {
        let links = self.links[4 * entry + 1..4 * entry + 3].iter();
        links.filter(|link| **link > 0).map(|link| usize::from(*link) - 1).collect()
    }

    /// Whether preview works the entry out; the others are worked out from the start.
    pub fn needs_work(&self, entry: usize) -> bool {
        self.kind(entry) >= FUNCTION
    }

    /// The entries as the model's forms. The cache is well-formed.
    pub fn forms(&self) -> Forms {
        Forms { list: (0..self.entries()).map(|entry| self.form(entry)).collect() }
    }

    fn form(&self, entry: usize) -> Form {
        let key = self.key(entry);
        let variable = || Variable { name: name(key), level: self.level(entry).into() };
        match self.kind(entry) {
            NUMBER => Form::Number((key as i64 - (1 << 31)) as i32),
            VARIABLE => Form::Variable(variable()),
            UNBOUND => Form::Unbound(name(key)),
            DATA => Form::Data,
            FUNCTION => Form::Function(variable(), self.dependencies(entry)[0]),
            kind => Form::Member(member(kind).expect("a known kind"), self.dependencies(entry)),
        }
    }

    /// What an entry keeps, if it is worked out by a preview. The cache is well-formed.
    pub fn shown(&self, entry: usize) -> Option<Shown> {
        let value = self.kept(entry);
        let [first, second] = self.names(entry);
        match value {
            0 => None,
            KEPT_FUNCTION => Some(Shown::Function(name(first))),
            KEPT_DELAYED => Some(Shown::Delayed(names([first, second]))),
            _ => Some(value_shown(value)),
        }
    }

    /// All that the cache holds. The cache is well-formed.
    pub fn state(&self) -> State {
        let kept = |entry: usize| Some((entry, self.shown(entry)?));
        State {
            recording: self.recording().to_vec(),
            forms: self.forms(),
            marks: (0..self.entries()).filter_map(kept).collect(),
        }
    }
}

/// A kept number, window or reason.
fn value_shown(value: u64) -> Shown {
    if value < KEPT_WINDOW {
        Shown::Number((value as i64 - 1 - (1 << 31)) as i32)
    } else if value < KEPT_FUNCTION {
        Shown::Window(window(value))
    } else {
        Shown::Missing((value - KEPT_MISSING) as u8)
    }
}

/// The window of a kept value from 2^33 on.
fn window(value: u64) -> Window {
    let below = value - KEPT_WINDOW;
    Window { start: (below / 65_536) as usize, length: (below % 65_536) as usize }
}

/// Whether a cell is the kept value of some result over so many readings.
pub fn is_kept_value(value: u64, readings: usize) -> bool {
    let is_number = (1..=1 << 32).contains(&value);
    let is_window = (KEPT_WINDOW..KEPT_WINDOW + (1 << 32)).contains(&value) && {
        let window = window(value);
        window.start + window.length <= readings
    };
    let is_missing = (KEPT_MISSING + 1..=KEPT_MISSING + 5).contains(&value);
    is_number || is_window || is_missing || value == KEPT_FUNCTION || value == KEPT_DELAYED
}

/// The first number that is no kind.
pub fn first_unknown() -> u16 {
    MEMBERS + Member::all().count() as u16
}

/// The member of a kind, if it is one.
pub fn member(kind: u16) -> Option<Member> {
    Member::all().nth(usize::from(kind.checked_sub(MEMBERS)?))
}

/// The word that a number packs in base 256, the first byte highest.
pub fn word(packed: u64) -> Vec<u8> {
    packed.to_be_bytes().into_iter().skip_while(|byte| *byte == 0).collect()
}

/// The name that a number packs.
pub fn name(packed: u64) -> Name {
    let word = String::from_utf8(word(packed)).expect("a name is ASCII");
    Name::new(&word).expect("a name has at most 8 bytes")
}

/// The names that two numbers pack, 0 for none.
pub fn names(packed: [u64; 2]) -> Vec<Name> {
    packed.into_iter().filter(|number| *number != 0).map(name).collect()
}
