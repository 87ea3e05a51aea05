//! The fields of an answer that say what is shown, as include/formula.h has them.

use crate::ffi::{EvaluateAnswer, PreviewAnswer};
use crate::memory::{name, names};
use plain::name::Name;
use plain::shown::{Shown, Window};

/// The fields from `kind` on. One without a value is 0.
#[derive(Clone, Copy, PartialEq, Eq, Debug, Default)]
pub struct Fields {
    pub kind: u32,
    pub first: i32,
    pub second: u32,
    pub name: u64,
    pub other: u64,
}

impl From<PreviewAnswer> for Fields {
    fn from(raw: PreviewAnswer) -> Fields {
        let PreviewAnswer { kind, first, second, name, other, .. } = raw;
        Fields { kind, first, second, name, other }
    }
}

impl From<EvaluateAnswer> for Fields {
    fn from(raw: EvaluateAnswer) -> Fields {
        let EvaluateAnswer { kind, first, second, name, other, .. } = raw;
        Fields { kind, first, second, name, other }
    }
}

impl Fields {
    /// What they show. No other fields show the same.
    pub fn shown(self) -> Shown {
        let shown = match self.kind {
            1 => Shown::Number(self.first),
            2 => Shown::Window(Window {
                start: usize::try_from(self.first).expect("a start is not negative"),
                length: self.second as usize,
            }),
            3 => Shown::Function(name(self.name)),
            4 => Shown::Delayed(names([self.name, self.other])),
            5 => Shown::Missing(u8::try_from(self.first).expect("reasons are 1 to 5")),
            _ => panic!("{self:?}"),
        };
        assert_eq!(self, Fields::of(&shown), "a field without a value is not 0");
        shown
    }

    /// The fields that show this.
    fn of(shown: &Shown) -> Fields {
        let none = Fields::default();
        match shown {
            Shown::Number(value) => Fields { kind: 1, first: *value, ..none },
            Shown::Window(window) => {
                Fields { kind: 2, first: window.start as i32, second: window.length as u32, ..none }
            }
            Shown::Function(name) => Fields { kind: 3, name: packed(name), ..none },
            Shown::Delayed(names) => {
                let number = |i: usize| names.get(i).map_or(0, packed);
                Fields { kind: 4, name: number(0), other: number(1), ..none }
            }
            Shown::Missing(reason) => Fields { kind: 5, first: (*reason).into(), ..none },
        }
    }
}

/// A name in base 256, the first byte highest.
fn packed(name: &Name) -> u64 {
    name.word().bytes().fold(0, |number, byte| number * 256 + u64::from(byte))
}
