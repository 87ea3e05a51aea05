//! Names: words of at most eight bytes, and lambda variables. Names are compared here and
//! nowhere else.

use crate::limits::NAME_BYTES;
use std::fmt;

/// A name, its bytes followed by zeros. A word has no zero byte, so two names are
/// equal exactly if their words are.
#[derive(Clone, Copy, PartialEq, Eq, PartialOrd, Ord, Hash)]
pub struct Name([u8; NAME_BYTES]);

impl Name {
    /// The name that a word spells, or none if the word is too long for a name.
    pub fn new(word: &str) -> Option<Name> {
        let mut bytes = [0; NAME_BYTES];
        bytes.get_mut(..word.len())?.copy_from_slice(word.as_bytes());
        Some(Name(bytes))
    }

    /// The word that spells the name.
    pub fn word(&self) -> String {
        let letters = self.0.iter().take_while(|byte| **byte != 0);
        letters.map(|byte| char::from(*byte)).collect()
    }
}

impl fmt::Debug for Name {
    fn fmt(&self, out: &mut fmt::Formatter) -> fmt::Result {
        write!(out, "{}", self.word())
    }
}

/// A lambda variable (02, T-05): its name, and its level, the count of lambdas written
/// around its own lambda.
#[derive(Clone, Copy, PartialEq, Eq, PartialOrd, Ord, Hash)]
pub struct Variable {
    pub name: Name,
    pub level: usize,
}

impl fmt::Debug for Variable {
    fn fmt(&self, out: &mut fmt::Formatter) -> fmt::Result {
        write!(out, "{:?} of level {}", self.name, self.level)
    }
}
