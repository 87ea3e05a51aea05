//! Texts for the programs of the folder check that edit one cache with them (texts.h) and write
//! for each text a line of numbers, one for every entry held.

use engine::program::{run, text, written};
use plain::bind::bind;
use plain::form::Forms;
use plain::limits::TABLE_ENTRIES;
use plain::random::formula::{formula, join};
use plain::random::limit::{deep, wide};
use plain::random::nested::nested;
use plain::random::pasted::pasted;
use plain::random::rng::Rng;
use plain::syntax::parse;
use std::path::{Path, PathBuf};
use std::process::Command;

/// A program that a test writes.
pub fn program(name: &str) -> PathBuf {
    Path::new(env!("CARGO_TARGET_TMPDIR")).join(name)
}

/// Texts for one cache after another, and what is to be written about them: an empty text
/// opens the cache where the table has no room for the next one.
pub struct Script<F> {
    input: Vec<u8>,
    expected: Vec<(String, Vec<u64>)>,
    forms: Forms,
    /// The number of each form.
    numbers: F,
}

impl<F: Fn(&Forms) -> Vec<u64>> Script<F> {
    pub fn new(numbers: F) -> Self {
        Script { input: Vec::new(), expected: Vec::new(), forms: Forms::default(), numbers }
    }

    /// Opens the cache.
    pub fn open(&mut self) {
        self.input.push(0);
        self.forms = Forms::default();
    }

    /// Adds a text, if it is one that is read. Gives the number of the whole.
    pub fn add(&mut self, bytes: &[u8]) -> Option<u64> {
        let read = parse(bytes).ok()?;
        let mut forms = self.forms.clone();
        let mut whole = bind(&read, &mut forms).whole;
        if self.expected.is_empty() || forms.list.len() > TABLE_ENTRIES {
            self.open();
            forms = Forms::default();
            whole = bind(&read, &mut forms).whole;
        }
        self.forms = forms;
        self.input.extend_from_slice(bytes);
        self.input.push(0);
        let numbers = (self.numbers)(&self.forms);
        let number = numbers[whole];
        self.expected.push((text(bytes), numbers));
        Some(number)
    }

    /// Runs a program over the texts and compares each number.
    pub fn check(self, program: &mut Command) {
        let lines = written(&run(program, &self.input));
        assert_eq!(lines.lines().count(), self.expected.len());
        for ((text, expected), line) in self.expected.iter().zip(lines.lines()) {
            let said: Vec<u64> =
                line.split(' ').map(|number| number.parse().expect("a number")).collect();
            assert_eq!(&said, expected, "{text}");
        }
    }
}

/// Random texts, most of them with runs in one another.
pub fn random_texts(seed: u64, count: usize) -> Vec<Vec<u8>> {
    let mut rng = Rng::new(seed);
    (0..count).map(|_| random_text(&mut rng)).collect()
}

fn random_text(rng: &mut Rng) -> Vec<u8> {
    match rng.below(16) {
        0 => wide(rng),
        1 => deep(rng),
        2 | 3 => pasted(rng),
        4..=6 => {
            let tokens = formula(rng);
            join(rng, &tokens)
        }
        _ => {
            let tokens = nested(rng);
            join(rng, &tokens)
        }
    }
}
