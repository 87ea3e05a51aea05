//! The engine and the reference model side by side.

use crate::cache::Cache;
use crate::judge::is_well_formed;
use crate::memory::{Memory, State};
use plain::model::{Answer, Call, Model};
use plain::random::rng::Rng;
use plain::samples::Step;

/// Both, after the same calls.
pub struct Pair {
    pub cache: Cache,
    pub model: Model,
}

impl Pair {
    /// A cache over memory of any contents, before its first open.
    pub fn new(seed: u64) -> Pair {
        let mut rng = Rng::new(seed);
        let memory = match rng.below(4) {
            0 => Memory::filled(|| 0),
            1 => Memory::filled(|| u64::MAX),
            _ => Memory::filled(|| rng.draw()),
        };
        let mut cache = Cache::new(&memory);
        cache.turn = rng.below(12) as usize;
        Pair { cache, model: Model::new() }
    }

    /// Such a cache after these calls.
    pub fn after(seed: u64, calls: &[Call]) -> Pair {
        let mut pair = Pair::new(seed);
        calls.iter().for_each(|call| drop(pair.call(call)));
        pair
    }

    /// Makes a call in both and compares the answers.
    pub fn call(&mut self, call: &Call) -> Answer {
        self.call_in(call, String::new)
    }

    /// The same, with words for messages.
    pub fn call_in(&mut self, call: &Call, session: impl Fn() -> String) -> Answer {
        let answer = self.cache.call(call);
        let expected = self.model.call(call);
        assert_eq!(answer, expected, "{} {call:?}", session());
        answer
    }

    /// Compares what the cache holds with the model's state. Entries that the model
    /// has not marked keep nothing.
    pub fn check_state(&self) {
        let memory = self.cache.memory();
        assert!(is_well_formed(&memory), "a cache that was opened and kept is ill-formed");
        let expected = State {
            recording: self.model.recording().to_vec(),
            forms: self.model.forms().clone(),
            marks: self.model.marks().clone(),
        };
        assert_eq!(memory.state(), expected);
        for entry in 0..memory.entries() {
            let keeps_none = memory.kept(entry) == 0 && memory.names(entry) == [0, 0];
            assert_eq!(keeps_none, !self.model.marks().contains_key(&entry), "entry {entry}");
        }
    }
}

/// Makes calls whose answers are known.
pub fn follow(cache: &mut Cache, steps: &[Step]) {
    for (call, answer) in steps {
        assert_eq!(cache.call(call), *answer, "{call:?}");
    }
}

/// A number that the environment sets, for more or other random data.
pub fn setting(name: &str, otherwise: u64) -> u64 {
    match std::env::var(name) {
        Ok(value) => value.parse().unwrap_or_else(|_| panic!("{name} is no number: {value}")),
        Err(_) => otherwise,
    }
}
