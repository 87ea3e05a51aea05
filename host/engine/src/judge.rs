//! Refusal 4, clause by clause of 01 and of 02, T-05, over the arrangement of docs/MEMORY.md.
//!
//! The arrangement has cells that stand for nothing: a key, a link or a level where the
//! kind has none, names that the result does not show, a kept result on an entry that is
//! worked out from the start. They are ill-formed too (docs/DECISIONS.md).

use crate::memory::*;
use plain::limits::{RECORDING_READINGS, TABLE_ENTRIES};
use std::collections::HashSet;

/// Whether a cache, lent whole, is well-formed.
pub fn is_well_formed(memory: &Memory) -> bool {
    if memory.entries() > TABLE_ENTRIES || memory.heads[1] as usize > RECORDING_READINGS {
        return false;
    }
    (0..memory.entries()).all(|entry| is_entry(memory, entry))
        && are_distinct(memory)
        && await_few(memory)
        && (0..memory.entries()).all(|entry| is_kept_right(memory, entry))
}

/// A known kind, a right key, a right level, the right number of dependencies, all of them
/// lower.
fn is_entry(memory: &Memory, entry: usize) -> bool {
    let key = memory.key(entry);
    let (has_right_key, dependencies) = match memory.kind(entry) {
        NUMBER => (key < 1 << 32, 0),
        VARIABLE | UNBOUND => (is_name(key), 0),
        DATA => (key == 0, 0),
        FUNCTION => (is_name(key), 1),
        kind => match member(kind) {
            Some(member) => (key == 0, member.arguments() + 1),
            None => return false,
        },
    };
    let has_level = matches!(memory.kind(entry), VARIABLE | FUNCTION);
    let has_right_level = memory.level(entry) <= u16::from(has_level);
    let links = &memory.links[4 * entry + 1..4 * entry + 3];
    let given = links.iter().take_while(|link| **link > 0).count();
    let is_rest_empty = links[given..].iter().all(|link| *link == 0);
    let are_lower = links.iter().all(|link| usize::from(*link) <= entry);
    has_right_key && has_right_level && given == dependencies && is_rest_empty && are_lower
}

fn is_name(packed: u64) -> bool {
    let word = word(packed);
    let is_word = word.first().is_some_and(u8::is_ascii_alphabetic)
        && word.iter().all(u8::is_ascii_alphanumeric);
    is_word && ![&b"let"[..], b"in", b"data"].contains(&&word[..])
}

fn are_distinct(memory: &Memory) -> bool {
    let node = |entry: usize| {
        let (kind, key, level) = (memory.kind(entry), memory.key(entry), memory.level(entry));
        (kind, key, level, memory.dependencies(entry))
    };
    let mut nodes = HashSet::new();
    (0..memory.entries()).all(|entry| nodes.insert(node(entry)))
}

/// No entry awaits over two names, counted with their levels.
fn await_few(memory: &Memory) -> bool {
    let mut awaited: Vec<Vec<(u64, u16)>> = Vec::new();
    for entry in 0..memory.entries() {
        let own = (memory.key(entry), memory.level(entry));
        let mut names: Vec<(u64, u16)> = Vec::new();
        for name in memory.dependencies(entry).iter().flat_map(|below| &awaited[*below]) {
            if !names.contains(name) {
                names.push(*name);
            }
        }
        match memory.kind(entry) {
            VARIABLE => names.push(own),
            FUNCTION => names.retain(|name| *name != own),
            _ => (),
        }
        if names.len() > 2 {
            return false;
        }
        awaited.push(names);
    }
    true
}

/// The kept result is within its range, its names are those that it shows, and all
/// that it depends on is worked out.
fn is_kept_right(memory: &Memory, entry: usize) -> bool {
    let value = memory.kept(entry);
    let [first, second] = memory.names(entry);
    let is_nameless = first == 0 && second == 0;
    let are_names_right = match value {
        KEPT_FUNCTION => is_name(first) && second == 0,
        KEPT_DELAYED => is_nameless || is_name(first) && (second == 0 || is_name(second)),
        _ => is_nameless,
    };
    let is_worked = |below: usize| !memory.needs_work(below) || memory.kept(below) != 0;
    let is_value_right = value == 0
        || memory.needs_work(entry)
            && is_kept_value(value, memory.heads[1] as usize)
            && memory.dependencies(entry).into_iter().all(is_worked);
    are_names_right && is_value_right
}
