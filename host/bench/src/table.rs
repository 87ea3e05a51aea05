//! Well-formedness and binding as one would write them in Rust, over the same memory, with the standard library's hash tables.

use crate::member;
use engine::memory::{FUNCTION, MEMBERS, VARIABLE};
use std::collections::hash_map::Entry;
use std::collections::{HashMap, HashSet};

const ENTRIES: usize = 512;
const READINGS: u32 = 1024;

/// How many kinds there are.
const KINDS: usize = MEMBERS as usize + member::TABLE.len();

const WINDOW_CELL: u64 = 1 << 33;
const FUNCTION_CELL: u64 = 1 << 34;
const DELAYED_CELL: u64 = 3 << 33;
const MISSING_CELL: u64 = 1 << 35;

#[derive(Clone, Copy, PartialEq, Eq, Hash)]
struct Node {
    kind: u16,
    key: u64,
    first: u16,
    second: u16,
    level: u16,
}

fn node_at(links: &[u16], cells: &[u64], i: usize) -> Node {
    Node {
        kind: links[4 * i],
        key: cells[4 * i],
        first: links[4 * i + 1],
        second: links[4 * i + 2],
        level: links[4 * i + 3],
    }
}

/// A letter, then letters and digits, at most eight bytes; no `let`, `in` or `data`.
fn is_name(key: u64) -> bool {
    let bytes = key.to_be_bytes();
    let word = &bytes[key.leading_zeros() as usize / 8..];
    word.first().is_some_and(u8::is_ascii_alphabetic)
        && word.iter().all(u8::is_ascii_alphanumeric)
        && !matches!(word, b"let" | b"in" | b"data")
}

/// How many dependencies an entry of each kind has.
const ARITIES: [usize; KINDS] = {
    let mut arities = [0; KINDS];
    arities[FUNCTION as usize] = 1;
    let mut i = 0;
    while i < member::TABLE.len() {
        arities[MEMBERS as usize + i] = 1 + member::TABLE[i].1;
        i += 1;
    }
    arities
};

fn is_right(node: Node, i: usize) -> bool {
    let Some(arity) = ARITIES.get(usize::from(node.kind)) else { return false };
    let key = match node.kind {
        0 => node.key < 1 << 32,
        1 | 2 | 4 => is_name(node.key),
        _ => node.key == 0,
    };
    let given = (u16::from(node.first > 0), u16::from(node.second > 0));
    let links = match arity {
        0 => given == (0, 0),
        1 => given == (1, 0),
        _ => given == (1, 1),
    };
    let level = node.level <= u16::from(matches!(node.kind, VARIABLE | FUNCTION));
    key && links && level && usize::from(node.first) <= i && usize::from(node.second) <= i
}

/// A variable's name and level.
type Name = (u64, u16);

/// At most two names.
#[derive(Clone, Copy, Default)]
struct Names {
    list: [Name; 2],
    count: usize,
}

impl Names {
    fn add(&mut self, name: Name) -> bool {
        if self.list[..self.count].contains(&name) {
            return true;
        }
        if self.count == 2 {
            return false;
        }
        self.list[self.count] = name;
        self.count += 1;
        true
    }

    fn without(self, name: Name) -> Names {
        let mut names = Names::default();
        for &other in self.list[..self.count].iter().filter(|&&other| other != name) {
            names.add(other);
        }
        names
    }
}

/// The names that an entry awaits, or none if they are over two.
fn awaited(names: &[Names], node: Node) -> Option<Names> {
    let of = |link: u16| names[usize::from(link) - 1];
    match (node.kind, ARITIES[usize::from(node.kind)]) {
        (VARIABLE, _) => Some(Names { list: [(node.key, node.level), (0, 0)], count: 1 }),
        (FUNCTION, _) => Some(of(node.first).without((node.key, node.level))),
        (_, 0) => Some(Names::default()),
        (_, 1) => Some(of(node.first)),
        _ => {
            let (mut all, more) = (of(node.first), of(node.second));
            more.list[..more.count].iter().all(|&name| all.add(name)).then_some(all)
        }
    }
}

fn is_packed(cell: u64, readings: u32) -> bool {
    match cell {
        ..WINDOW_CELL => (1..=1 << 32).contains(&cell),
        WINDOW_CELL..FUNCTION_CELL => {
            let low = cell - WINDOW_CELL;
            low < 1 << 32 && (low >> 16) + (low & 0xffff) <= u64::from(readings)
        }
        FUNCTION_CELL..MISSING_CELL => cell == FUNCTION_CELL || cell == DELAYED_CELL,
        _ => (MISSING_CELL + 1..=MISSING_CELL + 5).contains(&cell),
    }
}

fn is_kept_right(links: &[u16], cells: &[u64], i: usize, readings: u32) -> bool {
    let [_, value, name, other] = cells[4 * i..4 * i + 4] else { return false };
    let is_nameless = name == 0 && other == 0;
    let names = match value {
        FUNCTION_CELL => is_name(name) && other == 0,
        DELAYED_CELL => is_nameless || is_name(name) && (other == 0 || is_name(other)),
        _ => is_nameless,
    };
    let is_done = |link: u16| {
        let j = usize::from(link);
        j == 0 || links[4 * (j - 1)] < FUNCTION || cells[4 * (j - 1) + 1] != 0
    };
    names
        && (value == 0
            || links[4 * i] >= FUNCTION
                && is_packed(value, readings)
                && is_done(links[4 * i + 1])
                && is_done(links[4 * i + 2]))
}

pub fn is_well_formed(heads: &[u32], links: &[u16], cells: &[u64]) -> bool {
    let (count, readings) = (heads[0] as usize, heads[1]);
    if count > ENTRIES || readings > READINGS {
        return false;
    }
    let mut seen = HashSet::with_capacity(count);
    let mut names = Vec::with_capacity(count);
    for i in 0..count {
        let node = node_at(links, cells, i);
        if !is_right(node, i) || !seen.insert(node) || !is_kept_right(links, cells, i, readings) {
            return false;
        }
        match awaited(&names, node) {
            Some(few) => names.push(few),
            None => return false,
        }
    }
    true
}

/// How many entries there are with the n records bound, and the last record's entry.
pub fn bind(links: &[u16], cells: &[u64], count: u16, records: &[u64; 256], n: u16) -> (u64, u64) {
    let mut entries: HashMap<Node, u16> = HashMap::with_capacity(usize::from(count + n));
    for i in 0..count {
        entries.insert(node_at(links, cells, usize::from(i)), i);
    }
    let mut numbers: Vec<u16> = Vec::with_capacity(usize::from(n));
    let mut fresh = Vec::with_capacity(usize::from(n));
    let mut total = count;
    for record in records.chunks_exact(2).take(usize::from(n)) {
        let entry = |link: u64| match link & 0xff {
            0 => 0,
            link => numbers[link as usize - 1] + 1,
        };
        let node = Node {
            kind: (record[0] & 0x1f) as u16,
            key: record[1],
            first: entry(record[0] >> 5),
            second: entry(record[0] >> 13),
            level: (record[0] >> 21) as u16,
        };
        let number = match entries.entry(node) {
            Entry::Occupied(found) => *found.get(),
            Entry::Vacant(place) => {
                fresh.push(node);
                total += 1;
                *place.insert(total - 1)
            }
        };
        numbers.push(number);
    }
    std::hint::black_box(&fresh);
    (u64::from(total), numbers.last().map_or(0, |&last| u64::from(last)))
}
