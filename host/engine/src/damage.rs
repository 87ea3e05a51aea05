//! Caches that no call leaves: damaged ones, and such as are made at random.

use crate::memory::{
    DATA, FUNCTION, KEPT_DELAYED, KEPT_FUNCTION, MEMBERS, Memory, NUMBER, UNBOUND, VARIABLE,
    first_unknown, member,
};
use plain::member::{Kind, Member};
use plain::random::rng::Rng;

/// Cells at and around the limits of keys and kept values.
#[rustfmt::skip]
const CELLS: &[u64] = &[
    0, 1, 2, 5, 1 << 31, (1 << 31) + 1, (1 << 32) - 1, 1 << 32, (1 << 32) + 1, (1 << 33) - 1,
    1 << 33, (1 << 33) + 1, (1 << 33) + 65_536, (1 << 33) + 65_537, (1 << 33) + (1 << 32) - 1,
    (1 << 33) + (1 << 32), 1 << 34, (1 << 34) + 1, 3 << 33, (3 << 33) + 1, 1 << 35,
    (1 << 35) + 1, (1 << 35) + 5, (1 << 35) + 6, 1 << 63, u64::MAX,
    0x61, 0x62, 0x7831, 0x3161, 0x6c6574, 0x696e, 0x64617461, 0x61_62_63_64_65_66_67_68,
];

/// A cell in place of another.
fn cell(rng: &mut Rng, old: u64) -> u64 {
    match rng.below(6) {
        0 => old.wrapping_add(1),
        1 => old.wrapping_sub(1),
        2 => old ^ 1 << rng.below(64),
        3 => rng.draw(),
        _ => rng.pick(CELLS),
    }
}

fn link(rng: &mut Rng, old: u16) -> u16 {
    match rng.below(6) {
        0 => old.wrapping_add(1),
        1 => old.wrapping_sub(1),
        2 => rng.draw() as u16,
        3 => rng.below(u64::from(first_unknown()) + 3) as u16,
        _ => rng.below(513) as u16,
    }
}

/// A level: mostly one that a variable or a function may have.
fn level(rng: &mut Rng) -> u16 {
    match rng.below(16) {
        0 => rng.pick(&[2, 3, 255, 256, 65_535]),
        draw => (draw % 2) as u16,
    }
}

fn head(rng: &mut Rng, old: u32) -> u32 {
    let limits = [0, 1, 511, 512, 513, 1023, 1024, 1025, 65_535, 65_536, 65_537, 1 << 31, u32::MAX];
    match rng.below(4) {
        0 => old.wrapping_add(1),
        1 => old.wrapping_sub(1),
        2 => rng.draw() as u32,
        _ => rng.pick(&limits),
    }
}

/// Changes a cache in one to three cells, mostly of entries that it holds.
pub fn damage(rng: &mut Rng, memory: &mut Memory) {
    for _ in 0..1 + rng.below(3) {
        let held = memory.entries().clamp(1, 512) as u64;
        let near = if rng.one_in(12) { 512 } else { held };
        let (entry, other) = (rng.below(near) as usize, rng.below(near) as usize);
        match rng.below(14) {
            0 => memory.heads[0] = head(rng, memory.heads[0]),
            1 => memory.heads[1] = head(rng, memory.heads[1]),
            2..=4 => {
                let at = 4 * entry + rng.below(4) as usize;
                memory.links[at] = link(rng, memory.links[at]);
            }
            5..=8 => {
                let at = 4 * entry + rng.below(4) as usize;
                memory.cells[at] = cell(rng, memory.cells[at]);
            }
            9 => swap(memory, entry, other),
            10 => copy_kept(memory, entry, other),
            11 => flip_level(rng, memory, entry),
            12 => memory.links[4 * entry + 3] = level(rng),
            _ => memory.cells[4 * entry + 1..4 * entry + 4].fill(0),
        }
    }
}

/// Changes the level of a variable or a function between 0 and 1, the next one from an entry
/// on.
fn flip_level(rng: &mut Rng, memory: &mut Memory, from: usize) {
    let held = memory.entries().min(512);
    let has_level = |entry: &usize| matches!(memory.kind(*entry), VARIABLE | FUNCTION);
    match (from..held).find(has_level) {
        Some(entry) => memory.links[4 * entry + 3] ^= 1,
        None => memory.links[4 * from + 3] = level(rng),
    }
}

fn swap(memory: &mut Memory, entry: usize, other: usize) {
    (0..4).for_each(|at| memory.links.swap(4 * entry + at, 4 * other + at));
    (0..4).for_each(|at| memory.cells.swap(4 * entry + at, 4 * other + at));
}

fn copy_kept(memory: &mut Memory, from: usize, to: usize) {
    memory.cells.copy_within(4 * from + 1..4 * from + 4, 4 * to + 1);
}

/// The kind of an entry to make up, seldom the first that is unknown. The first entries
/// depend on nothing, and mostly are the recording and a number.
fn kind(rng: &mut Rng, entry: usize) -> u16 {
    match entry {
        _ if rng.one_in(60) => first_unknown(),
        0 if !rng.one_in(3) => DATA,
        1 if !rng.one_in(3) => NUMBER,
        0 | 1 => rng.pick(&[DATA, NUMBER, VARIABLE, VARIABLE, UNBOUND]),
        _ if rng.one_in(6) => rng.pick(&[DATA, NUMBER, NUMBER, VARIABLE, UNBOUND]),
        _ if rng.one_in(8) => FUNCTION,
        _ => MEMBERS + rng.below(u64::from(first_unknown() - MEMBERS)) as u16,
    }
}

/// For each dependency of an entry of this kind, the kind of result that it should have,
/// or none if any will do.
fn wanted(kind: u16) -> Vec<Option<Kind>> {
    match (kind, member(kind)) {
        (FUNCTION, _) => vec![None],
        (_, Some(member)) => {
            let argument = member.argument().map(Some);
            [Some(member.receiver())].into_iter().chain(argument).collect()
        }
        _ => vec![],
    }
}

/// The kind of result that an entry most likely has.
fn result(memory: &Memory, entry: usize) -> Option<Kind> {
    match memory.kind(entry) {
        NUMBER => Some(Kind::Number),
        DATA => Some(Kind::Window),
        FUNCTION => Some(Kind::Function),
        kind => member(kind).map(Member::result),
    }
}

/// The link to a lower entry, most likely to one that has the wanted kind of result.
fn lower(rng: &mut Rng, memory: &Memory, entry: usize, wanted: Option<Kind>) -> u16 {
    let is_fitting = |lower: &usize| wanted.is_some() && result(memory, *lower) == wanted;
    let fitting: Vec<usize> = (0..entry).filter(is_fitting).collect();
    let is_any = fitting.is_empty() || rng.one_in(3);
    let lower = if is_any { rng.below(entry as u64) as usize } else { rng.pick(&fitting) };
    1 + lower as u16
}

/// The key of a number: most are from -1 to 4, as counts, indices and lengths are.
fn number_key(rng: &mut Rng) -> u64 {
    if rng.one_in(4) { rng.below(1 << 32) } else { (1 << 31) - 1 + rng.below(6) }
}

/// The key and the level of an entry, by its kind. A function often has those of a variable
/// below it in number. Seldom there is a level where the kind has none.
fn key_and_level(rng: &mut Rng, memory: &Memory, entry: usize) -> (u64, u16) {
    let variables = (0..entry).filter(|lower| memory.kind(*lower) == VARIABLE);
    let variables: Vec<usize> = variables.collect();
    let names = [0x61, 0x61, 0x61, 0x62, 0x7831];
    match memory.kind(entry) {
        FUNCTION if !variables.is_empty() && !rng.one_in(3) => {
            let variable = rng.pick(&variables);
            (memory.key(variable), memory.level(variable))
        }
        VARIABLE | FUNCTION => (rng.pick(&names), level(rng)),
        kind => {
            let key = match kind {
                NUMBER => number_key(rng),
                UNBOUND => rng.pick(&names),
                _ => 0,
            };
            (key, if rng.one_in(200) { level(rng) } else { 0 })
        }
    }
}

/// Four variables of two names and two levels, and sums and functions over them: some await
/// three or all four.
fn of_variables(rng: &mut Rng) -> Memory {
    let mut memory = Memory::filled(|| rng.draw());
    memory.heads = vec![4 + rng.below(6) as u32, rng.below(9) as u32];
    let turn = rng.below(4) as usize;
    for entry in 0..memory.entries() {
        let mut below = || 1 + rng.below(entry.max(1) as u64) as u16;
        let (first, second) = (below(), below());
        let choice = rng.below(12);
        let (key, level) = (0x61 + choice % 2, (choice / 2 % 2) as u16);
        let (key, links) = match entry {
            0..4 => {
                let at = (entry + turn) % 4;
                (0x61 + at as u64 % 2, [VARIABLE, 0, 0, at as u16 / 2])
            }
            _ if choice < 4 => (key, [FUNCTION, first, 0, level]),
            _ => (0, [MEMBERS, first, second, 0]),
        };
        memory.links[4 * entry..4 * entry + 4].copy_from_slice(&links);
        memory.cells[4 * entry..4 * entry + 4].copy_from_slice(&[key, 0, 0, 0]);
    }
    memory
}

/// Memory of a few entries, each made at random and mostly of the right shape.
pub fn made_up(rng: &mut Rng) -> Memory {
    if rng.one_in(8) {
        return of_variables(rng);
    }
    let mut memory = Memory::filled(|| rng.draw());
    memory.heads = vec![rng.below(13) as u32, rng.below(9) as u32];
    for entry in 0..memory.entries() {
        let kind = kind(rng, entry);
        memory.links[4 * entry] = kind;
        memory.links[4 * entry + 1..4 * entry + 3].fill(0);
        for (at, wanted) in wanted(kind).into_iter().enumerate() {
            memory.links[4 * entry + 1 + at] = lower(rng, &memory, entry, wanted);
        }
        let (key, level) = key_and_level(rng, &memory, entry);
        memory.links[4 * entry + 3] = level;
        let kept = if kind >= FUNCTION && rng.one_in(16) { rng.pick(CELLS) } else { 0 };
        let is_named = kept == KEPT_FUNCTION || kept == KEPT_DELAYED;
        let name = if is_named { 0x61 } else { 0 };
        memory.cells[4 * entry..4 * entry + 4].copy_from_slice(&[key, kept, name, 0]);
    }
    memory
}

/// The same memory with some cells more in each slice.
pub fn with_spare(rng: &mut Rng, memory: &Memory) -> Memory {
    let mut longer = memory.clone();
    longer.readings.extend((0..17).map(|_| rng.draw() as i32));
    longer.heads.extend((0..5).map(|_| rng.draw() as u32));
    longer.links.extend((0..30).map(|_| rng.draw() as u16));
    longer.cells.extend((0..40).map(|_| rng.draw()));
    longer
}
