//! A slice to lend, with guard cells before and behind it.

use std::fmt::Debug;

/// How many guard cells stand on each side.
const GUARDS: usize = 32;

/// A cell of lent memory.
pub trait Cell: Copy + PartialEq + Debug {
    /// What a guard cell holds.
    const GUARD: Self;
}

impl Cell for u8 {
    const GUARD: u8 = 0xa6;
}

impl Cell for u16 {
    const GUARD: u16 = 0xa6c5;
}

impl Cell for u32 {
    const GUARD: u32 = 0xa6c5_93e1;
}

impl Cell for i32 {
    const GUARD: i32 = -0x593a_6c1f;
}

impl Cell for u64 {
    const GUARD: u64 = 0xa6c5_93e1_7b2d_f084;
}

/// The guards and, between them, what is lent.
#[derive(Clone)]
pub struct Lent<T> {
    all: Vec<T>,
}

impl<T: Cell> Lent<T> {
    pub fn new(contents: &[T]) -> Lent<T> {
        let guards = [T::GUARD; GUARDS];
        Lent { all: [&guards, contents, &guards].concat() }
    }

    pub fn contents(&self) -> &[T] {
        &self.all[GUARDS..self.all.len() - GUARDS]
    }

    pub fn contents_mut(&mut self) -> &mut [T] {
        let end = self.all.len() - GUARDS;
        &mut self.all[GUARDS..end]
    }

    /// The first cell to lend. The pointer is good for the guards as well, so that a
    /// call that writes there is noticed.
    pub fn pointer(&mut self) -> *mut T {
        // SAFETY: the guards stand before the contents.
        unsafe { self.all.as_mut_ptr().add(GUARDS) }
    }

    /// Whether no guard cell has changed.
    pub fn is_guarded(&self) -> bool {
        let behind = self.all.len() - GUARDS;
        let is_guard = |cell: &T| *cell == T::GUARD;
        self.all[..GUARDS].iter().all(is_guard) && self.all[behind..].iter().all(is_guard)
    }
}

/// A slice that is lent to be read only.
pub struct Read<T> {
    lent: Lent<T>,
    contents: Vec<T>,
}

impl<T: Cell> Read<T> {
    pub fn new(contents: &[T]) -> Read<T> {
        Read { lent: Lent::new(contents), contents: contents.to_vec() }
    }

    pub fn pointer(&mut self) -> *const T {
        self.lent.pointer()
    }

    pub fn length(&self) -> usize {
        self.contents.len()
    }

    pub fn check(&self, what: &str) {
        let is_kept = self.lent.contents() == self.contents && self.lent.is_guarded();
        assert!(is_kept, "the {what} was written");
    }
}
