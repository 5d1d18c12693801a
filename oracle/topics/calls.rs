//! Calls on lent memory that answer a number: what they leave in it and beside it, and how often they answer which.

use super::{Run, Value};
use std::{array, collections::BTreeMap, fmt::LowerHex};

/// Places right before the lent ones that are looked at too.
const BEFORE: usize = 8;

/// An array whose first `len` places are lent; all of it is looked at, and what stands before it.
#[derive(Clone, Copy, Debug, PartialEq)]
#[repr(C)]
pub struct Lent<T, const ROOM: usize> {
    before: [T; BEFORE],
    pub held: [T; ROOM],
    pub len: usize,
}

impl<T: Copy, const ROOM: usize> Lent<T, ROOM> {
    /// With these places in the array, and the first of them backwards before it.
    pub fn new(len: usize, at: impl FnMut(usize) -> T) -> Self {
        assert!(len <= ROOM);
        let held: [T; ROOM] = array::from_fn(at);
        Lent { before: array::from_fn(|k| held[BEFORE - 1 - k]), held, len }
    }

    /// The same with these first places.
    pub fn with(mut self, first: &[T]) -> Self {
        self.held[..first.len()].copy_from_slice(first);
        self
    }

    /// The same with so many lent.
    pub fn of(self, len: usize) -> Self {
        Lent { before: self.before, held: self.held, len }
    }

    pub fn lent(&self) -> &[T] {
        &self.held[..self.len]
    }

    /// Where the lent places begin, for a call that may write before and past them.
    pub fn start(&mut self) -> *mut T {
        let whole: *mut Self = self;
        // The arrays stand side by side.
        unsafe { whole.cast::<T>().add(BEFORE) }
    }
}

impl<T: Copy + PartialEq + LowerHex, const ROOM: usize> Value for Lent<T, ROOM> {
    fn same(&self, other: &Self) -> bool {
        self == other
    }
    fn shown(&self) -> String {
        let part = |part: &[T]| part.iter().map(|x| format!("{x:02x}")).collect::<Vec<_>>().join(" ");
        format!("[{}; {}; {}]", part(&self.before), part(self.lent()), part(&self.held[self.len..]))
    }
}

/// Compares calls, and counts them by the number that they answer.
pub fn numbered<A: Value, R: Value>(
    run: &mut Run,
    what: &str,
    calls: impl Iterator<Item = A>,
    ours: impl FnMut(&A) -> R,
    mut theirs: impl FnMut(&A) -> R,
    number: impl Fn(&R) -> u32,
) {
    let mut seen = BTreeMap::<u32, u64>::new();
    run.same(what, calls, ours, |call| {
        let left = theirs(call);
        *seen.entry(number(&left)).or_default() += 1;
        left
    });
    seen.into_iter().for_each(|(number, n)| run.count(&format!("{what}, answer {number}"), n));
}
