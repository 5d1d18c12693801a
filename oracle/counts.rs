//! What a noise call of [`counted`](crate::counted) went through, in document 01's words.

use std::cell::Cell;

#[derive(Clone, Copy, Debug, Default, PartialEq)]
pub struct Counts {
    /// 0 with a figure; else why there is none: 3, 5, 6 or 7.
    pub reason: u32,
    /// Windows of each band in the last pass.
    pub bands: [usize; 4],
    /// Windows of the last pass near the rails.
    pub rail: usize,
    /// Evaluations for the image or for one band, over both passes.
    pub rounds: usize,
    pub passes: usize,
}

thread_local!(static NOW: Cell<Counts> = Cell::default());

fn change(f: impl FnOnce(&mut Counts)) {
    NOW.with(|now| {
        let mut counts = now.get();
        f(&mut counts);
        now.set(counts);
    })
}

/// `f`'s answer and what was counted on the way.
pub fn counted<T>(f: impl FnOnce() -> T) -> (T, Counts) {
    NOW.set(Counts::default());
    let answer = f();
    (answer, NOW.get())
}

pub(crate) fn round() {
    change(|c| c.rounds += 1)
}

pub(crate) fn pass() {
    change(|c| c.passes += 1)
}

pub(crate) fn reason(number: u32) {
    change(|c| c.reason = number)
}

pub(crate) fn windows([b0, b1, b2, b3, rail]: [usize; 5]) {
    change(|c| (c.bands, c.rail) = ([b0, b1, b2, b3], rail))
}
