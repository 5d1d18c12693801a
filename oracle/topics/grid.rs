//! The grid's whole numbers beside the float expressions of `Sample::collect`: every pair of row and step, both sides of every
//! step's threshold at every width, then the windows of passes with seeded sides.

use super::{Count, Run, Topic};
use original::grid;
use std::iter::repeat_with;

pub const TOPIC: Topic = Topic { name: "grid", gate: true, compare, store: None, speed: None };

unsafe extern "C" {
    safe fn vuzgari_compare_step(w: usize, h: usize, windows: usize) -> usize;
    safe fn vuzgari_compare_first_x(j: usize, s: usize) -> usize;
    safe fn vuzgari_compare_row_count(w: usize, s: usize, j: usize) -> usize;
    pub safe fn vuzgari_compare_windows(w: usize, h: usize, windows: usize) -> usize;
    safe fn vuzgari_compare_needed(w: usize, h: usize) -> usize;
}

/// The largest side, and the step that it has.
const SIDE: usize = 16_384;
const STEPS: usize = 182;
/// W of the first pass and of the second.
pub const PASSES: [usize; 2] = [8_192, 32_768];
/// Seeded sides in the gate.
const GATE: u64 = 20_000;

fn compare(run: &mut Run) {
    run.same(
        "first x of every row and step",
        run.once(pairs()),
        |&(Count(j), Count(s))| vuzgari_compare_first_x(j, s),
        |&(Count(j), Count(s))| grid::grid_row(SIDE, s, j).0,
    );
    let widths = pairs().flat_map(|(j, s)| (4..=2 * s.0 + 4).chain([SIDE]).map(move |w| (Count::<4>(w), s, j)));
    run.same(
        "windows of a row",
        run.once(widths),
        |&(Count(w), Count(s), Count(j))| vuzgari_compare_row_count(w, s, j),
        |&(Count(w), Count(s), Count(j))| grid::grid_row(w, s, j).1,
    );
    run.same(
        "step beside every threshold",
        run.once(thresholds()),
        |&(Count(w), Count(h), n)| vuzgari_compare_step(w, h, n),
        |&(Count(w), Count(h), n)| grid::step(w, h, n),
    );

    let keys = PASSES.into_iter().flat_map(|n| (1..=STEPS).map(move |s| (n, s)));
    let holders: Vec<_> = run.once(keys).filter_map(holder).collect();
    run.same(
        "images with the most windows at their step",
        holders.into_iter(),
        |&(Count(w), Count(h), n, _)| (vuzgari_compare_windows(w, h, n), vuzgari_compare_needed(w, h) <= MOST),
        |&(.., total)| (total, total <= MOST),
    );

    let corners = [(4, 4), (4, SIDE), (SIDE, 4), (SIDE, SIDE), (16_056, 25), (15_887, 132)];
    let mut random = run.random("sides");
    let mut side = || {
        let most = random.pick(&[40, 400, SIDE as u64 - 3]);
        4 + random.below(most) as usize
    };
    let seeded = repeat_with(|| (side(), side())).take(run.size(GATE) as usize);
    let sides: Vec<Sides> = run.once(corners.into_iter()).chain(seeded).map(|(w, h)| (Count(w), Count(h))).collect();
    run.same(
        "windows of a pass",
        sides.iter().flat_map(|&(w, h)| PASSES.map(|n| (w, h, n))),
        |&(Count(w), Count(h), n)| vuzgari_compare_windows(w, h, n),
        |&(Count(w), Count(h), n)| total(w, h, n),
    );
    run.same(
        "windows that memory is needed for",
        sides.iter().copied(),
        |&(Count(w), Count(h))| vuzgari_compare_needed(w, h),
        |&(Count(w), Count(h))| needed(w, h),
    );
}

/// The most windows that an image can need memory for, as include/vuzgari.h promises.
const MOST: usize = 33_754;

/// Of all images whose pass has this W and this step, one with the most windows, and how many they are; none where there is no such
/// image. A row has no fewer windows in a wider image, so the widest image of each height is enough. With r = (w - 4) % s a row whose
/// first x is at most r has (w - 4) / s + 1 windows, and the others one less.
fn holder((windows, s): (usize, usize)) -> Option<(Count<4>, Count<4>, usize, usize)> {
    let firsts: Vec<u8> = (0..(SIDE - 3).div_ceil(s)).map(|j| grid::grid_row(SIDE, s, j).0 as u8).collect();
    let widest = (4..=SIDE).map(|h| ((s * s * windows / h).min(SIDE), h));
    let images = widest.filter(|(w, h)| *w >= 4 && w * h > (s - 1) * (s - 1) * windows);
    let counted = images.map(|(w, h)| {
        let (rows, longer) = ((h - 3).div_ceil(s), ((w - 4) % s) as u8);
        let more: usize = firsts[..rows].chunks(255).map(|part| usize::from(part.iter().map(|&x| u8::from(x <= longer)).sum::<u8>())).sum();
        (Count(w), Count(h), windows, rows * ((w - 4) / s) + more)
    });
    counted.max_by_key(|(.., total)| *total)
}

type Sides = (Count<4>, Count<4>);

/// Every row and step that an image can have.
fn pairs() -> impl Iterator<Item = (Count<0>, Count<1>)> {
    (1..=STEPS).flat_map(|s| (0..(SIDE - 3).div_ceil(s)).map(move |j| (Count(j), Count(s))))
}

/// For each threshold and each width the heights on both sides of it.
fn thresholds() -> impl Iterator<Item = (Count<4>, Count<4>, usize)> {
    PASSES.into_iter().flat_map(|n| {
        (1..=STEPS).flat_map(move |s| {
            (4..=SIDE).flat_map(move |w| {
                let low = s * s * n / w;
                [low, low + 1].into_iter().filter(|h| (4..=SIDE).contains(h)).map(move |h| (Count(w), Count(h), n))
            })
        })
    })
}

fn total(w: usize, h: usize, windows: usize) -> usize {
    grid::total(w, h, grid::step(w, h, windows))
}

/// The larger T of both passes, the first's where there is no second.
fn needed(w: usize, h: usize) -> usize {
    let first = total(w, h, PASSES[0]);
    if grid::step(w, h, PASSES[0]) > 1 { first.max(total(w, h, PASSES[1])) } else { first }
}
