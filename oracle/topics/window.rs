//! A window's pixel sum, gate and operator output beside the original's `window`, and on all windows of 0 and 255 beside its
//! `window_stats`.

use super::{beside, random::Random, Run, Topic, Value};
use original::noise;
use std::{iter::repeat_with, ops::Range};

pub const TOPIC: Topic = Topic { name: "window", gate: true, compare, store: None, speed: Some(speed) };

unsafe extern "C" {
    fn vuzgari_compare_window_sum(img: *const u8, len: usize, w: usize, at: usize) -> i32;
    fn vuzgari_compare_window_gate(img: *const u8, len: usize, w: usize, at: usize) -> i32;
    fn vuzgari_compare_window_op(img: *const u8, len: usize, w: usize, at: usize) -> i32;
}

/// Windows of each seeded kind in the gate.
const GATE: u64 = 1_000_000;

fn compare(run: &mut Run) {
    seeded(run, "random", |random, _| random.bits() as u8);
    seeded(run, "near flat", |random, level| level.saturating_add(random.below(4) as u8));
    seeded(run, "extreme", |random, _| random.pick(&[0, 0, 0, 1, 254, 255, 255, 255]));
    run.same("of 0 and 255", run.once(0..1 << 16), |&k| figures(&corner(k), 4, 0), |&k| {
        let pixels = corner(k);
        noise::window_stats(std::array::from_fn(|y| std::array::from_fn(|x| i32::from(pixels[4 * y + x]))))
    });
}

/// An image of up to 12 by 7 with a window somewhere in it.
struct Placed {
    w: usize,
    x: usize,
    y: usize,
    img: Vec<u8>,
}

impl Placed {
    /// Each pixel is made from the image's level.
    fn any(random: &mut Random, pixel: fn(&mut Random, u8) -> u8) -> Self {
        let (w, h) = (4 + random.below(9) as usize, 4 + random.below(4) as usize);
        let (x, y) = (random.below(w as u64 - 3) as usize, random.below(h as u64 - 3) as usize);
        let level = random.bits() as u8;
        Placed { w, x, y, img: repeat_with(|| pixel(random, level)).take(w * h).collect() }
    }

    /// The columns and rows given, which hold the window.
    fn cut(&self, columns: Range<usize>, rows: Range<usize>) -> Self {
        let img = rows.clone().flat_map(|y| &self.img[y * self.w..][columns.clone()]).copied().collect();
        Placed { w: columns.len(), x: self.x - columns.start, y: self.y - rows.start, img }
    }
}

impl Value for Placed {
    fn same(&self, _: &Self) -> bool {
        unreachable!("a place is an input")
    }
    fn shown(&self) -> String {
        let Placed { w, x, y, img } = self;
        format!("width {w}, x {x}, y {y}, {img:?}")
    }
    /// Without what lies left of the window, right of it, above or below.
    fn smaller(&self) -> Vec<Self> {
        let &Placed { w, x, y, .. } = self;
        let h = self.img.len() / w;
        let cuts = [(x..w, 0..h), (0..x + 4, 0..h), (0..w, y..h), (0..w, 0..y + 4)];
        cuts.map(|(columns, rows)| self.cut(columns, rows)).into_iter().filter(|cut| cut.img.len() < self.img.len()).collect()
    }
}

fn seeded(run: &mut Run, what: &str, pixel: fn(&mut Random, u8) -> u8) {
    let mut random = run.random(what);
    run.same(
        what,
        repeat_with(|| Placed::any(&mut random, pixel)).take(run.size(GATE) as usize),
        |Placed { w, x, y, img }| figures(img, *w, y * w + x),
        |Placed { w, x, y, img }| noise::window(&img[y * w..], *w, *x),
    );
}

/// The window whose pixels are 255 where k has a one.
fn corner(k: u32) -> [u8; 16] {
    std::array::from_fn(|n| if k >> n & 1 == 1 { 255 } else { 0 })
}

/// The three figures of the window at place `at`, which lies inside the image.
fn figures(img: &[u8], w: usize, at: usize) -> [i32; 3] {
    assert!(at + 3 * w + 4 <= img.len());
    let (img, len) = (img.as_ptr(), img.len());
    unsafe {
        [
            vuzgari_compare_window_sum(img, len, w, at),
            vuzgari_compare_window_gate(img, len, w, at),
            vuzgari_compare_window_op(img, len, w, at),
        ]
    }
}

/// The gate alone, from the call on; the original measures all three figures at once as well.
fn speed() {
    let mut random = Random::new(1);
    let inputs: Vec<Placed> = repeat_with(|| Placed::any(&mut random, |random, _| random.bits() as u8)).take(4096).collect();
    beside(
        "gate of a window",
        None,
        &inputs,
        |Placed { w, x, y, img }| unsafe { vuzgari_compare_window_gate(img.as_ptr(), img.len(), *w, y * w + x) },
        |Placed { w, x, y, img }| noise::window(&img[y * w..], *w, *x)[1],
    );
}
