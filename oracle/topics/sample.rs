//! `collect` beside `Sample::collect`: counts, rail, gates and squared outputs; the columns beside the original's `window` at
//! each place of its grid; and what is lent beyond them, as it was.

use super::{beside, grid::*, Image, Run, Topic, Value};
use crate::{images::KINDS, random::Random};
use original::{counted, counts, grid as expressions, noise};
use std::{cell::RefCell, iter::repeat_with};

pub const TOPIC: Topic = Topic { name: "sample", gate: true, compare, store: None, speed: Some(speed) };

unsafe extern "C" {
    fn vuzgari_compare_collect(
        img: *const u8,
        img_len: usize,
        w: usize,
        h: usize,
        windows: usize,
        ints: *mut i32,
        ints_len: usize,
        floats: *mut f32,
        floats_len: usize,
        counts: *mut usize,
        counts_len: usize,
    );
}

/// Seeded images in the gate.
const GATE: u64 = 2_000;

fn compare(run: &mut Run) {
    let mut random = run.random("images");
    let seeded = repeat_with(|| Lid::any(&mut random)).take(run.size(GATE) as usize);
    let (mut windows, mut hard) = (0, 0);
    let ours = |lid: &Lid| {
        let pass = ours(lid);
        windows += pass.3.len() as u64 / 3;
        hard += pass.3.iter().filter(|&&gate| gate >= 1 << 26 && gate % 16 == 12).count() as u64;
        pass
    };
    run.same("collect", run.once(corners()).chain(seeded), ours, theirs);
    run.count("windows", windows);
    run.count("gates from 2^26 on that are 12 mod 16", hard);
}

/// A pass over an image.
#[derive(Clone)]
struct Lid {
    image: Image,
    windows: usize,
}

/// Two kinds beside those of `images.rs`: any bytes, and nearly the pattern whose gate is the largest there is.
const BYTES: u64 = KINDS;
const PEAKS: u64 = KINDS + 1;

/// The longest and the largest images, and those whose grids have the most windows.
fn corners() -> impl Iterator<Item = Lid> {
    let sides = [(4, 4), (4, 16_384), (16_384, 4), (16_384, 16_384), (16_056, 25), (15_887, 132), (26, 26)];
    let images = sides.into_iter().flat_map(|(w, h)| [BYTES, PEAKS].map(|kind| Image { w, h, kind, seed: 1 }));
    images.flat_map(|image| PASSES.map(|windows| Lid { image: image.clone(), windows }))
}

impl Lid {
    fn any(random: &mut Random) -> Self {
        let mut image = Image::any(random);
        match random.below(8) {
            0 => image.kind = BYTES,
            1 => image.kind = PEAKS,
            2 => (image.w, image.kind) = (4 + random.below(16_381) as usize, BYTES),
            3 => (image.h, image.kind) = (4 + random.below(16_381) as usize, PEAKS),
            _ => (),
        }
        Lid { image, windows: random.pick(&PASSES) }
    }

    fn pixels(&self) -> Vec<u8> {
        let &Image { w, h, kind, mut seed } = &self.image;
        if kind < KINDS {
            return self.image.pixels().to_vec();
        }
        let mut pixels = Vec::with_capacity(w * h);
        for y in 0..h {
            for x in 0..w {
                seed = seed.wrapping_mul(6_364_136_223_846_793_005).wrapping_add(1_442_695_040_888_963_407);
                let any = (seed >> 56) as u8;
                let peak = if (x & 3).count_ones() % 2 == (y & 3).count_ones() % 2 { 255 } else { 0 };
                pixels.push(match kind {
                    BYTES => any,
                    _ if any < 32 => peak ^ any % 8,
                    _ => peak,
                });
            }
        }
        pixels
    }
}

impl Value for Lid {
    fn same(&self, other: &Self) -> bool {
        self.image.same(&other.image) && self.windows == other.windows
    }
    fn shown(&self) -> String {
        format!("{}, W {}", self.image.shown(), self.windows)
    }
    fn smaller(&self) -> Vec<Self> {
        self.image.smaller().into_iter().map(|image| Lid { image, ..*self }).collect()
    }
}

/// Band counts and rail, gates, squared outputs, columns, and whether the rest is as it was.
type Pass = ([usize; 5], Vec<f32>, Vec<f32>, Vec<i32>, bool);

fn ours(lid: &Lid) -> Pass {
    const FILL: (i32, f32, usize) = (-77, 0.5, 99);
    let &Image { w, h, .. } = &lid.image;
    let img = lid.pixels();
    let t = vuzgari_compare_windows(w, h, lid.windows);
    let (mut ints, mut floats, mut counts) = (vec![FILL.0; 3 * t + 5], vec![FILL.1; 2 * t + 4], vec![FILL.2; 6]);
    collect(&img, w, h, lid.windows, &mut ints, &mut floats, &mut counts);
    let five: [usize; 5] = counts[..5].try_into().unwrap();
    let kept: usize = five[..4].iter().sum();
    let rest = floats[2 * kept + 1..].iter().chain([&floats[kept]]).all(|&x| x == FILL.1)
        && ints[3 * t..].iter().all(|&x| x == FILL.0)
        && counts[5] == FILL.2;
    (five, floats[..kept].to_vec(), floats[kept + 1..2 * kept + 1].to_vec(), ints[..3 * t].to_vec(), rest)
}

fn theirs(lid: &Lid) -> Pass {
    let &Image { w, h, .. } = &lid.image;
    let img = lid.pixels();
    let ((sample, step), counts) = counts::counted(|| counted::Sample::collect(&img, w, h, lid.windows));
    let [b0, b1, b2, b3] = counts.bands;
    let mut columns = [vec![], vec![], vec![]];
    for (j, y) in (0..h - 3).step_by(step).enumerate() {
        let (x, n) = expressions::grid_row(w, step, j);
        for k in 0..n {
            let figures = noise::window(&img[y * w..(y + 4) * w], w, x + k * step);
            columns.iter_mut().zip(figures).for_each(|(column, figure)| column.push(figure));
        }
    }
    ([b0, b1, b2, b3, counts.rail], sample.gate().to_vec(), sample.op().to_vec(), columns.concat(), true)
}

fn collect(img: &[u8], w: usize, h: usize, windows: usize, ints: &mut [i32], floats: &mut [f32], counts: &mut [usize]) {
    assert!(w >= 4 && h >= 4 && img.len() == w * h && counts.len() >= 5);
    unsafe {
        vuzgari_compare_collect(
            img.as_ptr(), img.len(), w, h, windows,
            ints.as_mut_ptr(), ints.len(), floats.as_mut_ptr(), floats.len(), counts.as_mut_ptr(), counts.len(),
        );
    }
}

/// A pass over a noisy flat image and over one of any bytes, ours into lent memory.
fn speed() {
    for (w, h) in [(640, 480), (1_920, 1_080), (4_096, 3_072)] {
        for (name, kind) in [("flat", 0), ("any bytes", BYTES)] {
            for windows in PASSES {
                let img = Lid { image: Image { w, h, kind, seed: 3 }, windows }.pixels();
                let t = vuzgari_compare_windows(w, h, windows);
                let memory = RefCell::new((vec![0i32; 3 * t], vec![0f32; 2 * t + 2], vec![0usize; 5]));
                let ours = |_: &()| {
                    let (ints, floats, counts) = &mut *memory.borrow_mut();
                    collect(&img, w, h, windows, ints, floats, counts);
                    counts[0]
                };
                let what = format!("collect {w} by {h}, {name}, W {windows}");
                beside(&what, None, &[()], ours, |_| noise::Sample::collect(&img, w, h, windows).0.start[1]);
            }
        }
    }
}
