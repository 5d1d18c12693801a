//! The edge call through its C export beside the original's `edge_width`, with the eight roots sorted; what the order of the
//! roots changes in the original as it stands is counted.

use super::{beside, random::*, Run, Topic, Value};
use original::{imageview::ImageView, sorted, uncertainty};
use std::{cell::RefCell, iter::repeat_with, ops::Range, rc::Rc};

pub const TOPIC: Topic = Topic { name: "edge", gate: true, compare, store: None, speed: Some(speed) };

unsafe extern "C" {
    fn vuzgari_edge_width(
        pixels: *const u8,
        pixels_len: usize,
        width: usize,
        height: usize,
        ox: i32,
        oy: i32,
        cx: i32,
        cy: i32,
    ) -> u64;
}

/// Calls of each kind in the gate.
const GATE: u64 = 60_000;
/// Centres on one image.
const CENTRES: u64 = 64;

#[derive(Clone)]
pub struct Call {
    pub pixels: Rc<Vec<u8>>,
    pub sides: [usize; 2],
    pub origin: [i32; 2],
    pub centre: [i32; 2],
}

impl Value for Call {
    fn same(&self, _: &Self) -> bool {
        unreachable!("calls are not compared")
    }
    fn shown(&self) -> String {
        let Call { pixels, sides: [w, h], origin, centre } = self;
        format!("{pixels:?}, {w}, {h}, {origin:?}, {centre:?}")
    }
    /// A half of the image with its pixels; where there are none, or not as many, half of a side or of the pixels.
    fn smaller(&self) -> Vec<Self> {
        let [w, h] = self.sides;
        if self.pixels.is_empty() || w.checked_mul(h) != Some(self.pixels.len()) {
            let halves = [(w / 2, h, self.pixels.len()), (w, h / 2, self.pixels.len()), (w, h, self.pixels.len() / 2)];
            let calls = halves.map(|(w, h, n)| Call { sides: [w, h], pixels: Rc::new(self.pixels[..n].to_vec()), ..self.clone() });
            return calls.into_iter().filter(|call| call.sides != self.sides || call.pixels.len() < self.pixels.len()).collect();
        }
        let halves = [(0..w / 2, 0..h), (w - w / 2..w, 0..h), (0..w, 0..h / 2), (0..w, h - h / 2..h)];
        let calls = halves.map(|(columns, rows)| self.cut(columns, rows));
        calls.into_iter().filter(|call| call.sides != self.sides).collect()
    }
}

impl Call {
    /// The columns and rows given, and the centre where it was in them.
    fn cut(&self, columns: Range<usize>, rows: Range<usize>) -> Self {
        let pixels = rows.clone().flat_map(|y| &self.pixels[y * self.sides[0]..][columns.clone()]).copied().collect();
        let ([cx, cy], moved) = (self.centre, [columns.start, rows.start].map(|n| n as i32));
        let centre = [cx.saturating_sub(moved[0]), cy.saturating_sub(moved[1])];
        Call { pixels: Rc::new(pixels), sides: [columns.len(), rows.len()], centre, ..self.clone() }
    }

    pub fn ours(&self) -> u64 {
        let ([w, h], [ox, oy], [cx, cy]) = (self.sides, self.origin, self.centre);
        // SAFETY: the pixels live through the call, which reads no others.
        unsafe { vuzgari_edge_width(self.pixels.as_ptr(), self.pixels.len(), w, h, ox, oy, cx, cy) }
    }

    /// The answer by document 01's order, and whether the original as it stands has another width.
    pub fn theirs(&self) -> (u64, bool) {
        const NUMBER: u64 = 1 << 32;
        let [w, h] = self.sides;
        if w > 16_384 || h > 16_384 {
            return (NUMBER + 1, false);
        }
        if self.pixels.len() != w * h {
            return (NUMBER + 2, false);
        }
        if self.centre.iter().chain(&self.origin).any(|part| part.unsigned_abs() > 1_000_000) {
            return (NUMBER + 8, false);
        }
        let view = ImageView::with_origin(w, h, &self.pixels, self.origin).expect("the pixels fit the sides");
        let width = sorted::edge_width(&view, self.centre, &mut sorted::PixelTile::default());
        let plain = uncertainty::edge_width(&view, self.centre, &mut uncertainty::PixelTile::default());
        let moved = width.map(f32::to_bits) != plain.map(f32::to_bits);
        (width.map_or(NUMBER + 9, |width| u64::from(width.to_bits())), moved)
    }
}

fn compare(run: &mut Run) {
    kind(run, "inside", |random| {
        let [w, h] = sides(random, 17);
        let call = painted(random, [w, h]);
        spread(call, random, |random| [8 + random.below(w as u64 - 16) as i32, 8 + random.below(h as u64 - 16) as i32])
    });
    kind(run, "at and beyond borders", |random| {
        let [w, h] = sides(random, 1);
        let call = painted(random, [w, h]);
        spread(call, random, |random| [random.below(w as u64 + 40) as i32 - 20, random.below(h as u64 + 40) as i32 - 20])
    });
    kind(run, "empty images", |random| {
        let side = random.pick(&[0, 1, 5, 17, 16_384, 16_385, 20_000]);
        let sides = random.pick(&[[0, side], [side, 0]]);
        let call = Call { pixels: Rc::default(), sides, origin: place(random), centre: [0, 0] };
        spread(call, random, place)
    });
    kind(run, "far centres and origins", |random| {
        let sides = sides(random, 1);
        let origin = place(random);
        let call = Call { origin, ..painted(random, sides) };
        // A centre that the origin brings back to the image, or any other.
        spread(call, random, move |random| {
            let back = origin.map(|part| (random.below(60) as i32 - 20).saturating_sub(part));
            if random.below(2) == 0 { back } else { place(random) }
        })
    });
    kind(run, "sides and lengths", |random| {
        let call = Call { origin: place(random), ..painted(random, [26, 26]) };
        let calls = repeat_with(|| {
            let odd = [0, 1, 25, 26, 27, 676, 16_384, 16_385, (1 << 32) + 26, 1 << 63, usize::MAX];
            let sides = [random.pick(&odd), random.pick(&odd)];
            let fitting = sides[0].checked_mul(sides[1]).filter(|&n| n <= 1 << 20).unwrap_or(676);
            let length = (fitting + random.below(3) as usize).saturating_sub(1);
            Call { pixels: Rc::new(vec![100; length]), sides, centre: place(random), ..call.clone() }
        });
        calls.take(CENTRES as usize).collect()
    });
    kind(run, "flat and level disks", |random| {
        let level = random.below(256) as u8;
        let mut pixels = vec![level; 17 * 17];
        // Where the smoothing of no place of the disk reaches: the rim alone is uneven.
        for (k, pixel) in pixels.iter_mut().enumerate() {
            let (x, y) = (k as i32 % 17 - 8, k as i32 / 17 - 8);
            let reached = (-2..=2).any(|i| (-2..=2).any(|j| (x + i).pow(2) + (y + j).pow(2) <= 25));
            if !reached && random.below(8) == 0 {
                *pixel = random.bits() as u8;
            }
        }
        let call = Call { pixels: Rc::new(pixels), sides: [17, 17], origin: [0, 0], centre: [8, 8] };
        let near = |random: &mut Random| [8 + random.below(3) as i32 - 1, 8 + random.below(3) as i32 - 1];
        [vec![call.clone()], spread(call, random, near)].concat()
    });
}

/// Compares calls made in groups; counts the widths of +0, and those that the order of the roots changes in the original.
fn kind(run: &mut Run, what: &str, mut group: impl FnMut(&mut Random) -> Vec<Call>) {
    let mut random = run.random(what);
    let calls = repeat_with(|| group(&mut random)).flatten().take(run.size(GATE) as usize);
    let (mut widths, mut zeros, mut moved) = (0, 0, 0);
    let theirs = |call: &Call| {
        let (answer, apart) = call.theirs();
        widths += u64::from(answer >> 32 == 0);
        zeros += u64::from(answer == 0);
        moved += u64::from(apart);
        answer
    };
    run.same(what, calls, Call::ours, theirs);
    run.count(&format!("{what}: widths"), widths);
    run.count(&format!("{what}: widths of +0"), zeros);
    run.count(&format!("{what}: widths that unsorted roots change"), moved);
}

/// The call at `CENTRES` centres.
fn spread(call: Call, random: &mut Random, mut centre: impl FnMut(&mut Random) -> [i32; 2]) -> Vec<Call> {
    (0..CENTRES).map(|_| Call { centre: centre(random), ..call.clone() }).collect()
}

fn sides(random: &mut Random, least: u64) -> [usize; 2] {
    [0, 0].map(|_| (least + random.below(48)) as usize)
}

/// A part at, next to or past ±1,000,000, or small, or anything.
fn place(random: &mut Random) -> [i32; 2] {
    [0, 0].map(|_| {
        let (size, any) = (999_999 + random.below(3) as i32, random.bits() as i32);
        match random.below(8) {
            0..4 => random.below(100) as i32 - 50,
            4 | 5 => size,
            6 => -size,
            _ => random.pick(&[i32::MIN, i32::MAX, any]),
        }
    })
}

/// An image with origin 0: noise, two levels parted by a line or in squares, with noise and blur or without, a ramp, or a flat
/// one with few spots.
fn painted(random: &mut Random, sides: [usize; 2]) -> Call {
    let [w, h] = sides;
    let levels = [random.below(256) as i32, random.below(256) as i32];
    let slope = [0, 0, 0].map(|_| random.below(41) as i32 - 20);
    let (rough, cell, way) = (random.pick(&[0, 0, 1, 4, 16]), 1 + random.below(12) as usize, random.below(6));
    let mut pixels: Vec<u8> = vec![];
    for k in 0..w * h {
        let (x, y) = (k % w, k / w);
        let line = slope[0] * (x as i32 - w as i32 / 2) + slope[1] * (y as i32 - h as i32 / 2) + slope[2];
        let base = match way {
            0 => random.below(256) as i32,
            1 => levels[usize::from(line > 0)],
            2 => levels[(x / cell + y / cell) % 2],
            3 => levels[0] + line,
            4 => if random.below(40) == 0 { levels[1] } else { levels[0] },
            _ => (levels[0] * (20 + line.clamp(-20, 20)) + levels[1] * (20 - line.clamp(-20, 20))) / 40,
        };
        pixels.push((base + random.below(2 * rough + 1) as i32 - rough as i32).clamp(0, 255) as u8);
    }
    Call { pixels: Rc::new(pixels), sides, origin: [0, 0], centre: [0, 0] }
}

/// Inside an image of squares with noise, and at its border: the tile loaded and its width taken.
fn speed() {
    let mut random = Random::new(1);
    let pixels = (0..64 * 64).map(|k| [60, 180][(k % 64 / 8 + k / 64 / 8) % 2] + random.below(9) as u8).collect();
    let call = Call { pixels: Rc::new(pixels), sides: [64, 64], origin: [0, 0], centre: [0, 0] };
    let inside = spread(call.clone(), &mut random, |random| [8 + random.below(48) as i32, 8 + random.below(48) as i32]);
    let border = spread(call, &mut random, |random| [random.pick(&[-3, 2, 61, 66]), random.below(64) as i32]);
    for (what, calls) in [("inside", inside), ("border", border)] {
        let view = ImageView::with_origin(64, 64, &calls[0].pixels, [0, 0]).expect("the pixels fit the sides");
        let tile = RefCell::default();
        let theirs = |call: &Call| {
            let width = uncertainty::edge_width(&view, call.centre, &mut tile.borrow_mut());
            width.map_or(0, |width| width.to_bits().into())
        };
        beside(&format!("edge, {what}"), Some(1.25), &calls, Call::ours, theirs);
    }
}
