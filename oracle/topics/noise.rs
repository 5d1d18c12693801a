//! The noise call and the sizing call as C makes them, beside the original with its counters: what is returned, the ten fields, and
//! what is left in every lent slice and past it.

use super::{beside, images::KINDS, milli::nearest, random::Random, Count, Image, Run, Topic, Value};
use original::{counted, counts, grid, noise};
use std::{array, cell::RefCell, iter::repeat_with};

pub const TOPIC: Topic = Topic { name: "noise", gate: true, compare, store: None, speed: Some(speed) };
/// Images that take too long for the gate.
pub const LARGE: Topic = Topic { name: "large", gate: false, compare: large, store: None, speed: None };

unsafe extern "C" {
    safe fn vuzgari_noise_windows(w: usize, h: usize) -> u64;
    fn vuzgari_noise(
        pixels: *const u8,
        pixels_len: usize,
        w: usize,
        h: usize,
        ints: *mut i32,
        ints_len: usize,
        floats: *mut f32,
        floats_len: usize,
        out: *mut u8,
        out_len: usize,
    ) -> u32;
}

fn compare(run: &mut Run) {
    run.same("known lids", run.once(0..LIDS.len()), |&k| line(LIDS[k].0, LIDS[k].1), |&k| LIDS[k].2.to_string());
    sizes(run);
    answers(run);
    edges(run);
    refusals(run);
}

/// What a call returns, its ten fields where it writes them, and what is wrong with the memory that it leaves.
pub type Left = (u32, Vec<u32>, String);

/// How many elements each slice has.
#[derive(Clone, Copy, Debug, PartialEq)]
pub struct Lent {
    pub ints: usize,
    pub floats: usize,
    pub out: usize,
}

impl Lent {
    /// As many as needed.
    pub fn needed(w: usize, h: usize) -> Self {
        let windows = needed(w, h);
        Lent { ints: 3 * windows, floats: 2 * windows + 2, out: 40 }
    }
}

/// M, by the original's own expressions.
fn needed(w: usize, h: usize) -> usize {
    let total = |windows| grid::total(w, h, grid::step(w, h, windows));
    match grid::step(w, h, noise::WINDOWS) {
        1 => total(noise::WINDOWS),
        _ => total(noise::WINDOWS).max(total(4 * noise::WINDOWS)),
    }
}

/// Elements past the end of each slice that are looked at too.
const PAST: usize = 16;

/// A call on slices that hold other things before it, each with more memory behind it; what they hold after it by its bits.
pub fn ours(pixels: &[u8], w: usize, h: usize, lent: Lent) -> Left {
    let ints: Vec<i32> = (0..lent.ints + PAST).map(|k| !(k as i32)).collect();
    // NaNs of either sign, quiet and signalling, with payloads of their own: what stays must stay bit for bit.
    let floats: Vec<u32> = (1..=lent.floats + PAST).map(|k| 0x7f80_0001 | (k as u32).wrapping_mul(0x9e37_79b9) & 0x807f_ffff).collect();
    let out: Vec<u8> = (0..lent.out + PAST).map(|k| 0xa5 ^ k as u8).collect();
    let (mut i, mut o, before) = (ints.clone(), out.clone(), pixels.to_vec());
    let mut f: Vec<f32> = floats.iter().map(|&bits| f32::from_bits(bits)).collect();
    let number = unsafe {
        vuzgari_noise(
            pixels.as_ptr(), pixels.len(), w, h, i.as_mut_ptr(), lent.ints, f.as_mut_ptr(), lent.floats, o.as_mut_ptr(), lent.out,
        )
    };
    let f: Vec<u32> = f.iter().map(|x| x.to_bits()).collect();
    let measured = [0, 5, 6, 7].contains(&number);
    let clear = if measured { Lent::needed(w, h) } else { Lent { ints: 0, floats: 0, out: 0 } };
    let mut wrong = vec![];
    let mut hold = |what: &str, held: bool| if !held { wrong.push(what.to_string()) };
    hold("i32 slice not cleared", i[..clear.ints].iter().all(|&x| x == 0));
    hold("i32 slice changed beyond", i[clear.ints..] == ints[clear.ints..]);
    hold("f32 slice not cleared", f[..clear.floats].iter().all(|&x| x == 0));
    hold("f32 slice changed beyond", f[clear.floats..] == floats[clear.floats..]);
    hold("answer slice changed beyond", o[clear.out..] == out[clear.out..]);
    hold("pixels changed", pixels == before);
    let words = o[..clear.out].chunks(4).map(|four| u32::from_le_bytes(four.try_into().unwrap())).collect();
    (number, words, wrong.join(", "))
}

/// What document 01 and the original say of such a call.
pub fn theirs(pixels: &[u8], w: usize, h: usize, lent: Lent) -> Left {
    let number = refusal(pixels.len(), w, h, lent);
    if number != 0 {
        return (number, vec![], String::new());
    }
    let (sigma, counts) = counts::counted(|| counted::estimate_noise_sigma_u8(pixels, w, h));
    let (sigma, milli) = sigma.map_or((0, 0), |sigma| (sigma.to_bits(), nearest(sigma.to_bits())));
    let [b0, b1, b2, b3, rail, rounds, passes] =
        [counts.bands[0], counts.bands[1], counts.bands[2], counts.bands[3], counts.rail, counts.rounds, counts.passes].map(|n| n as u32);
    (counts.reason, vec![counts.reason, sigma, milli, b0, b1, b2, b3, rail, rounds, passes], String::new())
}

/// The ten fields of a call with memory enough; zeros beside a number that refuses.
pub fn answered(pixels: &[u8], w: usize, h: usize) -> Vec<u32> {
    let measured = [w, h].iter().all(|side| (4..=16_384).contains(side));
    let lent = if measured { Lent::needed(w, h) } else { Lent { ints: 0, floats: 0, out: 0 } };
    let (number, words, _) = theirs(pixels, w, h, lent);
    if words.is_empty() { refused(number) } else { words }
}

/// A number and no figure.
pub fn refused(number: u32) -> Vec<u32> {
    vec![number, 0, 0, 0, 0, 0, 0, 0, 0, 0]
}

/// Document 01's table: the first of 1 to 4 that applies.
fn refusal(pixels: usize, w: usize, h: usize, lent: Lent) -> u32 {
    if w.max(h) > 16_384 {
        return 1;
    }
    if pixels != w * h {
        return 2;
    }
    if w.min(h) < 4 {
        return 3;
    }
    let need = Lent::needed(w, h);
    if lent.ints < need.ints || lent.floats < need.floats || lent.out < need.out {
        return 4;
    }
    0
}

/// Sides, the pixel of a column, and the whole line.
const LIDS: [((usize, usize), fn(usize) -> u8, &str); 7] = [
    ((26, 26), |_| 128, "0 00000000 0 0 0 529 0 0 2 1"),
    ((26, 26), stripes, "6 00000000 0 0 529 0 0 0 2 1"),
    ((26, 26), |x| if x < 14 { 128 } else { stripes(x) }, "7 00000000 0 0 276 253 0 0 3 1"),
    ((25, 25), |_| 128, "5 00000000 0 0 0 484 0 0 0 1"),
    ((26, 26), |_| 11, "5 00000000 0 0 0 0 0 529 0 1"),
    // A lid and its negative, whose bands differ.
    ((26, 26), |_| 100, "0 00000000 0 0 529 0 0 0 2 1"),
    ((26, 26), |_| 255 - 100, "0 00000000 0 0 0 529 0 0 2 1"),
];

fn stripes(x: usize) -> u8 {
    [100, 150][x % 2]
}

/// The line that `lidnoise` prints, from a call's ten fields.
fn line((w, h): (usize, usize), column: fn(usize) -> u8) -> String {
    let pixels: Vec<u8> = (0..w * h).map(|k| column(k % w)).collect();
    let (_, words, wrong) = ours(&pixels, w, h, Lent::needed(w, h));
    shown(&words) + &wrong
}

/// Ten fields as `lidnoise` prints them.
pub fn shown(words: &[u32]) -> String {
    let fields: Vec<String> = words.iter().enumerate().map(|(k, x)| if k == 1 { format!("{x:08X}") } else { x.to_string() }).collect();
    fields.join(" ")
}

/// Sides of which many are out of range.
fn side(random: &mut Random) -> usize {
    match random.below(6) {
        0 => random.below(6) as usize,
        1 => 16_380 + random.below(8) as usize,
        2 => random.pick(&[1 << 32, (1 << 32) + 26, usize::MAX, 1 << 63, 65_536 + 26]),
        _ => 4 + random.below(700) as usize,
    }
}

/// The sizing call.
fn sizes(run: &mut Run) {
    let mut random = run.random("sizes");
    let every = (0..40).flat_map(|w| (0..400).map(move |h| (w, h)));
    let seeded = repeat_with(|| (side(&mut random), side(&mut random))).take(run.size(20_000) as usize);
    let sides = run.once(every).chain(seeded).map(|(w, h)| (Count::<0>(w), Count::<0>(h)));
    run.same("sizing", sides, |&(Count(w), Count(h))| vuzgari_noise_windows(w, h), |&(Count(w), Count(h))| match (w, h) {
        _ if w.max(h) > 16_384 => (1 << 32) + 1,
        _ if w.min(h) < 4 => (1 << 32) + 3,
        _ => needed(w, h) as u64,
    });
}

/// Images of every kind, in slices of just the length or longer ones.
fn answers(run: &mut Run) {
    let mut random = run.random("answers");
    let mut seen = [0; 8];
    let mut twice = 0;
    let calls = repeat_with(|| {
        let image = Image::any(&mut random);
        let more: [Count<0>; 3] = array::from_fn(|_| Count(random.pick(&[0, 0, 1, 7])));
        (image, more)
    });
    let lent = |image: &Image, more: &[Count<0>; 3]| {
        let need = Lent::needed(image.w, image.h);
        Lent { ints: need.ints + more[0].0, floats: need.floats + more[1].0, out: need.out + more[2].0 }
    };
    run.same(
        "images",
        calls.take(run.size(6_000) as usize),
        |(image, more)| ours(&image.pixels(), image.w, image.h, lent(image, more)),
        |(image, more)| {
            let left = theirs(&image.pixels(), image.w, image.h, lent(image, more));
            seen[left.0 as usize] += 1;
            twice += u64::from(left.1[9] == 2);
            left
        },
    );
    for number in [0, 5, 6, 7] {
        run.count(&format!("images, answer {number}"), seen[number]);
    }
    run.count("images, second pass", twice);
}

/// A lid with `part` columns of one level beside others, and one pixel a level lower.
#[derive(Clone, Debug)]
struct Lid {
    sides: (usize, usize),
    part: usize,
    level: u8,
    others: [u8; 2],
    lower: usize,
}

impl Value for Lid {
    fn same(&self, _: &Self) -> bool {
        true
    }
    fn shown(&self) -> String {
        format!("{self:?}")
    }
    fn smaller(&self) -> Vec<Self> {
        let (w, h) = self.sides;
        let narrow = Lid { sides: (w / 2, h), part: self.part / 2, lower: self.lower / 2, ..self.clone() };
        let low = Lid { sides: (w, h / 2), lower: self.lower / 2, ..self.clone() };
        [narrow, low].into_iter().filter(|lid| lid.sides.0 >= 4 && lid.sides.1 >= 4).collect()
    }
}

impl Lid {
    fn pixels(&self) -> Vec<u8> {
        let (w, h) = self.sides;
        let at = |k: usize| if k % w < self.part { self.level } else { self.others[k % 2] };
        (0..w * h).map(|k| at(k) - u8::from(k == self.lower && at(k) > 0)).collect()
    }
}

/// Lids that pass over each threshold a column at a time: 512 windows kept, 128 and 512 admitted, sums 192 and 3,888, and the
/// pixels from which the step is 2 and a second pass follows.
fn edges(run: &mut Run) {
    let mut random = run.random("edges");
    let mut seen = [0; 8];
    let mut twice = 0;
    let sides = [(35, 19), (10, 76), (67, 11), (26, 26), (25, 25), (19, 35), (128, 64), (128, 65), (91, 90), (91, 91), (260, 36)];
    let levels = [11, 12, 13, 63, 64, 128, 242, 243, 244];
    let others = [[100, 150], [0, 255], [200, 200], [12, 11]];
    let lids = sides.iter().flat_map(|&sides| (0..=sides.0).map(move |part| (sides, part)));
    let lids = lids.flat_map(|(sides, part)| others.iter().map(move |&others| (sides, part, others)));
    let lids = lids.map(|(sides, part, others)| {
        let lower = random.below(2 * (sides.0 * sides.1) as u64) as usize;
        Lid { sides, part, level: random.pick(&levels), others, lower }
    });
    run.same(
        "lids at the thresholds",
        run.slice(lids),
        |lid| ours(&lid.pixels(), lid.sides.0, lid.sides.1, Lent::needed(lid.sides.0, lid.sides.1)),
        |lid| {
            let left = theirs(&lid.pixels(), lid.sides.0, lid.sides.1, Lent::needed(lid.sides.0, lid.sides.1));
            seen[left.0 as usize] += 1;
            twice += u64::from(left.1[9] == 2);
            left
        },
    );
    for number in [0, 5, 6, 7] {
        run.count(&format!("lids at the thresholds, answer {number}"), seen[number]);
    }
    run.count("lids at the thresholds, second pass", twice);
}

/// Sides, how many pixels, and the lengths of the slices; any at all.
#[derive(Clone, Debug)]
struct Call {
    w: usize,
    h: usize,
    pixels: usize,
    lent: [Count<0>; 3],
}

impl Call {
    fn any(random: &mut Random) -> Self {
        let mut side = || if random.below(4) == 0 { side(random) } else { random.below(40) as usize };
        let (w, h) = (side(), side());
        let pixels = match w.checked_mul(h) {
            Some(n) if n < 1 << 20 => (n + random.pick(&[0, 0, 0, 0, 1, 2])).saturating_sub(random.pick(&[0, 0, 0, 1])),
            _ => random.below(1000) as usize,
        };
        let need = if w.min(h) >= 4 && w.max(h) <= 16_384 { Lent::needed(w, h) } else { Lent { ints: 30, floats: 22, out: 40 } };
        let lent = [need.ints, need.floats, need.out].map(|n| match random.below(8) {
            0 => Count(n.saturating_sub(1)),
            1 => Count(random.below(n as u64 + 1) as usize),
            _ => Count(n + random.below(3) as usize),
        });
        Call { w, h, pixels, lent }
    }

    fn on<R>(&self, call: fn(&[u8], usize, usize, Lent) -> R) -> R {
        let pixels: Vec<u8> = (0..self.pixels).map(|k| (k * k % 251) as u8).collect();
        let [Count(ints), Count(floats), Count(out)] = self.lent;
        call(&pixels, self.w, self.h, Lent { ints, floats, out })
    }

    /// With other sides, and as many pixels if they were as many.
    fn sized(&self, w: usize, h: usize) -> Self {
        let fit = self.w.checked_mul(self.h) == Some(self.pixels);
        Call { w, h, pixels: if fit { w * h } else { self.pixels }, ..self.clone() }
    }
}

impl Value for Call {
    fn same(&self, _: &Self) -> bool {
        unreachable!("calls are not compared")
    }
    fn shown(&self) -> String {
        format!("{self:?}")
    }
    fn smaller(&self) -> Vec<Self> {
        let narrow = (self.w > 0).then(|| self.sized(self.w / 2, self.h));
        let low = (self.h > 0).then(|| self.sized(self.w, self.h / 2));
        let fewer = (self.pixels > 0).then(|| Call { pixels: self.pixels / 2, ..self.clone() });
        let shorter = self.lent.smaller().into_iter().map(|lent| Call { lent, ..self.clone() });
        narrow.into_iter().chain(low).chain(fewer).chain(shorter).collect()
    }
}

/// Calls of which most are refused: sides out of range, pixels that are not w times h, slices one short or empty.
fn refusals(run: &mut Run) {
    let mut random = run.random("refusals");
    let mut seen = [0; 8];
    run.same(
        "refusals",
        repeat_with(|| Call::any(&mut random)).take(run.size(40_000) as usize),
        |call| call.on(ours),
        |call| {
            let left = call.on(theirs);
            seen[left.0 as usize] += 1;
            left
        },
    );
    for (number, n) in seen.iter().enumerate() {
        run.count(&format!("refusals, answer {number}"), *n);
    }
}

/// Every kind at the largest sides, the thinnest shapes, those with the most windows, a camera's, and seeded ones.
fn large(run: &mut Run) {
    let mut random = run.random("large");
    let sides = [(4, 16_384), (16_384, 4), (16_056, 25), (15_887, 132), (4_096, 3_072), (9_001, 77), (77, 9_001), (16_384, 16_384)];
    let mut twice = 0;
    let images = sides.iter().flat_map(|&(w, h)| (0..KINDS).map(move |kind| (w, h, kind)));
    let images: Vec<Image> = images.map(|(w, h, kind)| Image { w, h, kind, seed: random.bits() }).collect();
    let seeded = repeat_with(|| {
        let [w, h] = [(); 2].map(|_| 4 << random.below(12)).map(|least| (least + random.below(least + 1)) as usize);
        Image::sized(&mut random, w, h)
    });
    run.same(
        "images",
        run.slice(images.into_iter()).chain(seeded.take(run.size(64) as usize)),
        |image| ours(&image.pixels(), image.w, image.h, Lent::needed(image.w, image.h)),
        |image| {
            let left = theirs(&image.pixels(), image.w, image.h, Lent::needed(image.w, image.h));
            twice += u64::from(left.1[9] == 2);
            left
        },
    );
    run.count("images, second pass", twice);
}

/// From a small lid to the largest; the stripes have a second pass where the step is above 1. Ours clears lent memory, the
/// original takes its own from the heap.
fn speed() {
    let mut random = Random::new(1);
    for (w, h) in [(26, 26), (640, 480), (1_920, 1_080), (4_096, 3_072), (16_384, 16_384)] {
        for what in ["noisy flat", "stripes", "checkerboard", "lattice"] {
            let pixel = |k: usize| match what {
                "noisy flat" => 124 + random.below(9) as u8,
                "stripes" => stripes(k % w),
                "lattice" => 124 + ((k as u32).wrapping_mul(2_654_435_761) >> 16) as u8 % 9,
                _ => [0, 255][(k % w + k / w) % 2],
            };
            let pixels: Vec<u8> = (0..w * h).map(pixel).collect();
            let need = Lent::needed(w, h);
            let memory = RefCell::new((vec![0; need.ints], vec![0.0; need.floats], [0; 40]));
            let ours = |_: &()| {
                let (i, f, o) = &mut *memory.borrow_mut();
                let (ints, floats, out) = (i.as_mut_ptr(), f.as_mut_ptr(), o.as_mut_ptr());
                unsafe { vuzgari_noise(pixels.as_ptr(), w * h, w, h, ints, i.len(), floats, f.len(), out, 40) };
                f32::from_le_bytes([o[4], o[5], o[6], o[7]])
            };
            let theirs = |_: &()| noise::estimate_noise_sigma_u8(&pixels, w, h).unwrap_or(0.0);
            beside(&format!("noise, {w} by {h}, {what}"), Some(1.25), &[()], ours, theirs);
        }
    }
}
