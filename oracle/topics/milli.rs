//! Milli beside a reading of request A.3 in whole numbers: at its ends, at exact halves, beside half and whole thousandths, and on
//! seeded patterns. How many inputs of a kind a wrong form would answer otherwise is counted.

use super::{random::*, Run, Topic};
use std::{array, iter::repeat_with};

pub const TOPIC: Topic = Topic { name: "milli", gate: true, compare, store: None, speed: None };

unsafe extern "C" {
    pub safe fn vuzgari_compare_milli(x: f32) -> u32;
}

/// Inputs of each seeded kind in the gate.
const GATE: u64 = 4_000_000;
/// The most that milli can be in an answer, whose sigma is at most 409.
const MOST: u32 = 409_000;

/// The whole number nearest to 1,000 times the f32 of a pattern, of two equally near the larger; 0 for a NaN and wherever there is a
/// minus sign, the largest u32 where there is more.
pub fn nearest(pattern: u32) -> u32 {
    let (minus, field, fraction) = (pattern >> 31 == 1, pattern >> 23 & 0xff, u64::from(pattern & 0x7f_ffff));
    let nan = field == 255 && fraction != 0;
    match field {
        _ if minus || nan => 0,
        // 2^23 or more.
        150.. => u32::MAX,
        // Below 2^-12, so less than a quarter of a thousandth; subnormals are here.
        ..115 => 0,
        _ => {
            let (product, one) = (1_000 * (1 << 23 | fraction), 1 << (150 - field));
            let (whole, rest) = (product / one, product % one);
            let up = 2 * rest >= one;
            u32::try_from(whole + u64::from(up)).unwrap_or(u32::MAX)
        }
    }
}

/// Forms that are not the rule. An f64 holds 1,000 and 10,000 times an f32, and `as` has milli's ends.
const WRONG: [(&str, fn(f32) -> u32); 6] = [
    ("cut down", |x| thousandfold(x).floor() as u32),
    ("halves to even", |x| thousandfold(x).round_ties_even() as u32),
    ("halves down", |x| (thousandfold(x) - 0.5).ceil() as u32),
    ("a product in f32", |x| (x * 1_000.0).round() as u32),
    ("a product in f32 and a half added", |x| (x * 1_000.0 + 0.5).floor() as u32),
    ("ten-thousandths first", |x| ((f64::from(x) * 10_000.0).round() / 10.0).round() as u32),
];

fn thousandfold(x: f32) -> f64 {
    f64::from(x) * 1_000.0
}

fn compare(run: &mut Run) {
    kind(run, "special values", run.once(specials32().into_iter().map(f32::to_bits)));
    kind(run, "ends", run.once(ends()));
    kind(run, "odd sixteenths", run.once(odd_sixteenths()));
    kind(run, "half thousandths", run.once((0..=MOST).flat_map(|n| beside(f64::from(2 * n + 1) / 2_000.0))));
    kind(run, "whole thousandths", run.once((0..=MOST).flat_map(|n| beside(f64::from(n) / 1_000.0))));
    let mut random = run.random("seeded");
    kind(run, "seeded", repeat_with(|| random.f32().to_bits()).take(run.size(GATE) as usize));
    let mut random = run.random("seeded between the ends");
    let [first, past] = [0.000_5_f32, 4_294_967.5].map(f32::to_bits);
    let between = repeat_with(|| first + random.below((past - first).into()) as u32);
    kind(run, "seeded between the ends", between.take(run.size(GATE) as usize));
}

fn kind(run: &mut Run, what: &str, patterns: impl Iterator<Item = u32>) {
    let mut told = [0; WRONG.len()];
    let theirs = |x: &f32| {
        let right = nearest(x.to_bits());
        WRONG.iter().zip(&mut told).for_each(|((_, wrong), n)| *n += u64::from(wrong(*x) != right));
        right
    };
    run.same(what, patterns.map(f32::from_bits), |&x| vuzgari_compare_milli(x), theirs);
    for ((wrong, _), n) in WRONG.iter().zip(told).filter(|(_, n)| *n > 0) {
        run.count(&format!("{what} that {wrong} would change"), n);
    }
}

/// The f32 nearest to a number, or the next to it, with two on either side.
fn beside(x: f64) -> [u32; 5] {
    let pattern = (x as f32).to_bits();
    array::from_fn(|k| (pattern + k as u32).wrapping_sub(2))
}

/// 1,000 x is n + 1/2 just where x is an odd sixteenth. For then 16 x is (2 n + 1) / 125, which is whole, as the denominator of an
/// f32 is a power of two, and odd; and 1,000 j/16 is 62 j + j/2. All that an f32 can be, those up to 8,192 with their neighbours.
fn odd_sixteenths() -> impl Iterator<Item = u32> {
    const BESIDE: u32 = 16 * 8_192;
    let odd = |from: u32, to: u32| (from + 1..to).step_by(2).map(|j| f64::from(j) / 16.0);
    odd(0, BESIDE).flat_map(beside).chain(odd(BESIDE, 1 << 24).map(|x| (x as f32).to_bits()))
}

/// With either sign, 8,192 patterns about each of zero, the largest subnormal, 2^-17, half a thousandth, the most that 32 bits
/// hold, 2^23 and infinity.
fn ends() -> impl Iterator<Item = u32> {
    const SPAN: u32 = 1 << 12;
    let least = f32::MIN_POSITIVE;
    let middles = [0.0, least, 2_f32.powi(-17), 0.000_5, 4_294_967.5, 8_388_608.0, f32::INFINITY].map(f32::to_bits);
    let patterns = middles.into_iter().flat_map(|middle| (0..2 * SPAN).map(move |k| (middle + k).wrapping_sub(SPAN)));
    patterns.flat_map(|pattern| [pattern, pattern ^ 1 << 31])
}
