//! The quiet level, the start, the block sums, the rounds and the joining beside the original's, on slices of gates and squared
//! outputs. Lengths lie around every multiple of 255 and 256 that a pass can have; gates and outputs stand on the thresholds.

use super::{beside, random::*, Run, Topic, Value};
use original::{counted, counts, noise};
use std::ops::Range;

pub const TOPIC: Topic = Topic { name: "rounds", gate: true, compare, store: None, speed: Some(speed) };

type Part = *const f32;

unsafe extern "C" {
    fn vuzgari_compare_quantile(values: Part, len: usize) -> f32;
    fn vuzgari_compare_mean_quiet(op: Part, ops: usize, gate: Part, gates: usize, quiet: f32) -> f64;
    fn vuzgari_compare_admitted_count(gate: Part, gates: usize, op: Part, ops: usize, gate_var: f64, op_var: f64) -> usize;
    fn vuzgari_compare_admitted_sum(gate: Part, gates: usize, op: Part, ops: usize, gate_var: f64, op_var: f64) -> f64;
    fn vuzgari_compare_variance_count(gate: Part, gates: usize, op: Part, ops: usize, image_var: f64) -> usize;
    fn vuzgari_compare_variance(gate: Part, gates: usize, op: Part, ops: usize, image_var: f64) -> f64;
    fn vuzgari_compare_variance_rounds(gate: Part, gates: usize, op: Part, ops: usize, image_var: f64) -> usize;
    fn vuzgari_compare_image_variance(gate: Part, gates: usize, op: Part, ops: usize, e1: usize, e2: usize, e3: usize) -> f64;
    fn vuzgari_compare_image_rounds(gate: Part, gates: usize, op: Part, ops: usize, e1: usize, e2: usize, e3: usize) -> usize;
    fn vuzgari_compare_noise_number(gate: Part, gates: usize, op: Part, ops: usize, e1: usize, e2: usize, e3: usize) -> u32;
    fn vuzgari_compare_noise_sigma(gate: Part, gates: usize, op: Part, ops: usize, e1: usize, e2: usize, e3: usize) -> f32;
    fn vuzgari_compare_noise_rounds(gate: Part, gates: usize, op: Part, ops: usize, e1: usize, e2: usize, e3: usize) -> usize;
}

/// A band's gates and squared outputs, as many of each.
#[derive(Clone, Default)]
pub struct Windows {
    pub gate: Vec<f32>,
    pub op: Vec<f32>,
}

impl Windows {
    fn part(&self, of: Range<usize>) -> Self {
        Windows { gate: self.gate[of.clone()].to_vec(), op: self.op[of].to_vec() }
    }
}

impl Value for Windows {
    fn same(&self, _: &Self) -> bool {
        unreachable!("windows are an input")
    }
    fn shown(&self) -> String {
        format!("gates {}, outputs {}", self.gate.shown(), self.op.shown())
    }
    fn smaller(&self) -> Vec<Self> {
        halves(self.gate.len()).map(|half| self.part(half)).collect()
    }
}

/// The first and the last half of n, where n is not 0.
fn halves(n: usize) -> impl Iterator<Item = Range<usize>> {
    [0..n / 2, n - n / 2..n].into_iter().filter(move |_| n > 0)
}

/// Gates to take a quantile of, at least one.
struct Gates(Vec<f32>);

impl Value for Gates {
    fn same(&self, _: &Self) -> bool {
        unreachable!("gates are an input")
    }
    fn shown(&self) -> String {
        self.0.shown()
    }
    fn smaller(&self) -> Vec<Self> {
        self.0.smaller().into_iter().filter(|half| !half.is_empty()).map(Gates).collect()
    }
}

/// Most windows of a pass.
const MOST: usize = 33_754;

/// Inputs of each kind in the gate.
const GATE: u64 = 3_000;

fn compare(run: &mut Run) {
    quantile(run);
    mean_quiet(run);
    admitted(run);
    variance(run);
    image_variance(run);
    noise_sigma(run);
}

// ---- calls

fn our_quantile(values: &[f32]) -> f32 {
    unsafe { vuzgari_compare_quantile(values.as_ptr(), values.len()) }
}

fn our_mean_quiet(Windows { gate, op }: &Windows, quiet: f32) -> f64 {
    unsafe { vuzgari_compare_mean_quiet(op.as_ptr(), op.len(), gate.as_ptr(), gate.len(), quiet) }
}

fn our_admitted(Windows { gate, op }: &Windows, gate_var: f64, op_var: f64) -> (usize, f64) {
    let (g, o, n) = (gate.as_ptr(), op.as_ptr(), gate.len());
    unsafe { (vuzgari_compare_admitted_count(g, n, o, n, gate_var, op_var), vuzgari_compare_admitted_sum(g, n, o, n, gate_var, op_var)) }
}

/// Count (0 for none), variance (NaN for none) and rounds.
fn our_variance(Windows { gate, op }: &Windows, image_var: f64) -> (usize, f64, usize) {
    let (g, o, n) = (gate.as_ptr(), op.as_ptr(), gate.len());
    unsafe {
        (
            vuzgari_compare_variance_count(g, n, o, n, image_var),
            vuzgari_compare_variance(g, n, o, n, image_var),
            vuzgari_compare_variance_rounds(g, n, o, n, image_var),
        )
    }
}

fn their_variance(Windows { gate, op }: &Windows, image_var: f64) -> (usize, f64, usize) {
    let band = counted::Band { gate, op };
    let (found, counts) = counts::counted(|| band.variance(image_var));
    let (n, var) = found.unwrap_or((0, f64::NAN));
    (n, var, counts.rounds)
}

/// Four bands one after the other.
#[derive(Clone)]
pub struct Sample {
    windows: Windows,
    ends: [usize; 3],
}

impl Sample {
    pub fn new(bands: &[Windows; 4]) -> Self {
        let mut windows = Windows::default();
        let mut ends = [0; 4];
        for (end, Windows { gate, op }) in ends.iter_mut().zip(bands) {
            windows.gate.extend(gate);
            windows.op.extend(op);
            *end = windows.gate.len();
        }
        let [e1, e2, e3, _] = ends;
        Sample { windows, ends: [e1, e2, e3] }
    }

    pub fn bands(&self) -> [Windows; 4] {
        let [e1, e2, e3] = self.ends;
        [0..e1, e1..e2, e2..e3, e3..self.windows.gate.len()].map(|band| self.windows.part(band))
    }

    fn original(&self) -> counted::Sample {
        let Windows { gate, op } = &self.windows;
        let buf = [&gate[..], &[0.0], op, &[0.0]].concat();
        let [e1, e2, e3] = self.ends;
        counted::Sample { buf, kept: gate.len(), start: [0, e1, e2, e3, gate.len()] }
    }

    /// Number, sigma and rounds.
    pub fn our_sigma(&self) -> (u32, f32, usize) {
        (self.ours(vuzgari_compare_noise_number), self.ours(vuzgari_compare_noise_sigma), self.ours(vuzgari_compare_noise_rounds))
    }

    pub fn their_sigma(&self) -> (u32, f32, usize) {
        let original = self.original();
        let (sigma, counts) = counts::counted(|| counted::noise_sigma(&original));
        (counts.reason, sigma.unwrap_or(0.0), counts.rounds)
    }

    fn ours<R>(&self, call: unsafe extern "C" fn(Part, usize, Part, usize, usize, usize, usize) -> R) -> R {
        let (Windows { gate, op }, [e1, e2, e3]) = (&self.windows, self.ends);
        unsafe { call(gate.as_ptr(), gate.len(), op.as_ptr(), op.len(), e1, e2, e3) }
    }
}

impl Value for Sample {
    fn same(&self, _: &Self) -> bool {
        unreachable!("a sample is an input")
    }
    fn shown(&self) -> String {
        format!("{}, ends {}", self.windows.shown(), self.ends.shown())
    }
    /// With half of a band, and at least one window.
    fn smaller(&self) -> Vec<Self> {
        let samples = self.bands().smaller().into_iter().map(|bands| Sample::new(&bands));
        samples.filter(|sample| !sample.windows.gate.is_empty()).collect()
    }
}

// ---- inputs

/// From 0 to the most of a pass: each multiple of 255 and of 256, and the two lengths on either side.
fn lengths() -> impl Iterator<Item = usize> {
    let around = |m: usize| (0..=MOST / m).flat_map(move |k| (0..5).map(move |d| (k * m + d).saturating_sub(2)));
    around(255).chain(around(256)).filter(|&n| n <= MOST)
}

/// A length: mostly that of a small band.
fn length(random: &mut Random) -> usize {
    match random.below(8) {
        0 => random.below(MOST as u64 + 1) as usize,
        1 => 125 + random.below(8) as usize,
        2..=4 => random.below(1_200) as usize,
        _ => random.below(12) as usize * 256 + random.below(5) as usize,
    }
}

/// The thresholds that a variance sets.
fn thresholds(var: f64) -> (f32, f32) {
    let var = var.max(noise::ROUNDING_OP_VAR);
    ((noise::GATE * var) as f32, (noise::TRUNC * noise::TRUNC * var) as f32)
}

/// x, or a step or two from it.
fn near(random: &mut Random, x: f32) -> f32 {
    f32::from_bits(x.to_bits().wrapping_add(random.below(5) as u32).wrapping_sub(2))
}

fn variance_of(random: &mut Random) -> f64 {
    match random.below(4) {
        0 => random.below(100) as f64,
        1 => random.below(1 << 26) as f64 / 3.0,
        2 => (random.below(1 << 20) as f64).sqrt(),
        _ => f64::from_bits(0x3ff0_0000_0000_0000 + (random.bits() >> 6 & 0x01ff_ffff_ffff_ffff)),
    }
}

/// n windows of one kind: noise of a level, with structure among it; all alike; few different numbers; any finite numbers;
/// numbers on the thresholds of `var`; levels that rise from round to round.
fn windows(random: &mut Random, n: usize, var: f64) -> Windows {
    let (threshold, cut) = thresholds(var);
    let kind = random.below(8);
    let (level, share, few) = (1 + random.below(2_000), random.below(40), 1 + random.below(30));
    let (rise, more) = (1.0 + random.below(400) as f64 / 1000.0, 1.001 + random.below(300) as f64 / 1000.0);
    let (height, ratio) = (1.0 + random.below(2_000) as f64, 1.0 + random.below(30) as f64);
    let (gate, op) = (0..n)
        .map(|_| match kind {
            0..=2 => {
                let out = normal(random) * (level as f64).sqrt() * 20.0;
                let gate: f64 = (0..9).map(|_| normal(random).powi(2)).sum::<f64>() * level as f64 * 400.0;
                let edge = if random.below(100) < share { (1 + random.below(1_000)) as f64 } else { 1.0 };
                ((gate * edge).round() as f32, (out * edge).round().powi(2) as f32)
            }
            3 => (level as f32, few as f32),
            4 => (random.below(few) as f32, random.below(few).pow(2) as f32),
            5 => (finite(random), finite(random).abs()),
            6 => (near(random, threshold), near(random, cut)),
            _ => {
                // the number at step k of a stair is `more` times as likely as the one before it
                let k = ((random.below(1 << 20) as f64 / (1 << 20) as f64 * (more.powi(24) - 1.0) + 1.0).ln() / more.ln()).floor();
                let at = height * rise.powf(k);
                ((at * ratio).round() as f32, at.round() as f32)
            }
        })
        .unzip();
    Windows { gate, op }
}

/// Standard normal, near enough.
fn normal(random: &mut Random) -> f64 {
    (0..12).map(|_| random.below(1 << 32) as f64 / (1u64 << 32) as f64).sum::<f64>() - 6.0
}

fn finite(random: &mut Random) -> f32 {
    loop {
        let x = random.f32();
        if x.is_finite() {
            return x;
        }
    }
}

// ---- comparisons

/// On lengths around each multiple, then on seeded ones; infinities, subnormals and zeros of both signs among them.
fn quantile(run: &mut Run) {
    let mut random = run.random("quantile");
    let seeded: Vec<usize> = (0..run.size(GATE)).map(|_| 1 + length(&mut random)).collect();
    let inputs = run.slice(lengths()).filter(|&n| n > 0).chain(seeded).map(|n| {
        let any = random.below(4) == 0;
        let gates = windows(&mut random, n, 100.0).gate;
        Gates(gates.into_iter().map(|g| if any { loop { let x = random.f32(); if !x.is_nan() { break x } } } else { g }).collect())
    });
    run.same("quantile", inputs, |Gates(v)| our_quantile(v), |Gates(v)| noise::quantile(v, 1.0 / 16.0));
}

fn mean_quiet(run: &mut Run) {
    let mut random = run.random("mean_quiet");
    let seeded: Vec<usize> = (0..run.size(GATE)).map(|_| length(&mut random)).collect();
    let inputs = run.slice(lengths().step_by(3)).chain(seeded).map(|n| {
        let windows = windows(&mut random, n, 100.0);
        let quiet = if n == 0 || random.below(8) == 0 { random.below(1 << 20) as f32 } else { random.pick(&windows.gate) };
        (windows, quiet)
    });
    run.same(
        "mean_quiet",
        inputs,
        |(windows, quiet)| our_mean_quiet(windows, *quiet),
        |(Windows { gate, op }, quiet)| noise::mean_quiet(op, gate, *quiet),
    );
}

fn admitted(run: &mut Run) {
    let mut random = run.random("admitted");
    let seeded: Vec<usize> = (0..run.size(GATE)).map(|_| length(&mut random)).collect();
    let inputs = run.slice(lengths()).chain(seeded).map(|n| {
        let (gate_var, op_var) = (variance_of(&mut random), variance_of(&mut random));
        let Windows { mut gate, mut op } = windows(&mut random, n, gate_var);
        if random.below(4) == 0 {
            // on both thresholds
            (gate, op) = (windows(&mut random, n, gate_var).gate, windows(&mut random, n, op_var).op);
            for k in 0..n {
                if random.below(2) == 0 {
                    (gate[k], op[k]) = (near(&mut random, thresholds(gate_var).0), near(&mut random, thresholds(op_var).1));
                }
            }
        }
        (Windows { gate, op }, gate_var, op_var)
    });
    let mut none = 0;
    run.same(
        "admitted",
        inputs,
        |(windows, gate_var, op_var)| our_admitted(windows, *gate_var, *op_var),
        |(Windows { gate, op }, gate_var, op_var)| {
            let answer = noise::Band { gate, op }.admitted(*gate_var, *op_var);
            none += u64::from(answer.0 == 0 && !gate.is_empty());
            answer
        },
    );
    run.count("admitted, none of some", none);
}

fn variance(run: &mut Run) {
    let mut random = run.random("variance");
    let seeded: Vec<usize> = (0..run.size(GATE)).map(|_| length(&mut random)).collect();
    let inputs = run.slice(lengths().step_by(2)).chain(seeded).map(|n| {
        let image_var = variance_of(&mut random);
        let at = if random.below(2) == 0 { image_var } else { 100.0 };
        (windows(&mut random, n, at), image_var)
    });
    let mut kinds = [0; 4];
    run.same(
        "variance",
        inputs,
        |(windows, image_var)| our_variance(windows, *image_var),
        |(windows, image_var)| {
            let answer = their_variance(windows, *image_var);
            kinds[0] += u64::from(answer.0 > 0);
            kinds[1] += u64::from(answer.2 == 12);
            kinds[2] += u64::from(answer.2 == 0);
            kinds[3] += u64::from(answer.2 > 0 && answer.0 == 0);
            answer
        },
    );
    for (what, n) in ["found", "in twelve rounds", "without rounds", "none after rounds"].iter().zip(kinds) {
        run.count(&format!("variance {what}"), n);
    }
}

/// Bands of any lengths; of 127 to 129 windows; 510 to 514 windows in all; each level with windows of its own; bands that are
/// level, one of them at three times the median or at eight times the image's, or a step or two from it.
fn sample(random: &mut Random) -> Sample {
    let mut bands: [Windows; 4] = Default::default();
    match random.below(8) {
        0..=2 => {
            for band in &mut bands {
                if random.below(4) > 0 {
                    let n = length(random).min(6_000);
                    *band = windows(random, n, 100.0);
                }
            }
        }
        3 => {
            for band in &mut bands {
                let n = 127 + random.below(3) as usize;
                *band = windows(random, n, 100.0);
            }
        }
        4 => {
            let mut left = 510 + random.below(5) as usize;
            for (k, band) in bands.iter_mut().enumerate() {
                let n = if k == 3 { left } else { random.below(left as u64 + 1) as usize };
                left -= n;
                *band = windows(random, n, 100.0);
            }
        }
        kind => {
            let base = 34.0 + random.below(1 << 20) as f32 / 16.0;
            let far = [3.0, 3.0, 1.5, 8.0][random.below(4) as usize];
            let some = [0b0011, 0b1010, 0b0111, 0b1111, 0b1111, 0b1111][random.below(6) as usize];
            let outlier = random.below(4);
            for (k, band) in bands.iter_mut().enumerate() {
                if some >> k & 1 == 1 {
                    let level = if k as u64 == outlier { base * far } else { base };
                    let n = if kind == 5 { 128 } else { 100 + random.below(500) as usize };
                    *band = Windows { gate: vec![0.0; n], op: vec![near(random, level); n] };
                }
            }
        }
    }
    Sample::new(&bands)
}

fn image_variance(run: &mut Run) {
    let mut random = run.random("image_variance");
    let samples: Vec<Sample> = (0..run.size(GATE)).map(|_| sample(&mut random)).filter(|s| !s.windows.gate.is_empty()).collect();
    let mut twelve = 0;
    run.same(
        "image_variance",
        samples.into_iter(),
        |s| (s.ours(vuzgari_compare_image_variance), s.ours(vuzgari_compare_image_rounds)),
        |s| {
            let original = s.original();
            let (var, counts) = counts::counted(|| original.image_variance());
            twelve += u64::from(counts.rounds == 12);
            (var, counts.rounds)
        },
    );
    run.count("image_variance in twelve rounds", twelve);
}

fn noise_sigma(run: &mut Run) {
    let mut random = run.random("noise_sigma");
    let samples: Vec<Sample> = (0..run.size(GATE)).map(|_| sample(&mut random)).collect();
    let mut numbers = [0; 8];
    run.same("noise_sigma", samples.into_iter(), Sample::our_sigma, |s| {
        let answer = s.their_sigma();
        numbers[answer.0 as usize] += 1;
        answer
    });
    for number in [0, 5, 6, 7] {
        run.count(&format!("noise_sigma that answers {number}"), numbers[number]);
    }
}

/// The windows of a pass.
fn speed() {
    let mut random = Random::new(1);
    let bands: [Windows; 4] = std::array::from_fn(|_| loop {
        let windows = windows(&mut random, 2_048, 100.0);
        if windows.gate.iter().any(|&g| g != windows.gate[0]) {
            break windows;
        }
    });
    let sample = Sample::new(&bands);
    let counted::Sample { buf, kept, start } = sample.original();
    let original = noise::Sample { buf, kept, start };
    let Windows { gate, op } = &sample.windows;
    let line = |what: &str, ours: &dyn Fn() -> f64, theirs: &dyn Fn() -> f64| beside(what, None, &[()], |_| ours(), |_| theirs());
    line("quantile", &|| our_quantile(gate).into(), &|| noise::quantile(gate, 1.0 / 16.0).into());
    line("mean_quiet", &|| our_mean_quiet(&sample.windows, 1e5), &|| noise::mean_quiet(op, gate, 1e5));
    line(
        "admitted",
        &|| unsafe { vuzgari_compare_admitted_sum(gate.as_ptr(), gate.len(), op.as_ptr(), op.len(), 4e4, 4e4) },
        &|| noise::Band { gate, op }.admitted(4e4, 4e4).1,
    );
    line("noise_sigma", &|| sample.ours(vuzgari_compare_noise_sigma).into(), &|| noise::noise_sigma(&original).unwrap_or(0.0).into());
}
