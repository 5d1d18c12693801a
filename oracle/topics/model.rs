//! The systematic model and the covariance model: document 01's numbers in their order, and what is accepted beside the original's.

use super::{beside, random::*, stored, stored::Lines, twins, Run, Stored, Topic, Value};
use original::{
    refine::PositionCovariance,
    uncertainty::{knot, CovarianceModel, Knot, SystematicModel},
};
use std::{collections::BTreeMap, iter::repeat_with};

pub const TOPIC: Topic = Topic { name: "model", gate: true, compare, store: Some(store), speed: Some(speed) };

pub type Column = [f32; 16];

unsafe extern "C" {
    safe fn vuzgari_compare_at(
        widths: &Column, gains: &Column, residuals: &Column, count: usize, floor: f32, known: bool, w: f32, out: &mut [f32; 2],
    ) -> u32;
    safe fn vuzgari_compare_model(
        widths: &Column, gains: &Column, residuals: &Column, count: usize, floor: f32, noise: &[f32; 3], offset: &[f32; 2],
        known: bool, w: f32, grid: f32, out: &mut [f32; 8],
    ) -> u32;
    safe fn vuzgari_compare_noise_at(noise: &[f32; 3], systematic: &[f32; 3], growth: &[f32; 2], sigma: f32, out: &mut [f32; 3]) -> u32;
    safe fn vuzgari_compare_total(noise: &[f32; 3], systematic: &[f32; 3], growth: &[f32; 2], sigma: f32, out: &mut [f32; 3]) -> u32;
}

/// Knots, any at all, of which the first `count` are meant.
#[derive(Clone)]
pub struct Knots {
    pub widths: Column,
    pub gains: Column,
    pub residuals: Column,
    pub count: usize,
    pub floor: f32,
}

fn within(limit: f32, x: f32) -> bool {
    x.abs() <= limit
}

fn up_to_thousand(x: f32) -> bool {
    (0.0..=1000.0).contains(&x)
}

impl Knots {
    fn counted(&self) -> impl Iterator<Item = Knot> + '_ {
        (0..self.count.min(16)).map(|k| knot(self.widths[k], self.gains[k], self.residuals[k]))
    }

    /// What refuses the knots: 14, then 12, or 0.
    fn refusal(&self) -> u32 {
        let knots: Vec<Knot> = self.counted().collect();
        if !(1..=16).contains(&self.count) || !knots.windows(2).all(|pair| pair[0].width < pair[1].width) {
            return 14;
        }
        let ranged = knots.iter().all(|k| [k.width, k.gain, k.residual].iter().all(|&x| within(1000.0, x)));
        if ranged && up_to_thousand(self.floor) { 0 } else { 12 }
    }

    /// Calls the original's model, whose knots are `'static`.
    fn original<R>(&self, call: impl FnOnce(&SystematicModel) -> R) -> R {
        let knots: Vec<Knot> = self.counted().collect();
        // SAFETY: the model is gone when `call` returns, and nothing that it answers holds a knot.
        let knots: &'static [Knot] = unsafe { &*(&raw const knots[..]) };
        call(&SystematicModel { knots, floor: self.floor })
    }

    fn any(random: &mut Random) -> Self {
        let count = match random.below(8) {
            0 => random.pick(&[0, 1, 2, 16, 17, usize::MAX]),
            _ => 1 + random.below(16) as usize,
        };
        let wild = random.below(4) == 0;
        let number = |random: &mut Random| if wild && random.below(16) == 0 { random.f32() } else { ranged(random, 1000.0) };
        let mut knots = Knots {
            widths: std::array::from_fn(|_| number(random)),
            gains: std::array::from_fn(|_| number(random)),
            residuals: std::array::from_fn(|_| number(random)),
            count,
            floor: if random.below(8) == 0 { ranged(random, 1000.0) } else { ranged(random, 1000.0).abs() },
        };
        // rising mostly; past the counted ones anything
        if random.below(8) != 0 {
            let n = count.min(16);
            knots.widths[..n].sort_by(f32::total_cmp);
        }
        if random.below(4) == 0 {
            (count.min(16)..16).for_each(|k| knots.gains[k] = random.f32());
        }
        knots
    }

    /// None, at a knot, next to it, between two, or any.
    fn width(&self, random: &mut Random) -> Option<f32> {
        let k = random.below(16) as usize;
        let step = random.below(3) as i32 - 1;
        match random.below(8) {
            0 => None,
            1 => Some(random.f32()),
            2 => Some(random.pick(&[f32::INFINITY, f32::NEG_INFINITY, f32::NAN, 0.0, -0.0])),
            3 | 4 => Some(f32::from_bits(self.widths[k].to_bits().wrapping_add_signed(step))),
            _ => Some((self.widths[k] + self.widths[(k + 1) % 16]) / 2.0),
        }
    }
}

/// Of a magnitude of at most `limit`: the limits, zeros, subnormal numbers, small whole numbers and parts, any size, or next beyond.
fn ranged(random: &mut Random, limit: f32) -> f32 {
    let size = match random.below(16) {
        0 => limit,
        1 => 0.0,
        2 => f32::from_bits(random.below(1 << 23) as u32),
        3 => 1e-20,
        4 | 5 => random.below(8) as f32 / 4.0,
        6 => f32::from_bits(limit.to_bits() - random.below(2) as u32),
        7 if random.below(32) == 0 => f32::from_bits(limit.to_bits() + 1),
        8..=11 => f32::from_bits(random.below(u64::from(limit.to_bits())) as u32),
        _ => limit * random.below(1 << 24) as f32 / (1 << 24) as f32,
    };
    if random.below(2) == 0 { size } else { -size }
}

fn sigma(random: &mut Random) -> f32 {
    match random.below(8) {
        0 => f32::NAN,
        1 => random.f32(),
        2 => random.pick(&[0.0, 0.288_675_13, 0.288_675_1, 0.288_675_2, 1.0]),
        _ => ranged(random, 1000.0),
    }
}

/// Three floats in range, or now and then one that isn't.
fn covariance(random: &mut Random, limit: f32) -> [f32; 3] {
    let wild = random.below(16) == 0;
    std::array::from_fn(|_| if wild { random.f32() } else { ranged(random, limit) })
}

impl Value for Knots {
    fn same(&self, other: &Self) -> bool {
        self.shown() == other.shown()
    }
    fn shown(&self) -> String {
        let knots: Vec<String> = (0..16).map(|k| [self.widths[k], self.gains[k], self.residuals[k]].shown()).collect();
        format!("count {}, floor {}, knots {}", self.count, self.floor.shown(), knots.join(" "))
    }
    /// With half of the knots, or one less.
    fn smaller(&self) -> Vec<Self> {
        let less = [self.count / 2, self.count.saturating_sub(1)].into_iter().filter(|&count| count > 0);
        less.map(|count| Knots { count, ..self.clone() }).collect()
    }
}

fn floats(c: PositionCovariance) -> [f32; 3] {
    [c.xx, c.xy, c.yy]
}

fn of(c: [f32; 3]) -> PositionCovariance {
    PositionCovariance::new(c[0], c[1], c[2])
}

/// Knots, the noise part, an offset, a width and a grid.
pub type Estimate = (Knots, [f32; 3], [f32; 2], Option<f32>, f32);

/// Knots and a width.
pub type Place = (Knots, Option<f32>);

pub fn ours_at((knots, width): &Place) -> (u32, [f32; 2]) {
    let mut out = [f32::NAN; 2];
    let (w, known) = (width.unwrap_or(1.5), width.is_some());
    let number = vuzgari_compare_at(&knots.widths, &knots.gains, &knots.residuals, knots.count, knots.floor, known, w, &mut out);
    (number, out)
}

pub fn their_at((knots, width): &Place) -> (u32, [f32; 2]) {
    match knots.refusal() {
        0 => {
            let (gain, residual) = knots.original(|model| model.at(*width));
            (0, [gain, residual])
        }
        number => (number, [0.0; 2]),
    }
}

pub fn ours_model((knots, noise, offset, width, grid): &Estimate) -> (u32, [f32; 8]) {
    let mut out = [f32::NAN; 8];
    let w = width.unwrap_or(f32::from_bits(0x7fc0_1234));
    let number = vuzgari_compare_model(
        &knots.widths, &knots.gains, &knots.residuals, knots.count, knots.floor, noise, offset, width.is_some(), w, *grid, &mut out,
    );
    (number, out)
}

pub fn their_model((knots, noise, offset, width, grid): &Estimate) -> (u32, [f32; 8]) {
    let refused = |number| (number, [0.0; 8]);
    match knots.refusal() {
        0 => {}
        number => return refused(number),
    }
    let ranged = noise.iter().all(|&x| within(1e6, x)) && offset.iter().all(|&x| within(1000.0, x)) && up_to_thousand(*grid);
    if !ranged {
        return refused(12);
    }
    let model = knots.original(|systematic| systematic.model(of(*noise), *offset, *width, *grid));
    let ([a, b, c], [d, e, f], [g, h]) = (floats(model.noise), floats(model.systematic), model.growth);
    if [d, e, f].iter().all(|x| x.is_finite()) { (0, [a, b, c, d, e, f, g, h]) } else { refused(13) }
}

/// The noise part, the systematic part, growth and sigma.
pub type Level = ([f32; 3], [f32; 3], [f32; 2], f32);

fn at_level(ours: extern "C" fn(&[f32; 3], &[f32; 3], &[f32; 2], f32, &mut [f32; 3]) -> u32) -> impl Fn(&Level) -> (u32, [f32; 3]) {
    move |(noise, systematic, growth, sigma)| {
        let mut out = [f32::NAN; 3];
        let number = ours(noise, systematic, growth, *sigma, &mut out);
        (number, out)
    }
}

pub fn ours_total(level: &Level) -> (u32, [f32; 3]) {
    at_level(vuzgari_compare_total)(level)
}

pub fn their_total(level: &Level) -> (u32, [f32; 3]) {
    their_level(level, CovarianceModel::total)
}

fn level_model(&(noise, systematic, growth, _): &Level) -> CovarianceModel {
    CovarianceModel { noise: of(noise), systematic: of(systematic), growth }
}

fn their_level(level: &Level, figure: fn(&CovarianceModel, f32) -> PositionCovariance) -> (u32, [f32; 3]) {
    let (noise, systematic, growth, sigma) = level;
    let ranged = noise.iter().all(|&x| within(1e6, x))
        && systematic.iter().all(|x| x.is_finite())
        && growth.iter().all(|&x| within(1000.0, x))
        && (sigma.is_nan() || within(1000.0, *sigma));
    if ranged { (0, floats(figure(&level_model(level), *sigma))) } else { (12, [0.0; 3]) }
}

/// One knot.
fn single(width: f32, gain: f32, residual: f32, floor: f32) -> Knots {
    let first = |x| std::array::from_fn(|k| if k == 0 { x } else { 0.0 });
    Knots { widths: first(width), gains: first(gain), residuals: first(residual), count: 1, floor }
}

/// An estimate that is 13: its gain is too small for its offset.
fn overflowing() -> Estimate {
    (single(1.0, 1e-20, 0.0, 0.0), [0.0; 3], [1.0, 0.0], None, 1.0)
}

fn compare(run: &mut Run) {
    let mut numbers: BTreeMap<(&str, u32), u64> = BTreeMap::new();
    let mut met = |what, number| *numbers.entry((what, number)).or_default() += 1;

    let mut random = run.random("at");
    let places = repeat_with(|| {
        let knots = Knots::any(&mut random);
        let width = knots.width(&mut random);
        (knots, width)
    });
    run.same("at", places.take(run.size(500_000) as usize), ours_at, |place| {
        let answer = their_at(place);
        met("at", answer.0);
        answer
    });
    // Document 01's reading, of both.
    let (mut widths, mut gains, mut residuals) = ([0.0; 16], [0.0; 16], [0.0; 16]);
    [widths[0], gains[0], residuals[0]] = [1.0, 0.5, 0.0];
    [widths[1], gains[1], residuals[1]] = [2.0, 0.25, 1.0];
    let worked = (Knots { widths, gains, residuals, count: 2, floor: 0.0 }, Some(1.5));
    run.same("worked knots", run.once(0..2), |&k| [ours_at, their_at][k](&worked), |_| (0, [0.375, 0.5]));

    let mut random = run.random("model");
    let estimates = repeat_with(|| {
        let knots = Knots::any(&mut random);
        let width = knots.width(&mut random);
        let offset = [ranged(&mut random, 1000.0), ranged(&mut random, 1000.0)];
        let grid = if random.below(16) == 0 { random.f32() } else { ranged(&mut random, 1000.0).abs() };
        (knots, covariance(&mut random, 1e6), offset, width, grid)
    });
    run.same("model", run.once([overflowing()].into_iter()).chain(estimates.take(run.size(500_000) as usize)), ours_model, |estimate| {
        let answer = their_model(estimate);
        met("model", answer.0);
        answer
    });

    for (what, ours, figure) in [
        ("noise_at", vuzgari_compare_noise_at as extern "C" fn(&_, &_, &_, _, &mut _) -> _, CovarianceModel::noise_at as fn(&_, _) -> _),
        ("total", vuzgari_compare_total, CovarianceModel::total),
    ] {
        let mut random = run.random(what);
        let levels = repeat_with(|| {
            let growth = [ranged(&mut random, 1000.0), ranged(&mut random, 1000.0)];
            let limit = random.pick(&[1e6, 1.0, f32::MAX]);
            (covariance(&mut random, 1e6), covariance(&mut random, limit), growth, sigma(&mut random))
        });
        run.same(what, levels.take(run.size(1_000_000) as usize), at_level(ours), |level| {
            let answer = their_level(level, figure);
            met(what, answer.0);
            answer
        });
    }
    for ((what, number), n) in numbers {
        run.count(&format!("{what} answered {number}"), n);
    }
}

fn put_knots(lines: &mut Lines, knots: &Knots) {
    let Knots { widths, gains, residuals, count, floor } = knots;
    lines.put('s', &[*count as u64, stored::pattern(*floor)]);
    for k in 0..16 {
        let knot = [widths[k], gains[k], residuals[k]].map(stored::pattern);
        if knot != [0; 3] {
            lines.put('k', &[k as u64, knot[0], knot[1], knot[2]]);
        }
    }
}

fn put_width(width: &Option<f32>) -> [u64; 2] {
    [width.is_some().into(), width.map_or(0, stored::pattern)]
}

fn call_at(lines: &mut Lines, place: &Place) {
    let (number, figures) = their_at(place);
    lines.call('a', &put_width(&place.1), &format!("at {number}{}", stored::shown(&figures)));
}

fn call_model(lines: &mut Lines, estimate: &Estimate) {
    let (_, noise, offset, width, grid) = estimate;
    let (number, figures) = their_model(estimate);
    let given = [put_width(width).to_vec(), [&[*grid], &noise[..], &offset[..]].concat().into_iter().map(stored::pattern).collect()];
    lines.call('m', &given.concat(), &format!("model {number}{}", stored::shown(&figures)));
}

fn call_level(lines: &mut Lines, letter: char, name: &str, level: &Level, figure: fn(&CovarianceModel, f32) -> PositionCovariance) {
    let (noise, systematic, growth, sigma) = level;
    let (number, figures) = their_level(level, figure);
    let given: Vec<u64> = [&noise[..], systematic, growth, &[*sigma]].concat().into_iter().map(stored::pattern).collect();
    lines.call(letter, &given, &format!("{name} {number}{}", stored::shown(&figures)));
}

/// Each twin, then seeded knots with widths and estimates, seeded levels, and the limits: each number at its limit and next beyond.
fn store() -> Stored {
    let mut lines = Lines::new(9);
    for twin in ["knots", "model", "total"].into_iter().flat_map(twins::twins) {
        match &twin.input {
            twins::Input::Knots(place) => {
                put_knots(&mut lines, &place.0);
                call_at(&mut lines, place);
            }
            twins::Input::Model((knots, noise, offset, width, grid)) => {
                // one knot is counted
                let first = |column: &Column| std::array::from_fn(|k| if k == 0 { column[0] } else { 0.0 });
                let knots = Knots { widths: first(&knots.widths), gains: first(&knots.gains), residuals: first(&knots.residuals), ..*knots };
                put_knots(&mut lines, &knots);
                call_model(&mut lines, &(knots, *noise, *offset, *width, *grid));
            }
            twins::Input::Total(level) => call_level(&mut lines, 't', "total", level, CovarianceModel::total),
            _ => unreachable!(),
        }
    }
    let mut random = Random::new(1);
    for _ in 0..7 {
        let knots = Knots::any(&mut random);
        put_knots(&mut lines, &knots);
        for _ in 0..3 {
            let width = knots.width(&mut random);
            call_at(&mut lines, &(knots.clone(), width));
            let offset = [ranged(&mut random, 1000.0), ranged(&mut random, 1000.0)];
            let grid = ranged(&mut random, 1000.0).abs();
            call_model(&mut lines, &(knots.clone(), covariance(&mut random, 1e6), offset, width, grid));
        }
    }
    for _ in 0..24 {
        let growth = [ranged(&mut random, 1000.0), ranged(&mut random, 1000.0)];
        let level = (covariance(&mut random, 1e6), covariance(&mut random, f32::MAX), growth, sigma(&mut random));
        call_level(&mut lines, 'n', "noise_at", &level, CovarianceModel::noise_at);
        call_level(&mut lines, 't', "total", &level, CovarianceModel::total);
    }
    let beyond = 1000.0_f32.next_up();
    for knots in [
        single(1000.0, -1000.0, 1000.0, 1000.0),
        single(-1000.0, 1000.0, -1000.0, -0.0),
        single(beyond, 0.5, 0.25, 0.0),
        single(-beyond, 0.5, 0.25, 0.0),
        single(f32::NAN, 0.5, 0.25, 0.0),
        single(1.0, beyond, 0.25, 0.0),
        single(1.0, -beyond, 0.25, 0.0),
        single(1.0, 0.5, beyond, 0.0),
        single(1.0, 0.5, -beyond, 0.0),
        single(1.0, 0.5, 0.25, beyond),
        single(1.0, 0.5, 0.25, -f32::from_bits(1)),
        single(1.0, 0.5, 0.25, f32::NAN),
    ] {
        put_knots(&mut lines, &knots);
        call_at(&mut lines, &(knots.clone(), Some(1.0)));
        call_model(&mut lines, &(knots, [1.0, 0.5, 1.0], [0.25, 0.5], Some(1.0), 1.0));
    }
    let knots = single(1.0, 0.5, 0.25, 0.0);
    put_knots(&mut lines, &knots);
    let million = 1e6_f32.next_up();
    for (noise, offset, grid) in [
        ([1e6, -1e6, 1e6], [1000.0, -1000.0], 1000.0),
        ([million, 0.0, 1.0], [0.25, 0.5], 1.0),
        ([1.0, -million, 1.0], [0.25, 0.5], 1.0),
        ([1.0, 0.5, 1.0], [beyond, 0.5], 1.0),
        ([1.0, 0.5, 1.0], [0.25, -beyond], 1.0),
        ([1.0, 0.5, 1.0], [0.25, 0.5], beyond),
        ([1.0, 0.5, 1.0], [0.25, 0.5], -f32::from_bits(1)),
    ] {
        call_model(&mut lines, &(knots.clone(), noise, offset, Some(1.0), grid));
    }
    let estimate = overflowing();
    put_knots(&mut lines, &estimate.0);
    call_model(&mut lines, &estimate);
    lines.stored()
}

fn speed() {
    let mut random = Random::new(1);
    let knots = Knots {
        widths: std::array::from_fn(|k| k as f32),
        gains: std::array::from_fn(|k| 1.0 / (1.0 + k as f32)),
        residuals: [0.125; 16],
        count: 16,
        floor: 0.25,
    };
    let estimates: Vec<Estimate> =
        (0..4096).map(|_| (knots.clone(), [1.0, 0.5, 1.0], [0.25, 0.5], Some(random.below(1600) as f32 / 100.0), 1.0)).collect();
    knots.original(|model| {
        beside("model, 16 knots", Some(2.0), &estimates, |estimate| ours_model(estimate).1[3], |(_, noise, offset, width, grid)| {
            model.model(of(*noise), *offset, *width, *grid).systematic.xx
        })
    });
    for growth in [0.0, 0.5] {
        let level = |sigma| ([1.0, 0.5, 1.0], [1.0; 3], [growth; 2], sigma);
        let levels: Vec<(Level, CovarianceModel)> =
            (0..4096).map(|_| level(random.below(100) as f32 / 10.0)).map(|level| (level, level_model(&level))).collect();
        let line = |what, ours, figure: fn(&CovarianceModel, f32) -> PositionCovariance| {
            let ours = at_level(ours);
            let theirs = |(level, model): &(Level, _)| floats(figure(model, level.3));
            beside(&format!("{what}, growth {growth}"), Some(2.0), &levels, |(level, _)| ours(level).1, theirs);
        };
        line("noise_at", vuzgari_compare_noise_at, CovarianceModel::noise_at);
        line("total", vuzgari_compare_total, CovarianceModel::total);
    }
}
