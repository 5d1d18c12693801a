//! The gradient accumulator: document 01's numbers in their order, and what is accepted beside the original's.

use super::{beside, random::*, stored, stored::Lines, twins, Count, Run, Stored, Topic, Value};
use original::uncertainty::PixelGradients;
use std::{collections::BTreeMap, iter::repeat_with};

pub const TOPIC: Topic = Topic { name: "gradients", gate: true, compare, store: Some(store), speed: Some(speed) };

type Cells = [f32; 1024];

unsafe extern "C" {
    safe fn vuzgari_compare_reset(
        origin: &mut [i32; 2], side: &mut usize, gx: &mut Cells, gy: &mut Cells, x: i32, y: i32, n: usize,
    ) -> u32;
    safe fn vuzgari_compare_add(
        origin: &mut [i32; 2], side: &mut usize, gx: &mut Cells, gy: &mut Cells, x: i32, y: i32, vx: f32, vy: f32,
    ) -> u32;
    safe fn vuzgari_compare_covariance(origin: &[i32; 2], side: usize, gx: &Cells, gy: &Cells, out: &mut [f32; 3]) -> u32;
}

/// A state that a call is handed, any at all.
#[derive(Clone)]
struct State {
    origin: [i32; 2],
    side: usize,
    gx: Cells,
    gy: Cells,
}

/// What a call leaves: its number, and the state's parts.
type Left = (u32, [i32; 2], usize, Vec<Bits>);

/// A cell, bit for bit.
#[derive(Clone)]
struct Bits(u32);

impl Value for Bits {
    fn same(&self, other: &Self) -> bool {
        self.0 == other.0
    }
    fn shown(&self) -> String {
        format!("{:08x}", self.0)
    }
}

const REACH: i32 = 1_000_000;

/// What refuses a support: 8, then 10, or 0.
fn refusal(origin: [i32; 2], side: usize) -> u32 {
    match (origin.iter().all(|z| (-REACH..=REACH).contains(z)), side) {
        (false, _) => 8,
        (true, 33..) => 10,
        _ => 0,
    }
}

impl State {
    fn reset(&mut self, origin: [i32; 2], side: usize) -> u32 {
        vuzgari_compare_reset(&mut self.origin, &mut self.side, &mut self.gx, &mut self.gy, origin[0], origin[1], side)
    }

    fn add(&mut self, x: i32, y: i32, v: [f32; 2]) -> u32 {
        vuzgari_compare_add(&mut self.origin, &mut self.side, &mut self.gx, &mut self.gy, x, y, v[0], v[1])
    }

    fn covariance(&self) -> (u32, [f32; 3]) {
        let mut out = [f32::NAN; 3];
        let number = vuzgari_compare_covariance(&self.origin, self.side, &self.gx, &self.gy, &mut out);
        (number, out)
    }

    fn cells(&self) -> impl Iterator<Item = &f32> {
        self.gx.iter().chain(&self.gy)
    }

    /// A refused call leaves each cell bit for bit; after another all NaNs count as one.
    fn left(&self, number: u32) -> Left {
        let bits = |x: &f32| Bits(if number == 0 && x.is_nan() { f32::NAN.to_bits() } else { x.to_bits() });
        (number, self.origin, self.side, self.cells().map(bits).collect())
    }

    fn original(&self) -> PixelGradients {
        let grad = self.gx.iter().zip(&self.gy).map(|(&x, &y)| [x, y]).collect();
        PixelGradients { origin: self.origin, side: self.side, grad }
    }

    /// The original's state, with zeros for the cells that it does not have.
    fn of(from: &PixelGradients) -> Self {
        let cell = |k: usize, axis: usize| from.grad.get(k).map_or(0.0, |g| g[axis]);
        State { origin: from.origin, side: from.side, gx: std::array::from_fn(|k| cell(k, 0)), gy: std::array::from_fn(|k| cell(k, 1)) }
    }

    fn any(random: &mut Random) -> Self {
        let cell: fn(&mut Random) -> f32 = random.pick(&[|_: &mut Random| 0.0, plain, plain, Random::f32]);
        let mut state = State {
            origin: [coordinate(random), coordinate(random)],
            side: side(random),
            gx: std::array::from_fn(|_| cell(random)),
            gy: std::array::from_fn(|_| cell(random)),
        };
        for _ in 0..random.below(3) {
            let at = random.below(state.side.clamp(1, 32).pow(2) as u64) as usize;
            // a NaN of either sign, quiet or not, with any payload
            let nan = f32::from_bits(random.bits() as u32 | 0x7f80_0001);
            let wild = random.pick(&[f32::INFINITY, f32::NEG_INFINITY, nan, nan, f32::MAX, -0.0]);
            if random.below(2) == 0 {
                state.gx[at] = wild;
            } else {
                state.gy[at] = wild;
            }
        }
        state
    }
}

/// Any of 0 to 32, and beyond.
fn side(random: &mut Random) -> usize {
    match random.below(16) {
        0 => random.pick(&[33, 34, 64, 1 << 32, usize::MAX]),
        1 => random.pick(&[0, 1, 32]),
        _ => random.below(33) as usize,
    }
}

/// Within the limits, at them, next to them, or as far as the type goes.
fn coordinate(random: &mut Random) -> i32 {
    match random.below(16) {
        0 => random.pick(&[REACH, -REACH, REACH - 1, 1 - REACH]),
        1 => random.pick(&[REACH + 1, -REACH - 1, i32::MAX, i32::MIN]),
        _ => random.below(2 * REACH as u64 + 1) as i32 - REACH,
    }
}

/// A finite number of a size below 2 ^ 62: a few such squares add up to a finite f32, many may pass it and are 13.
fn plain(random: &mut Random) -> f32 {
    f32::from_bits((random.bits() as u32 & 0x807f_ffff) | (random.below(189) as u32) << 23)
}

/// In the support, just outside, or as far as the type goes.
fn pixel(random: &mut Random, origin: i32, side: usize) -> i32 {
    match random.below(16) {
        0 => random.bits() as i32,
        1 => random.pick(&[i32::MIN, i32::MAX]),
        2 => origin.wrapping_sub(1),
        3 => origin.wrapping_add(side as i32),
        _ => origin.wrapping_add(random.below(side.clamp(1, 40) as u64) as i32),
    }
}

fn addends(random: &mut Random) -> [f32; 2] {
    let one = |random: &mut Random| if random.below(4) == 0 { random.f32() } else { plain(random) };
    [one(random), one(random)]
}

impl Value for State {
    fn same(&self, other: &Self) -> bool {
        self.left(0).same(&other.left(0))
    }
    /// Without the cells that are zero.
    fn shown(&self) -> String {
        let cells = (0..1024).filter(|&k| self.gx[k].to_bits() | self.gy[k].to_bits() != 0);
        let cells: Vec<String> = cells.map(|k| format!("{k}: {} {}", self.gx[k].shown(), self.gy[k].shown())).collect();
        format!("origin {}, side {}, cells {}", self.origin.shown(), self.side, cells.join(", "))
    }
    /// With half of the side, or half of the cells cleared.
    fn smaller(&self) -> Vec<Self> {
        let narrow = (self.side > 0).then(|| State { side: self.side / 2, ..self.clone() });
        let used: Vec<usize> = (0..1024).filter(|&k| self.gx[k].to_bits() | self.gy[k].to_bits() != 0).collect();
        let without = |cells: &[usize]| {
            let mut state = self.clone();
            cells.iter().for_each(|&k| (state.gx[k], state.gy[k]) = (0.0, 0.0));
            state
        };
        let n = used.len();
        let clear = [&used[..n.div_ceil(2)], &used[n / 2..]].into_iter().filter(|cells| !cells.is_empty()).map(without);
        narrow.into_iter().chain(clear).collect()
    }
}

/// A state, and what a call is given besides.
struct Call<T>(State, T);

impl<T: Value + Clone> Value for Call<T> {
    fn same(&self, other: &Self) -> bool {
        self.0.same(&other.0) && self.1.same(&other.1)
    }
    fn shown(&self) -> String {
        format!("{}; {}", self.0.shown(), self.1.shown())
    }
    fn smaller(&self) -> Vec<Self> {
        let given = self.1.smaller().into_iter().map(|given| Call(self.0.clone(), given));
        self.0.smaller().into_iter().map(|state| Call(state, self.1.clone())).chain(given).collect()
    }
}

/// A support, and what is added at which pixels of it.
pub type Steps = ([i32; 2], Count<0>, Vec<([i32; 2], [f32; 2])>);

/// The covariance after a reset and adds, from a state that held other things.
pub fn our_sums((origin, Count(side), adds): &Steps) -> (u32, [f32; 3]) {
    let mut state = State { origin: [7, 7], side: 99, gx: [f32::NAN; 1024], gy: [1.0; 1024] };
    state.reset(*origin, *side);
    for &([x, y], v) in adds {
        state.add(x, y, v);
    }
    state.covariance()
}

pub fn their_sums((origin, Count(side), adds): &Steps) -> (u32, [f32; 3]) {
    let mut sums = PixelGradients::default();
    sums.reset(*origin, *side);
    if *side > 0 {
        adds.iter().for_each(|&([x, y], v)| sums.add(x, y, v));
    }
    sums.covariance().map_or((13, [0.0; 3]), |c| (0, [c.xx, c.xy, c.yy]))
}

fn compare(run: &mut Run) {
    let mut numbers: BTreeMap<(&str, u32), u64> = BTreeMap::new();
    let mut met = |what, number| {
        *numbers.entry((what, number)).or_default() += 1;
        number
    };
    // refused calls that leave a NaN of either sign, with a payload or signalling
    let mut kept = [0; 2];
    let mut keep = |state: &State| {
        let odd = |x: &&f32| x.is_nan() && x.to_bits() & 0x7fff_ffff != f32::NAN.to_bits();
        (0..2).for_each(|k| kept[k] += u64::from(state.cells().filter(odd).any(|x| x.is_sign_negative() == (k == 1))));
    };

    let mut random = run.random("reset");
    let calls = repeat_with(|| Call(State::any(&mut random), ([coordinate(&mut random), coordinate(&mut random)], side(&mut random))));
    run.same(
        "reset",
        calls.take(run.size(50_000) as usize),
        |Call(state, (origin, side))| {
            let mut state = state.clone();
            let number = state.reset(*origin, *side);
            state.left(number)
        },
        |Call(state, (origin, side))| match met("reset", refusal(*origin, *side)) {
            0 => {
                let mut fresh = PixelGradients::default();
                fresh.reset(*origin, *side);
                State::of(&fresh).left(0)
            }
            number => {
                keep(state);
                state.left(number)
            }
        },
    );

    let mut random = run.random("add");
    let calls = repeat_with(|| {
        let state = State::any(&mut random);
        let [x, y] = state.origin.map(|z| pixel(&mut random, z, state.side));
        Call(state, (x, y, addends(&mut random)))
    });
    run.same(
        "add",
        calls.take(run.size(100_000) as usize),
        |Call(state, (x, y, v))| {
            let mut state = state.clone();
            let number = state.add(*x, *y, *v);
            state.left(number)
        },
        |Call(state, (x, y, v))| {
            let place = |z: i32, o: i32| (0..state.side as i64).contains(&(i64::from(z) - i64::from(o)));
            let number = match refusal(state.origin, state.side) {
                0 if !v.iter().all(|v| v.is_finite()) => 12,
                0 if !(place(*x, state.origin[0]) && place(*y, state.origin[1])) => 11,
                number => number,
            };
            if met("add", number) != 0 {
                keep(state);
                return state.left(number);
            }
            let mut sums = state.original();
            sums.add(*x, *y, *v);
            State::of(&sums).left(0)
        },
    );

    let mut random = run.random("covariance");
    run.same(
        "covariance",
        repeat_with(|| State::any(&mut random)).take(run.size(100_000) as usize),
        State::covariance,
        |state| match refusal(state.origin, state.side) {
            0 => match state.original().covariance() {
                Some(c) => (met("covariance", 0), [c.xx, c.xy, c.yy]),
                None => (met("covariance", 13), [0.0; 3]),
            },
            number => (met("covariance", number), [0.0; 3]),
        },
    );

    // a support that is reset, added to and summed, as a localizer does
    let mut random = run.random("sums");
    let steps = repeat_with(|| {
        let origin = [random.below(4_001) as i32 - 2_000, random.below(4_001) as i32 - 2_000];
        let side = random.below(33) as usize;
        let adds = (0..random.below(200)).map(|_| (origin.map(|z| z + random.below(side.max(1) as u64) as i32), addends(&mut random)));
        (origin, Count::<0>(side), adds.filter(|(_, v)| v.iter().all(|v| v.is_finite())).collect::<Vec<_>>())
    });
    run.same("sums", steps.take(run.size(10_000) as usize), our_sums, their_sums);
    for ((what, number), n) in numbers {
        run.count(&format!("{what} answered {number}"), n);
    }
    run.count("refused calls that leave a positive NaN other than 7fc00000", kept[0]);
    run.count("refused calls that leave a negative NaN other than ffc00000", kept[1]);
}

/// The calls of a list, and what the original answers, with document 01's numbers.
struct Replay {
    sums: PixelGradients,
    lines: Lines,
}

impl Replay {
    /// A state that no call made.
    fn set(&mut self, origin: [i32; 2], side: usize) {
        (self.sums.origin, self.sums.side) = (origin, side);
        let [x, y] = origin.map(stored::signed);
        self.lines.put('s', &[x, y, side as u64]);
    }

    fn reset(&mut self, origin: [i32; 2], side: usize) {
        let number = refusal(origin, side);
        if number == 0 {
            self.sums.reset(origin, side);
        }
        let [x, y] = origin.map(stored::signed);
        self.lines.call('r', &[x, y, side as u64], &format!("reset {number}"));
    }

    fn add(&mut self, at: [i32; 2], v: [f32; 2]) {
        let place = |k: usize| (0..self.sums.side as i64).contains(&(i64::from(at[k]) - i64::from(self.sums.origin[k])));
        let number = match refusal(self.sums.origin, self.sums.side) {
            0 if !v.iter().all(|v| v.is_finite()) => 12,
            0 if !(place(0) && place(1)) => 11,
            number => number,
        };
        if number == 0 {
            self.sums.add(at[0], at[1], v);
        }
        let ([x, y], [vx, vy]) = (at.map(stored::signed), v.map(stored::pattern));
        self.lines.call('a', &[x, y, vx, vy], &format!("add {number}"));
    }

    fn covariance(&mut self) {
        let (number, c) = match refusal(self.sums.origin, self.sums.side) {
            0 => self.sums.covariance().map_or((13, [0.0; 3]), |c| (0, [c.xx, c.xy, c.yy])),
            number => (number, [0.0; 3]),
        };
        self.lines.call('c', &[], &format!("covariance {number}{}", stored::shown(&c)));
    }
}

/// Each twin, then seeded supports, of which some are refused, with adds of which some are, then states that are refused.
fn store() -> Stored {
    let mut replay = Replay { sums: PixelGradients::default(), lines: Lines::new(4) };
    replay.covariance();
    for twin in twins::twins("gram") {
        let twins::Input::Gram((origin, Count(side), adds)) = twin.input else { unreachable!() };
        replay.reset(origin, side);
        adds.into_iter().for_each(|(at, v)| replay.add(at, v));
        replay.covariance();
    }
    let mut random = Random::new(1);
    let whole = |z: i32| z.max(-i32::MAX);
    for _ in 0..40 {
        let origin = [coordinate(&mut random), coordinate(&mut random)].map(whole);
        replay.reset(origin, side(&mut random));
        for _ in 0..16 {
            let (origin, side) = (replay.sums.origin, replay.sums.side.min(4));
            replay.add(origin.map(|z| whole(pixel(&mut random, z, side))), addends(&mut random));
        }
        replay.covariance();
    }
    replay.reset([5, -5], 2);
    replay.add([5, -5], [1.0, 2.0]);
    replay.add([6, -4], [2.0, 1.0]);
    replay.covariance();
    for (origin, side) in [
        ([REACH + 1, 0], 2),
        ([0, REACH + 1], 2),
        ([-REACH - 1, 0], 2),
        ([0, -REACH - 1], 33),
        ([REACH, -REACH], 33),
        ([0, 0], usize::MAX),
    ] {
        replay.set(origin, side);
        replay.add(origin, [1.0, 1.0]);
        replay.add(origin, [f32::NAN, 1.0]);
        replay.covariance();
    }
    // as before
    replay.set([5, -5], 2);
    replay.covariance();
    replay.lines.stored()
}

/// Ours through exports that copy the whole state in, and `add` and `reset` out again: side 0 is what that costs `covariance`.
fn speed() {
    let mut random = Random::new(1);
    for (side, mark) in [(0, None), (11, Some(2.0)), (32, Some(2.0))] {
        let state = State { origin: [0; 2], side, gx: std::array::from_fn(|_| plain(&mut random)), gy: std::array::from_fn(|_| plain(&mut random)) };
        let original = state.original();
        let states = [(state, original)];
        beside(
            &format!("covariance, side {side}"),
            mark,
            &states,
            |(state, _)| state.covariance().0,
            |(_, original)| u32::from(original.covariance().is_none()),
        );
    }
    let pixels: Vec<(i32, i32)> = (0..4096).map(|_| (random.below(32) as i32, random.below(32) as i32)).collect();
    let ours = std::cell::RefCell::new(State { origin: [0; 2], side: 32, gx: [0.0; 1024], gy: [0.0; 1024] });
    let theirs = std::cell::RefCell::new(ours.borrow().original());
    let add = |&(x, y): &(i32, i32)| -> u32 { ours.borrow_mut().add(x, y, [1.0, 2.0]) };
    beside("add", None, &pixels, add, |&(x, y)| {
        theirs.borrow_mut().add(x, y, [1.0, 2.0]);
        0
    });
    beside("reset, side 32", None, &[32], |&side| ours.borrow_mut().reset([0; 2], side), |&side| {
        theirs.borrow_mut().reset([0; 2], side);
        0
    });
}
