//! The float helpers beside the hardware's own operations: all special values and all pairs of them, then seeded inputs.

use super::{beside, random::*, Run, Stored, Topic, Value};
use std::iter::repeat_with;

pub const TOPIC: Topic = Topic { name: "floats", gate: true, compare, store: Some(store), speed: Some(speed) };

unsafe extern "C" {
    pub safe fn vuzgari_compare_sqrt32(x: f32) -> f32;
    safe fn vuzgari_compare_sqrt64(x: f64) -> f64;
    safe fn vuzgari_compare_to_f32(x: f64) -> f32;
    pub safe fn vuzgari_compare_floor32(x: f32) -> f32;
    safe fn vuzgari_compare_abs64(x: f64) -> f64;
    pub safe fn vuzgari_compare_is_finite32(x: f32) -> bool;
    safe fn vuzgari_compare_max32(a: f32, b: f32) -> f32;
    safe fn vuzgari_compare_max64(a: f64, b: f64) -> f64;
    safe fn vuzgari_compare_min32(a: f32, b: f32) -> f32;
    safe fn vuzgari_compare_total_less32(a: f32, b: f32) -> bool;
    safe fn vuzgari_compare_total_less64(a: f64, b: f64) -> bool;
}

/// Inputs of each kind in the gate.
const GATE: u64 = 4_000_000;

fn compare(run: &mut Run) {
    one(run, "sqrt32", &specials32(), Random::f32, vuzgari_compare_sqrt32, f32::sqrt);
    one(run, "sqrt64", &specials64(), Random::f64, vuzgari_compare_sqrt64, f64::sqrt);
    one(run, "to_f32", &specials64(), Random::f64, vuzgari_compare_to_f32, |x| x as f32);
    one(run, "floor32", &specials32(), Random::f32, vuzgari_compare_floor32, f32::floor);
    one(run, "abs64", &specials64(), Random::f64, vuzgari_compare_abs64, f64::abs);
    one(run, "is_finite32", &specials32(), Random::f32, vuzgari_compare_is_finite32, f32::is_finite);
    extreme(run, "max32", &specials32(), Random::f32, vuzgari_compare_max32, f32::max);
    extreme(run, "max64", &specials64(), Random::f64, vuzgari_compare_max64, f64::max);
    extreme(run, "min32", &specials32(), Random::f32, vuzgari_compare_min32, f32::min);
    order(run, "total_less32", &specials32(), Random::f32, vuzgari_compare_total_less32, |a, b| a.total_cmp(&b).is_lt(), f32::NAN);
    order(run, "total_less64", &specials64(), Random::f64, vuzgari_compare_total_less64, |a, b| a.total_cmp(&b).is_lt(), f64::NAN);
}

/// A helper of one argument.
fn one<A: Value + Copy, R: Value>(
    run: &mut Run,
    what: &str,
    specials: &[A],
    input: fn(&mut Random) -> A,
    ours: extern "C" fn(A) -> R,
    theirs: fn(A) -> R,
) {
    let mut random = run.random(what);
    let seeded = repeat_with(|| input(&mut random)).take(run.size(GATE) as usize);
    run.same(what, run.once(specials.iter().copied()).chain(seeded), |&x| ours(x), |&x| theirs(x));
}

/// A helper of two arguments.
fn two<A: Value + Copy, R: Value>(
    run: &mut Run,
    what: &str,
    specials: &[A],
    input: fn(&mut Random) -> A,
    ours: impl FnMut(&(A, A)) -> R,
    theirs: impl FnMut(&(A, A)) -> R,
) {
    let mut random = run.random(what);
    let pairs = specials.iter().flat_map(|&a| specials.iter().map(move |&b| (a, b)));
    let seeded = repeat_with(|| (input(&mut random), input(&mut random))).take(run.size(GATE) as usize);
    run.same(what, run.once(pairs).chain(seeded), ours, theirs);
}

/// A maximum or minimum. Rust leaves open which of two zeros it answers: any zero is right there, and those of the other sign
/// than the hardware's are counted.
fn extreme<A: Value + Copy + PartialEq + Default>(
    run: &mut Run,
    what: &str,
    specials: &[A],
    input: fn(&mut Random) -> A,
    ours: extern "C" fn(A, A) -> A,
    theirs: fn(A, A) -> A,
) {
    let zero = A::default();
    let (mut zeros, mut signs) = (0, 0);
    let apart = |&(a, b): &(A, A)| {
        let (got, want) = (ours(a, b), theirs(a, b));
        if a != zero || b != zero || got != zero {
            return got;
        }
        zeros += 1;
        signs += u64::from(!got.same(&want));
        want
    };
    two(run, what, specials, input, apart, |&(a, b)| theirs(a, b));
    run.count(&format!("{what} of two zeros"), zeros);
    run.count(&format!("{what} of two zeros, of the other sign"), signs);
}

/// `total_cmp`'s Less, with each NaN read as the one that Rattle has; pairs for which Rust's answer hangs on which NaN it is are
/// counted.
fn order<A: Value + Copy + PartialEq>(
    run: &mut Run,
    what: &str,
    specials: &[A],
    input: fn(&mut Random) -> A,
    ours: extern "C" fn(A, A) -> bool,
    theirs: fn(A, A) -> bool,
    nan: A,
) {
    let plain = |x: A| if x == x { x } else { nan };
    let mut apart = 0;
    let read = |&(a, b): &(A, A)| {
        let want = theirs(plain(a), plain(b));
        apart += u64::from(want != theirs(a, b));
        want
    };
    two(run, what, specials, input, |&(a, b)| ours(a, b), read);
    run.count(&format!("{what} that hang on which NaN it is"), apart);
}

/// The helpers in the order of their letters, from a on: name, whether the arguments are f64, and the hardware's answer as a
/// pattern. All NaNs of an answer are written as the quiet one, and a NaN that is put in order is read as that one.
const STORED: [(&str, bool, fn(u64, u64) -> u64); 11] = [
    ("sqrt32", false, |a, _| bits32(single(a).sqrt())),
    ("sqrt64", true, |a, _| bits64(double(a).sqrt())),
    ("to_f32", true, |a, _| bits32(double(a) as f32)),
    ("floor32", false, |a, _| bits32(single(a).floor())),
    ("abs64", true, |a, _| bits64(double(a).abs())),
    ("is_finite32", false, |a, _| single(a).is_finite().into()),
    ("max32", false, |a, b| bits32(single(a).max(single(b)))),
    ("max64", true, |a, b| bits64(double(a).max(double(b)))),
    ("min32", false, |a, b| bits32(single(a).min(single(b)))),
    ("total_less32", false, |a, b| single(bits32(single(a))).total_cmp(&single(bits32(single(b)))).is_lt().into()),
    ("total_less64", true, |a, b| double(bits64(double(a))).total_cmp(&double(bits64(double(b)))).is_lt().into()),
];

fn single(a: u64) -> f32 {
    f32::from_bits(a as u32)
}

fn double(a: u64) -> f64 {
    f64::from_bits(a)
}

fn bits32(x: f32) -> u64 {
    if x.is_nan() { 0x7fc0_0000 } else { x.to_bits().into() }
}

fn bits64(x: f64) -> u64 {
    if x.is_nan() { 0x7ff8_0000_0000_0000 } else { x.to_bits() }
}

/// Each helper under its small letter: every special value, with a second one picked, then seeded inputs. Then some that are
/// altered, under the capital letter: in the answer's last bit, and one each in a separator and in the last digit, for which a byte
/// stands that is none, but has the same last four bits as it or, with 9 added, as a letter has. Nothing is stored of two zeros,
/// where the answer's sign is open.
fn store() -> Stored {
    const GOOD: usize = 100;
    const ALTERED: usize = 6;
    let mut stored = Stored::default();
    let mut random = Random::new(1);
    for (letter, (name, wide, answer)) in ('a'..).zip(STORED) {
        let specials: Vec<u64> = match wide {
            false => specials32().map(|x| x.to_bits().into()).into(),
            true => specials64().map(f64::to_bits).into(),
        };
        let seeded = |random: &mut Random| if wide { random.f64().to_bits() } else { random.f32().to_bits().into() };
        let is_zero = |a: u64| if wide { double(a) == 0.0 } else { single(a) == 0.0 };
        for k in 0..GOOD + ALTERED {
            let a = specials.get(k).copied().unwrap_or_else(|| seeded(&mut random));
            let b = loop {
                let b = if k < specials.len() { random.pick(&specials) } else { seeded(&mut random) };
                if !(is_zero(a) && is_zero(b)) {
                    break b;
                }
            };
            let altered = (k >= GOOD).then(|| k - GOOD);
            let letter = if altered.is_some() { letter.to_ascii_uppercase() } else { letter };
            let bit = u64::from(altered.is_some_and(|k| k > 1));
            let mut line = format!("{letter} {a:016x} {b:016x} {:016x}\n", answer(a, b) ^ bit).into_bytes();
            match altered {
                Some(0) => line[35] = b'_',
                Some(1) => line[51] -= if line[51] < b'a' { 16 } else { 32 },
                _ => {}
            }
            stored.stdin += str::from_utf8(&line).expect("bytes of ASCII");
        }
        stored.stdout += &format!("{name}: {GOOD} agree, 0 differ; altered: 0 agree, {ALTERED} differ\n");
    }
    stored.stdout += &format!("{} lines, 0 bytes over\n", stored.stdin.lines().count());
    stored
}

fn speed() {
    let mut random = Random::new(1);
    let doubles: Vec<f64> = repeat_with(|| random.below(1 << 32) as f64 / 3.0).take(4096).collect();
    let singles: Vec<f32> = doubles.iter().map(|&x| x as f32).collect();
    beside("sqrt32", None, &singles, |&x| vuzgari_compare_sqrt32(x), |&x| x.sqrt());
    beside("floor32", None, &singles, |&x| vuzgari_compare_floor32(x), |&x| x.floor());
    beside("sqrt64", None, &doubles, |&x| vuzgari_compare_sqrt64(x), |&x| x.sqrt());
    beside("to_f32", None, &doubles, |&x| vuzgari_compare_to_f32(x), |&x| x as f32);
}
