//! The float helpers of one f32, and milli, on every pattern. Too long for the gate.

use super::{floats::*, milli::{nearest, vuzgari_compare_milli}, Run, Topic, Value};

pub const TOPIC: Topic = Topic { name: "patterns", gate: false, compare, store: None, speed: None };

fn compare(run: &mut Run) {
    every(run, "sqrt32", vuzgari_compare_sqrt32, f32::sqrt);
    every(run, "floor32", vuzgari_compare_floor32, f32::floor);
    every(run, "is_finite32", vuzgari_compare_is_finite32, f32::is_finite);
    every(run, "milli", vuzgari_compare_milli, |x| nearest(x.to_bits()));
}

fn every<R: Value>(run: &mut Run, what: &str, ours: extern "C" fn(f32) -> R, theirs: fn(f32) -> R) {
    run.same(what, run.once(0..=u32::MAX).map(f32::from_bits), |&x| ours(x), |&x| theirs(x));
}
