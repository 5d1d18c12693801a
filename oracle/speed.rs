//! Times of calls, ours and the original's in one process, as lines of a table.

use std::{hint::black_box, time::Instant};

/// Turns of each side.
const TURNS: usize = 401;
/// Least nanoseconds of a turn: long beside the clock's own time, short beside a time slice of the machine.
const TURN: f64 = 50e3;

pub fn heading() {
    println!("| Call | Ours | Original's | Ratio of medians | Ratio of minima | Mark |");
    println!("|---|---|---|---|---|---|");
}

/// A line of the table. In a turn all inputs are run one after the other; ours and the original's take turns, each going first
/// as often as the other. `mark` is the ratio of medians that is aimed at, if any.
pub fn beside<A, R>(what: &str, mark: Option<f64>, inputs: &[A], ours: impl Fn(&A) -> R, theirs: impl Fn(&A) -> R) {
    let sides: [&dyn Fn() -> f64; 2] = [&timed(inputs, ours), &timed(inputs, theirs)];
    let mut turns = [vec![], vec![]];
    for turn in 0..2 * TURNS {
        let side = (turn + turn / 2) % 2;
        turns[side].push(sides[side]());
    }
    let [ours, theirs] = turns.map(|mut times| {
        times.sort_by(f64::total_cmp);
        (times[0], times[TURNS / 2])
    });
    let (medians, minima) = (ours.1 / theirs.1, ours.0 / theirs.0);
    let mark = mark.map_or("none".to_string(), |mark| format!("{mark:.2}{}", if medians > mark { ", missed" } else { "" }));
    println!("| {what} | {} | {} | {medians:.2} | {minima:.2} | {mark} |", shown(ours.1), shown(theirs.1));
}

/// Nanoseconds of a call, over one turn.
fn timed<'a, A, R>(inputs: &'a [A], call: impl Fn(&A) -> R + 'a) -> impl Fn() -> f64 + 'a {
    let run = move |repeats: usize| {
        let began = Instant::now();
        for _ in 0..repeats {
            for input in inputs {
                black_box(call(black_box(input)));
            }
        }
        began.elapsed().as_secs_f64() * 1e9
    };
    run(1);
    let repeats = (TURN / run(1)).ceil() as usize;
    move || run(repeats) / (repeats * inputs.len()) as f64
}

fn shown(ns: f64) -> String {
    if ns < 1e3 { format!("{ns:.1} ns") } else { format!("{:.2} µs", ns / 1e3) }
}
