//! Demand 3 by numbers: the gate against surfaces of degree two and one more term, and under the window's symmetries.

use super::{random::Random, Run, Topic};
use std::{array::from_fn, iter::repeat_with};

pub const TOPIC: Topic = Topic { name: "misfit", gate: true, compare, store: None, speed: None };

unsafe extern "C" {
    fn vuzgari_compare_window_gate(img: *const u8, len: usize, w: usize, at: usize) -> i32;
}

type Window = [[u8; 4]; 4];
type Surface = [i128; 7];

/// The weights P0 to P3.
const P: [[i128; 4]; 4] = [[1, 1, 1, 1], [-3, -1, 1, 3], [1, -1, -1, 1], [1, -3, 3, -1]];

fn compare(run: &mut Run) {
    least(run);
    never_less(run);
    symmetries(run);
}

fn gate(window: &Window) -> i128 {
    let pixels = window.as_flattened();
    unsafe { vuzgari_compare_window_gate(pixels.as_ptr(), pixels.len(), 4, 0) }.into()
}

/// Component (i, j).
fn component(window: &Window, i: usize, j: usize) -> i128 {
    places().map(|(x, y)| i128::from(window[y][x]) * P[i][x] * P[j][y]).sum()
}

fn places() -> impl Iterator<Item = (usize, usize)> {
    (0..16).map(|k| (k % 4, k / 4))
}

/// The surface a + bx + cy + dxy + ex² + fy² + m P3(x) P3(y) at a place.
fn value([a, b, c, d, e, f, m]: Surface, x: usize, y: usize) -> i128 {
    let [p, q] = [x as i128, y as i128];
    a + b * p + c * q + d * p * q + e * p * p + f * q * q + m * P[3][x] * P[3][y]
}

/// The sum of the squares of D times the pixel less the surface.
fn squares(window: &Window, d: i128, surface: Surface) -> i128 {
    places().map(|(x, y)| (d * i128::from(window[y][x]) - value(surface, x, y)).pow(2)).sum()
}

/// The surface nearest to 400 times the pixels, from the seven components that the gate leaves out.
fn nearest(window: &Window) -> Surface {
    let c = |i, j| component(window, i, j);
    [
        25 * c(0, 0) - 15 * c(1, 0) - 15 * c(0, 1) + 9 * c(1, 1) + 25 * c(2, 0) + 25 * c(0, 2),
        10 * c(1, 0) - 6 * c(1, 1) - 75 * c(2, 0),
        10 * c(0, 1) - 6 * c(1, 1) - 75 * c(0, 2),
        4 * c(1, 1),
        25 * c(2, 0),
        25 * c(0, 2),
        c(3, 3),
    ]
}

fn any(random: &mut Random, most: u64) -> Window {
    from_fn(|_| from_fn(|_| random.below(most + 1) as u8))
}

/// 400 times the nearest surface's sum at D = 400 is D² times the gate.
fn least(run: &mut Run) {
    let mut random = run.random("least");
    let windows = repeat_with(|| any(&mut random, 255)).take(run.size(200_000) as usize);
    run.same("nearest surface", windows, |w| 160_000 * gate(w), |w| 400 * squares(w, 400, nearest(w)));
}

/// No surface at any D has less: those about the nearest one, and others.
fn never_less(run: &mut Run) {
    let mut random = run.random("never less");
    let calls = repeat_with(|| {
        let window = any(&mut random, 255);
        let d = 1 + i128::from(random.below(1_000));
        let spread = random.pick(&[1, 3, 100, 100_000]);
        let moved = |s| s * d / 400 + i128::from(random.below(2 * spread + 1)) - i128::from(spread);
        (window, d, nearest(&window).map(moved))
    });
    let holds = |&(window, d, surface): &(Window, i128, Surface)| 400 * squares(&window, d, surface) >= d * d * gate(&window);
    run.same("other surfaces", calls.take(run.size(200_000) as usize), holds, |_| true);
}

/// The same gate mirrored across and down, turned either way, negative, and with a surface added.
fn symmetries(run: &mut Run) {
    let mut random = run.random("symmetries");
    let calls = repeat_with(|| {
        let [a, b, c, d, e, f, m] = from_fn(|_| i128::from(random.below(5)));
        // P3(x) P3(y) is at least -9.
        (any(&mut random, 100), [a + 9 * m, b, c, d, e % 2, f % 2, m])
    });
    let changed = |&(window, surface): &(Window, Surface)| {
        let made = |at: &dyn Fn(usize, usize) -> u8| gate(&from_fn(|y| from_fn(|x| at(x, y))));
        [
            made(&|x, y| window[y][3 - x]),
            made(&|x, y| window[3 - y][x]),
            made(&|x, y| window[3 - x][y]),
            made(&|x, y| window[x][3 - y]),
            made(&|x, y| 255 - window[y][x]),
            made(&|x, y| window[y][x] + value(surface, x, y) as u8),
        ]
    };
    run.same("symmetries", calls.take(run.size(200_000) as usize), changed, |(window, _)| [gate(window); 6]);
}
