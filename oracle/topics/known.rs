//! The oracle itself: document 01's lids and grids with known readings, asked of the original with its counters; and on seeded
//! images the changed copies beside those that are as they were.

use super::{Image, Run, Topic};
use original::{counted, counts, grid, imageview::ImageView, noise, sorted, uncertainty};
use std::iter::repeat_with;

pub const TOPIC: Topic = Topic { name: "known", gate: true, compare, store: None, speed: None };

/// Sides, the pixel of a column, and the line that document 01 has, without milli.
const LIDS: [(usize, usize, fn(usize) -> u8, &str); 5] = [
    (26, 26, |_| 128, "0 00000000 0 0 529 0 0 2 1"),
    (26, 26, stripes, "6 00000000 0 529 0 0 0 2 1"),
    (26, 26, |x| if x < 14 { 128 } else { stripes(x) }, "7 00000000 0 276 253 0 0 3 1"),
    (25, 25, |_| 128, "5 00000000 0 0 484 0 0 0 1"),
    (26, 26, |_| 11, "5 00000000 0 0 0 0 529 0 1"),
];

fn stripes(x: usize) -> u8 {
    [100, 150][x % 2]
}

/// Sides and windows of a pass, its step and its T.
const GRIDS: [(usize, usize, usize, usize, usize); 2] = [(16_056, 25, 8_192, 7, 9_174), (15_887, 132, 32_768, 8, 33_754)];

fn compare(run: &mut Run) {
    run.same("lids", run.once(0..LIDS.len()), |&k| LIDS[k].3.to_string(), |&k| line(LIDS[k].0, LIDS[k].1, LIDS[k].2));
    run.same("grids", run.once(0..GRIDS.len()), |&k| (GRIDS[k].3, GRIDS[k].4), |&k| {
        let (w, h, windows, ..) = GRIDS[k];
        let step = grid::step(w, h, windows);
        (step, grid::total(w, h, step))
    });
    counters(run);
    widths(run);
}

/// The line that `lidnoise` prints, without milli.
fn line(w: usize, h: usize, column: fn(usize) -> u8) -> String {
    let pixels: Vec<u8> = (0..w * h).map(|k| column(k % w)).collect();
    let (sigma, counts) = counts::counted(|| counted::estimate_noise_sigma_u8(&pixels, w, h));
    let [b0, b1, b2, b3] = counts.bands;
    let sigma = sigma.unwrap_or(0.0).to_bits();
    format!("{} {sigma:08X} {b0} {b1} {b2} {b3} {} {} {}", counts.reason, counts.rail, counts.rounds, counts.passes)
}

/// Counting changes no figure, a reason stands where there is none, and bands and rail add up to the last pass's T.
fn counters(run: &mut Run) {
    let mut random = run.random("counters");
    let mut reasons = [0; 8];
    let images = repeat_with(|| Image::any(&mut random)).take(run.size(1_000) as usize);
    let counted = |image: &Image| {
        let pixels = image.pixels();
        let (sigma, counts) = counts::counted(|| counted::estimate_noise_sigma_u8(&pixels, image.w, image.h));
        reasons[counts.reason as usize] += 1;
        (sigma, counts.reason == 0, counts.bands.iter().sum::<usize>() + counts.rail)
    };
    let plain = |image: &Image| {
        let sigma = noise::estimate_noise_sigma_u8(&image.pixels(), image.w, image.h);
        let first = grid::step(image.w, image.h, noise::WINDOWS);
        let (sample, _) = noise::Sample::collect(&image.pixels(), image.w, image.h, noise::WINDOWS);
        let once = first == 1 || noise::noise_sigma(&sample).is_some();
        let step = if once { first } else { grid::step(image.w, image.h, 4 * noise::WINDOWS) };
        (sigma, sigma.is_some(), grid::total(image.w, image.h, step))
    };
    run.same("counters", images, counted, plain);
    for number in [0, 5, 6, 7] {
        run.count(&format!("counters, answer {number}"), reasons[number]);
    }
}

/// Sorting the eight largest squared gradients moves a width by at most 18 units in the last place: seven sums, a product and a
/// quotient round on either side.
fn widths(run: &mut Run) {
    let mut random = run.random("widths");
    let mut moved = 0;
    let calls = repeat_with(|| {
        let image = Image::any(&mut random);
        let centre = [image.w, image.h].map(|side| random.below(side as u64 + 20) as i32 - 10);
        (image, centre)
    });
    let calls = calls.take(run.size(4_000) as usize);
    let near = |(image, centre): &(Image, [i32; 2])| {
        let pixels = image.pixels();
        let view = ImageView::from_u8_slice(image.w, image.h, &pixels).unwrap();
        let plain = uncertainty::edge_width(&view, *centre, &mut Default::default());
        let sorted = sorted::edge_width(&view, *centre, &mut Default::default());
        let [plain, sorted] = [plain, sorted].map(|width| width.map_or(i64::MIN, |width| width.to_bits().into()));
        moved += u64::from(plain != sorted);
        plain.abs_diff(sorted) <= 18
    };
    run.same("widths", calls, near, |_| true);
    run.count("widths that sorting moves", moved);
}
