//! oracle/twins.txt: inputs on which a float expression and a likely wrong form of it answer differently. Ours and the original's
//! answers, or the reading's of request A.3, are both held to the one that the list has.

use super::{edge, gradients, milli, model, noise, rounds, stored::Lines, Count, Run, Stored, Topic, Value};
use std::{array, rc::Rc};

pub const TOPIC: Topic = Topic { name: "twins", gate: true, compare, store: Some(store), speed: None };

const LIST: &str = include_str!("../twins.txt");
const KINDS: [&str; 10] = ["image", "milli", "thousandths", "cells", "windows", "edge", "gram", "knots", "model", "total"];

/// A line of the list.
#[derive(Clone)]
pub struct Twin {
    pub line: &'static str,
    pub input: Input,
    right: Vec<u32>,
}

#[derive(Clone)]
pub enum Input {
    Image(Image),
    /// Sigma and thousandths of an image.
    Milli(Image),
    /// A pattern.
    Thousandths(u32),
    Cells([usize; 2], Vec<u8>),
    Windows(rounds::Sample),
    Edge(edge::Call),
    Gram(gradients::Steps),
    Knots(model::Place),
    Model(model::Estimate),
    Total(model::Level),
}

#[derive(Clone)]
pub struct Image {
    sides: [usize; 2],
    seed: u32,
    slope: u32,
    /// Level and amplitude of each quarter of the width.
    levels: [[u32; 2]; 4],
    /// Single pixels: column, row, value.
    spots: Vec<[usize; 3]>,
}

impl Image {
    fn pixels(&self) -> Vec<u8> {
        let [w, h] = self.sides;
        let mut state = self.seed;
        let mut pixels: Vec<u8> = (0..w * h)
            .map(|k| {
                state = state.wrapping_mul(1_664_525).wrapping_add(1_013_904_223);
                let [level, amplitude] = self.levels[4 * (k % w) / w];
                (level + self.slope * (k % w) as u32 + ((state >> 24) * amplitude >> 8)).min(255) as u8
            })
            .collect();
        self.spots.iter().for_each(|&[x, y, v]| pixels[y * w + x] = v as u8);
        pixels
    }
}

/// The twins of a kind.
pub fn twins(kind: &str) -> impl Iterator<Item = Twin> + '_ {
    let lines = LIST.lines().filter(|line| !line.is_empty() && !line.starts_with('#'));
    lines.filter(move |line| line.split(' ').next() == Some(kind)).map(Twin::read)
}

fn number<T: std::str::FromStr>(text: &str) -> T {
    text.parse().unwrap_or_else(|_| panic!("twins.txt: {text} is no number"))
}

fn numbers<T: std::str::FromStr, const N: usize>(text: &str) -> [T; N] {
    let all: Vec<T> = text.split(',').map(number).collect();
    all.try_into().unwrap_or_else(|_| panic!("twins.txt: {text} has not {N} numbers"))
}

impl Twin {
    fn read(line: &'static str) -> Self {
        let (call, answer) = line.split_once(" is ").expect(line);
        let words: Vec<&str> = call.split(' ').collect();
        // SIGMA, WIDTH, GAIN and covariances are hexadecimal; the other numbers of an answer are decimal.
        let decimal = |k: usize| matches!((words[0], k), ("image" | "cells" | "windows", 0 | 2) | ("milli", 1) | ("thousandths", 0));
        let answers = answer.split(' ').enumerate();
        let right = answers.map(|(k, word)| if decimal(k) { number(word) } else { u32::from_str_radix(word, 16).expect(line) }).collect();
        let after = |name: &str| words[words.iter().position(|&word| word == name).expect(line) + 1];
        let sides = || [number(words[1]), number(words[2])];
        let input = match words[0] {
            "image" => Input::Image(image(&words)),
            "milli" => Input::Milli(image(&words)),
            "thousandths" => Input::Thousandths(u32::from_str_radix(words[1], 16).expect(line)),
            "cells" => Input::Cells(sides(), cells(sides(), &words[3..])),
            "windows" => Input::Windows(sample(&words[1..])),
            "edge" => Input::Edge(edge::Call {
                pixels: Rc::new(after("pixels").split(',').map(number).collect()),
                sides: sides(),
                origin: [0; 2],
                centre: numbers(after("centre")),
            }),
            "gram" => {
                let side: usize = number(words[1]);
                let cells = words[2..].iter().enumerate();
                Input::Gram(([0; 2], Count(side), cells.map(|(k, g)| ([(k % side) as i32, (k / side) as i32], numbers(g))).collect()))
            }
            "knots" => {
                let knots: Vec<[f32; 2]> = words[1..].iter().take_while(|&&word| word != "width").map(|knot| numbers(knot)).collect();
                let column = |part: usize| array::from_fn(|k| knots.get(k).map_or(0.0, |knot| knot[part]));
                let table = model::Knots { widths: column(0), gains: column(1), residuals: column(1), count: knots.len(), floor: 0.0 };
                Input::Knots((table, Some(number(after("width")))))
            }
            "model" => {
                let [gain, residual, floor, grid] = ["gain", "residual", "floor", "grid"].map(|name| number(after(name)));
                let table = model::Knots { widths: [1.0; 16], gains: [gain; 16], residuals: [residual; 16], count: 1, floor };
                Input::Model((table, [0.0; 3], numbers(after("offset")), None, grid))
            }
            "total" => Input::Total((
                numbers(after("noise")),
                [number(after("systematic")); 3],
                numbers(after("growth")),
                number(after("sigma")),
            )),
            _ => panic!("twins.txt: {line}"),
        };
        Twin { line, input, right }
    }

    /// Ours and the original's or the reading's.
    fn answers(&self) -> Vec<Vec<u32>> {
        let both = |ours: Vec<u32>, theirs: Vec<u32>| vec![ours, theirs];
        let noise = |[w, h]: [usize; 2], pixels: &[u8], fields: &[usize]| {
            let lent = noise::Lent::needed(w, h);
            [noise::ours(pixels, w, h, lent), noise::theirs(pixels, w, h, lent)]
                .map(|(_, words, wrong)| fields.iter().filter(|_| wrong.is_empty()).map(|&k| words[k]).collect())
                .into()
        };
        let figures = |(number, floats): (u32, Vec<f32>)| match number {
            0 => floats.iter().map(|x| x.to_bits()).collect(),
            _ => vec![number],
        };
        match &self.input {
            Input::Image(image) => noise(image.sides, &image.pixels(), &[0, 1, 8]),
            Input::Milli(image) => noise(image.sides, &image.pixels(), &[1, 2]),
            Input::Thousandths(pattern) => both(vec![milli::vuzgari_compare_milli(f32::from_bits(*pattern))], vec![milli::nearest(*pattern)]),
            Input::Cells(sides, pixels) => noise(*sides, pixels, &[0, 1, 8]),
            Input::Windows(sample) => {
                let [ours, theirs] = [sample.our_sigma(), sample.their_sigma()].map(|(n, sigma, rounds)| vec![n, sigma.to_bits(), rounds as u32]);
                both(ours, theirs)
            }
            Input::Edge(call) => both(vec![call.ours() as u32], vec![call.theirs().0 as u32]),
            Input::Gram(steps) => [gradients::our_sums(steps), gradients::their_sums(steps)].map(|(n, c)| figures((n, c.into()))).into(),
            Input::Knots(place) => [model::ours_at(place), model::their_at(place)]
                .map(|(n, [gain, residual])| figures((n, if gain.same(&residual) { vec![gain] } else { vec![gain, residual] })))
                .into(),
            Input::Model(estimate) => {
                [model::ours_model(estimate), model::their_model(estimate)].map(|(n, m)| figures((n, m[3..6].into()))).into()
            }
            Input::Total(level) => [model::ours_total(level), model::their_total(level)].map(|(n, c)| figures((n, c.into()))).into(),
        }
    }
}

fn image(words: &[&str]) -> Image {
    let levels: Vec<[u32; 2]> = words[8..].iter().filter(|word| word.contains(':')).map(|word| numbers(&word.replace(':', ","))).collect();
    let spots = words[8..].iter().filter(|word| word.contains('=')).map(|word| numbers(&word.replace('=', ","))).collect();
    Image {
        sides: [number(words[1]), number(words[2])],
        seed: number(words[4]),
        slope: number(words[6]),
        levels: array::from_fn(|k| levels[k % levels.len()]),
        spots,
    }
}

/// N of what stands after it.
fn times(word: &str) -> (usize, &str) {
    let (n, rest) = word.split_once('x').expect(word);
    (number(n), rest)
}

/// The windows of the first pass, in sampling order, are filled with the cells; the rest is zero.
fn cells([w, h]: [usize; 2], words: &[&str]) -> Vec<u8> {
    let filled = words.iter().flat_map(|word| {
        let (n, cell) = times(word);
        let (digits, level) = cell.trim_start_matches('[').split_once("]+").expect(word);
        let pixels: Vec<u8> = digits.chars().map(|c| c.to_digit(16).expect(word) as u8 + number::<u8>(level)).collect();
        std::iter::repeat_n(pixels, n)
    });
    let step = original::grid::step(w, h, original::noise::WINDOWS);
    let places = (0..(h - 3).div_ceil(step)).flat_map(|j| {
        let (first, count) = original::grid::grid_row(w, step, j);
        (0..count).map(move |k| (first + k * step, j * step))
    });
    let mut pixels = vec![0; w * h];
    for ((x, y), cell) in places.zip(filled) {
        cell.chunks(4).enumerate().for_each(|(row, four)| pixels[(y + row) * w + x..][..4].copy_from_slice(four));
    }
    pixels
}

/// Gates and squared outputs, rounded once each.
fn sample(words: &[&str]) -> rounds::Sample {
    let mut bands: [rounds::Windows; 4] = Default::default();
    let mut band = 0;
    for word in words {
        if *word == "/" {
            band += 1;
            continue;
        }
        let (n, window) = times(word);
        let [gate, output]: [i32; 2] = numbers(window.trim_matches(['(', ')']));
        let square = output as f32 * output as f32;
        bands[band].gate.extend(std::iter::repeat_n(gate as f32, n));
        bands[band].op.extend(std::iter::repeat_n(square, n));
    }
    rounds::Sample::new(&bands)
}

impl Value for Twin {
    fn same(&self, _: &Self) -> bool {
        unreachable!("twins are an input")
    }
    fn shown(&self) -> String {
        self.line.to_string()
    }
}

fn compare(run: &mut Run) {
    for kind in KINDS {
        run.same(kind, run.once(twins(kind)), Twin::answers, |twin| vec![twin.right.clone(); 2]);
    }
}

/// Images, patterns, windows and edges, as the program `stored_twins` reads them; the others are in the lists of `gradients` and
/// `model`.
fn store() -> Stored {
    let mut lines = Lines::new(4);
    for kind in ["image", "milli", "thousandths", "windows", "edge"] {
        for twin in twins(kind) {
            match &twin.input {
                Input::Image(image) | Input::Milli(image) => {
                    let [w, h] = image.sides;
                    lines.put('i', &[w as u64, h as u64]);
                    image.levels.iter().enumerate().for_each(|(k, [b, a])| lines.put('l', &[k as u64, u64::from(*b), u64::from(*a)]));
                    lines.put('f', &[image.seed.into(), image.slope.into()]);
                    image.spots.iter().for_each(|spot| lines.put('p', &spot.map(|n| n as u64)));
                    let (number, words, _) = noise::theirs(&image.pixels(), w, h, noise::Lent::needed(w, h));
                    let bytes: String = words.iter().flat_map(|word| word.to_le_bytes()).map(|byte| format!("{byte:02x}")).collect();
                    lines.call('n', &[], &format!("noise {number} {bytes}"));
                }
                Input::Thousandths(pattern) => lines.call('m', &[(*pattern).into()], &format!("milli {}", milli::nearest(*pattern))),
                Input::Windows(sample) => {
                    lines.put('b', &[]);
                    for (band, rounds::Windows { gate, op }) in sample.bands().iter().enumerate() {
                        let mut from = 0;
                        while from < gate.len() {
                            let alike = (from..gate.len()).take_while(|&k| (gate[k], op[k]) == (gate[from], op[from])).count();
                            lines.put('w', &[band as u64, alike as u64, gate[from].to_bits().into(), op[from].to_bits().into()]);
                            from += alike;
                        }
                    }
                    let (number, sigma, rounds) = sample.their_sigma();
                    lines.call('r', &[], &format!("windows {number} {:08x} {rounds}", sigma.to_bits()));
                }
                Input::Edge(call) => {
                    let [w, h] = call.sides;
                    lines.put('i', &[w as u64, h as u64]);
                    for (k, &pixel) in call.pixels.iter().enumerate() {
                        lines.put('p', &[(k % w) as u64, (k / w) as u64, pixel.into()]);
                    }
                    lines.call('e', &call.centre.map(super::stored::signed), &format!("edge {:08x}", call.theirs().0));
                }
                _ => unreachable!(),
            }
        }
    }
    lines.stored()
}
