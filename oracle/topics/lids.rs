//! The stored answers of tests/images, to which lids, lidnoise and the guard test are held, beside the original's. The
//! images are made here once more, as tests/images/image.h says.

use super::{edge, noise, Run, Topic};
use std::{fs, rc::Rc};

pub const TOPIC: Topic = Topic { name: "lids", gate: true, compare, store: None, speed: None };
/// A list that takes too long for the gate.
pub const LARGE: Topic = Topic { name: "large_lids", gate: false, compare: large, store: None, speed: None };

/// A line of a list.
#[derive(Clone)]
struct Image {
    sides: [usize; 2],
    part: usize,
    level: u32,
    columns: [u32; 2],
    noise: u32,
    more: i64,
    stored: String,
}

fn list(name: &str) -> Vec<Image> {
    let path = format!("tests/images/{name}.txt");
    let text = fs::read_to_string(&path).unwrap_or_else(|e| panic!("{path}: {e}"));
    text.lines().filter(|line| !line.starts_with('#')).map(Image::read).collect()
}

impl Image {
    fn read(line: &str) -> Self {
        let words: Vec<&str> = line.split_whitespace().collect();
        let number = |k: usize| words[k].parse::<i64>().expect(line);
        let level = |k: usize| number(k) as u32;
        Image {
            sides: [number(1) as usize, number(2) as usize],
            part: number(3) as usize,
            level: level(4),
            columns: [level(5), level(6)],
            noise: level(7),
            more: number(8),
            stored: words[9..].join(" "),
        }
    }

    fn pixels(&self) -> Vec<u8> {
        let count = (self.sides[0] * self.sides[1]) as i64 + self.more;
        let mut state = 1_u32;
        let pixel = |k: usize| {
            state = state.wrapping_mul(1_664_525).wrapping_add(1_013_904_223);
            let x = k.checked_rem(self.sides[0]).unwrap_or(0);
            let plain = if x < self.part { self.level } else { self.columns[x % 2] };
            (plain + (state >> 16) % (self.noise + 1)).min(255) as u8
        };
        (0..count.max(0) as usize).map(pixel).collect()
    }

    /// The line of a lid by document 01's order for programs, without number 16.
    fn line(&self) -> String {
        let [w, h] = self.sides;
        noise::shown(&if self.more != 0 { noise::refused(15) } else { noise::answered(&self.pixels(), w, h) })
    }

    /// Origin and centre as they are stored, then the number and the width's bits.
    fn edge(&self) -> String {
        let places: Vec<i32> = self.stored.split(' ').take(4).map(|word| word.parse().expect(&self.stored)).collect();
        let [ox, oy, cx, cy] = places[..] else { panic!("four numbers: {}", self.stored) };
        let call = edge::Call { pixels: Rc::new(self.pixels()), sides: self.sides, origin: [ox, oy], centre: [cx, cy] };
        let answer = call.theirs().0;
        let (number, bits) = if answer >> 32 == 0 { (0, answer as u32) } else { (answer as u32, 0) };
        format!("{ox} {oy} {cx} {cy} {number} {bits:08X}")
    }
}

fn compare(run: &mut Run) {
    stored(run, "lids", Image::line);
    stored(run, "edges", Image::edge);
}

fn large(run: &mut Run) {
    stored(run, "large", Image::line);
}

/// Holds each stored answer of a list to the original's.
fn stored(run: &mut Run, name: &str, theirs: fn(&Image) -> String) {
    let images = list(name);
    run.same(name, 0..images.len(), |&k| images[k].stored.clone(), |&k| theirs(&images[k]));
}
