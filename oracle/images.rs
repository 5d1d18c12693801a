//! Seeded images of many kinds and shapes.

use crate::{random::Random, value::Value};
use std::{cell::RefCell, rc::Rc};

/// An image by what makes it: the same sides, from 4 on, kind and seed give the same pixels.
#[derive(Clone, Debug, PartialEq)]
pub struct Image {
    pub w: usize,
    pub h: usize,
    pub kind: u64,
    pub seed: u64,
}

thread_local!(static LAST: RefCell<Option<(Image, Rc<Vec<u8>>)>> = const { RefCell::new(None) });

/// How many kinds there are.
pub const KINDS: u64 = 9;

impl Image {
    /// Of any kind, with sides from 4 on: about the sizes at which a pass keeps 512 windows or its step grows, small, thin and
    /// long, or some hundreds either way.
    pub fn any(random: &mut Random) -> Self {
        let mut side = |least: u64, most: u64| (least + random.below(most - least + 1)) as usize;
        let (w, h) = match side(0, 7) {
            0 => (side(24, 28), side(24, 28)),
            1 => (side(88, 93), side(88, 93)),
            2 => (side(4, 12), side(60, 2_000)),
            3 => (side(60, 2_000), side(4, 12)),
            4 => (side(180, 700), side(180, 500)),
            _ => (side(4, 90), side(4, 90)),
        };
        Self::sized(random, w, h)
    }

    /// Of any kind.
    pub fn sized(random: &mut Random, w: usize, h: usize) -> Self {
        Image { w, h, kind: random.below(KINDS), seed: random.bits() }
    }

    /// Painted once for all calls that ask for the same image one after the other.
    pub fn pixels(&self) -> Rc<Vec<u8>> {
        LAST.with_borrow_mut(|last| match last {
            Some((image, pixels)) if image == self => pixels.clone(),
            _ => {
                *last = None;
                let pixels = Rc::new(self.paint());
                *last = Some((self.clone(), pixels.clone()));
                pixels
            }
        })
    }

    fn paint(&self) -> Vec<u8> {
        let mut random = Random::new(self.seed);
        let (low, high) = (random.below(256) as i32, random.below(256) as i32);
        let cell = 1 + random.below(12) as usize;
        let noise = random.pick(&[0, 0, 1, 2, 5, 20]);
        let part = random.below(self.w as u64 + 1) as usize;
        let slope = [random.below(5) as i32 - 2, random.below(5) as i32 - 2];
        let other = |place: usize| if place / cell % 2 == 0 { low } else { high };
        let mut pixels = Vec::with_capacity(self.w * self.h);
        for y in 0..self.h {
            for x in 0..self.w {
                let plain = match self.kind {
                    0 => low,
                    1 => other(x),
                    2 => other(y),
                    3 => other(x / cell * cell + y / cell * cell),
                    4 => if x < part { low } else { other(x) },
                    5 => low + (slope[0] * x as i32 + slope[1] * y as i32) / cell as i32,
                    6 => random.below(256) as i32,
                    7 => random.pick(&[0, 255]),
                    _ => if random.below(64) == 0 { high } else { low },
                };
                // The sum of four even draws has about the shape of sensor noise.
                let drawn: i32 = (0..4).map(|_| random.below(2 * noise + 1) as i32 - noise as i32).sum();
                pixels.push((plain + drawn / 2).clamp(0, 255) as u8);
            }
        }
        pixels
    }
}

impl Value for Image {
    fn same(&self, other: &Self) -> bool {
        self == other
    }
    fn shown(&self) -> String {
        format!("{self:?}")
    }
    fn smaller(&self) -> Vec<Self> {
        let halves = [Image { w: self.w / 2, ..self.clone() }, Image { h: self.h / 2, ..self.clone() }];
        halves.into_iter().filter(|half| half.w >= 4 && half.h >= 4).collect()
    }
}
