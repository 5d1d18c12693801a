//! The topics: a file each, named here. What a topic calls that is not among the library's C calls, a module of crates/compare
//! exports for it.

use crate::{images, images::Image, random, speed::beside, value::{Count, Value}, Run, Stored, Topic};

mod calls;
mod edge;
mod floats;
mod grid;
mod gradients;
mod known;
mod lids;
mod milli;
mod misfit;
mod model;
mod noise;
mod patterns;
mod pgm;
mod records;
mod rounds;
mod sample;
mod stored;
mod twins;
mod window;

/// Whose calls make the table of times.
pub const TIMED: &[Topic] = &[noise::TOPIC, edge::TOPIC, gradients::TOPIC, model::TOPIC];

pub const ALL: &[Topic] = &[
    known::TOPIC,
    floats::TOPIC,
    window::TOPIC,
    misfit::TOPIC,
    grid::TOPIC,
    sample::TOPIC,
    rounds::TOPIC,
    milli::TOPIC,
    noise::TOPIC,
    gradients::TOPIC,
    model::TOPIC,
    edge::TOPIC,
    lids::TOPIC,
    twins::TOPIC,
    records::TOPIC,
    pgm::TOPIC,
    noise::LARGE,
    lids::LARGE,
    patterns::TOPIC,
];
