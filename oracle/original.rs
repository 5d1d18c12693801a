//! The original, as `make.rs` writes it to `build/original`, its private items made public.

/// noise.rs as it stands.
#[path = "../build/original/noise.rs"]
pub mod noise;
/// noise.rs with the counters of [`counts`].
#[path = "../build/original/counted.rs"]
pub mod counted;
/// The grid's expressions out of `Sample::collect`.
#[path = "../build/original/grid.rs"]
pub mod grid;
/// uncertainty.rs as it stands.
#[path = "../build/original/uncertainty.rs"]
pub mod uncertainty;
/// uncertainty.rs with the eight largest squared gradients sorted before they are rooted and added.
#[path = "../build/original/sorted.rs"]
pub mod sorted;
#[path = "../build/original/imageview.rs"]
pub mod imageview;
/// `PositionCovariance` of refine/mod.rs.
#[path = "../build/original/refine.rs"]
pub mod refine;

pub mod counts;
