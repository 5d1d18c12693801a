//! Seeded inputs.

/// SplitMix64.
pub struct Random(u64);

impl Random {
    pub fn new(seed: u64) -> Self {
        Random(seed)
    }

    pub fn bits(&mut self) -> u64 {
        self.0 = self.0.wrapping_add(0x9e37_79b9_7f4a_7c15);
        let z = (self.0 ^ (self.0 >> 30)).wrapping_mul(0xbf58_476d_1ce4_e5b9);
        let z = (z ^ (z >> 27)).wrapping_mul(0x94d0_49bb_1331_11eb);
        z ^ (z >> 31)
    }

    /// A number below `n`.
    pub fn below(&mut self, n: u64) -> u64 {
        ((u128::from(self.bits()) * u128::from(n)) >> 64) as u64
    }

    pub fn pick<T: Copy>(&mut self, from: &[T]) -> T {
        from[self.below(from.len() as u64) as usize]
    }

    /// Any pattern; a step or two from a special value; a whole number; the square of a short number, or next to it.
    pub fn f32(&mut self) -> f32 {
        let step = self.below(5) as u32;
        let near = |x: f32| f32::from_bits(x.to_bits().wrapping_add(step).wrapping_sub(2));
        match self.below(8) {
            0 => near(self.pick(&specials32())),
            1 => (self.bits() as i32 >> self.below(32)) as f32,
            2 => near(((self.bits() as u32 >> self.below(32)) as f32).powi(2)),
            _ => f32::from_bits(self.bits() as u32),
        }
    }

    /// As [`Self::f32`]; besides, an f32, the middle of two neighbouring f32s, or next to either.
    pub fn f64(&mut self) -> f64 {
        let step = self.below(5);
        let near = |x: f64| f64::from_bits(x.to_bits().wrapping_add(step).wrapping_sub(2));
        match self.below(8) {
            0 => near(self.pick(&specials64())),
            1 => (self.bits() as i64 >> self.below(64)) as f64,
            2 => near(((self.bits() >> self.below(64)) as u32 as f64).powi(2)),
            3 => near(f64::from(self.f32())),
            4 => {
                let low = self.f32();
                near((f64::from(low) + f64::from(f32::from_bits(low.to_bits().wrapping_add(1)))) / 2.0)
            }
            _ => f64::from_bits(self.bits()),
        }
    }
}

/// Both signs of zero, the least and largest subnormal, the least and largest number, one and its neighbours, halves, whole
/// numbers where the format's steps become 1 and 2, infinity, and NaNs, quiet and signalling.
pub fn specials32() -> [f32; 40] {
    let sizes: [u32; 20] = [
        0, 1, 2, 0x7f_fffe, 0x7f_ffff, 0x80_0000, 0x80_0001, 0x3eff_ffff, 0x3f00_0000, 0x3f7f_ffff, 0x3f80_0000, 0x3f80_0001,
        0x3fc0_0000, 0x4aff_ffff, 0x4b00_0000, 0x4b80_0000, 0x7f7f_ffff, 0x7f80_0000, 0x7fc0_0000, 0x7f80_0001,
    ];
    std::array::from_fn(|k| f32::from_bits(sizes[k / 2] | (k as u32 % 2) << 31))
}

/// The same of f64, with the bounds of f32 among them: where rounding to f32 gives a zero, a subnormal, or infinity.
pub fn specials64() -> [f64; 60] {
    let sizes: [u64; 30] = [
        0, 1, 2, 0xf_ffff_ffff_fffe, 0xf_ffff_ffff_ffff, 0x10_0000_0000_0000, 0x10_0000_0000_0001, 0x3fdf_ffff_ffff_ffff,
        0x3fe0_0000_0000_0000, 0x3fef_ffff_ffff_ffff, 0x3ff0_0000_0000_0000, 0x3ff0_0000_0000_0001, 0x3ff8_0000_0000_0000,
        0x432f_ffff_ffff_ffff, 0x4330_0000_0000_0000, 0x4340_0000_0000_0000, 0x7fef_ffff_ffff_ffff, 0x7ff0_0000_0000_0000,
        0x7ff8_0000_0000_0000, 0x7ff0_0000_0000_0001,
        0x3690_0000_0000_0000, 0x3690_0000_0000_0001, 0x36a0_0000_0000_0000, 0x36a8_0000_0000_0000, 0x380f_ffff_e000_0000,
        0x380f_ffff_f000_0000, 0x3810_0000_0000_0000, 0x47ef_ffff_e000_0000, 0x47ef_ffff_efff_ffff, 0x47ef_ffff_f000_0000,
    ];
    std::array::from_fn(|k| f64::from_bits(sizes[k / 2] | (k as u64 % 2) << 63))
}
