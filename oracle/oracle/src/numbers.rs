//! Floats as bits, and the roundings of the standard library that the original leans on.

/// The bits of a computed float. A NaN matches any NaN: every one is written as 0x7fc00000 (RULES 1.2).
pub fn bits(x: f32) -> u32 {
    if x.is_nan() {
        0x7fc0_0000
    } else {
        x.to_bits()
    }
}

/// What the operations that our side writes out must give for one float.
pub struct Rounded {
    pub magnitude: f32,
    pub finite: bool,
    /// `x.max(0.0)`: a threshold, or a centroid's weight.
    pub lifted: f32,
    /// `x as usize`.
    pub cut_off: u64,
    pub floor: i64,
    pub ceil: i64,
    /// `x.round()`: a half goes away from zero.
    pub round: i64,
}

/// The roundings of one float; those to i64 saturate, and a NaN gives 0.
pub fn rounded(x: f32) -> Rounded {
    Rounded {
        magnitude: x.abs(),
        finite: x.is_finite(),
        // `max` may keep a -0.0; no sum, comparison or product of the original can tell.
        lifted: if x > 0.0 { x } else { 0.0 },
        cut_off: x as u64,
        floor: x.floor() as i64,
        ceil: x.ceil() as i64,
        round: x.round() as i64,
    }
}

/// The next float away from zero.
pub fn next_away(x: f32) -> f32 {
    f32::from_bits(x.to_bits() + 1)
}

/// The next float toward zero.
pub fn next_toward(x: f32) -> f32 {
    f32::from_bits(x.to_bits() - 1)
}

#[cfg(test)]
mod tests {
    use super::*;

    #[test]
    fn every_nan_has_one_pattern() {
        for pattern in [0x7f80_0001, 0x7fff_ffff, 0xff80_0001, 0xffc0_0000u32] {
            assert_eq!(bits(f32::from_bits(pattern)), 0x7fc0_0000);
        }
        assert_eq!(bits(-0.0), 0x8000_0000);
    }

    #[test]
    fn halves_go_away_from_zero() {
        let round = |x: f32| rounded(x).round;
        assert_eq!([round(2.5), round(-2.5), round(0.499_999_97)], [3, -3, 0]);
    }
}
