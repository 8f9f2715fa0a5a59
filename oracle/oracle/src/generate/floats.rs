//! Floats that are seldom met: thresholds, merge radii, cells and coordinates at their limits.
use super::Rng;
use crate::numbers::{next_away, next_toward};

/// Any 32 bits: mostly large or tiny, at times a NaN or an infinity.
pub fn any_bits(rng: &mut Rng) -> f32 {
    f32::from_bits(rng.word() as u32)
}

/// One of the NaN patterns: quiet and signalling, of both signs.
pub fn nan(rng: &mut Rng) -> f32 {
    f32::from_bits(rng.pick(&[0x7fc0_0000, 0xffc0_0000, 0x7f80_0001, 0xff80_0001, 0x7fff_ffff]))
}

/// NaN, infinities, zeros, subnormals and the ends of the range.
pub fn odd(rng: &mut Rng) -> f32 {
    match rng.below(12) {
        0 => nan(rng),
        1 => f32::INFINITY,
        2 => f32::NEG_INFINITY,
        3 => -0.0,
        4 => f32::from_bits(1),
        5 => -f32::from_bits(1),
        6 => f32::MIN_POSITIVE,
        7 => next_toward(f32::MIN_POSITIVE),
        8 => f32::MAX,
        9 => -f32::MAX,
        10 => -1.0 - rng.below(100) as f32,
        _ => any_bits(rng),
    }
}

/// A threshold that leaves something to be found: most are 0, small, or of a kind that counts as 0.
pub fn threshold(rng: &mut Rng) -> f32 {
    match rng.below(16) {
        0 => nan(rng),
        1 => rng.pick(&[f32::NEG_INFINITY, -0.0, -1.0, -f32::from_bits(1), f32::MIN]),
        2 => rng.pick(&[f32::from_bits(1), f32::MIN_POSITIVE, next_toward(f32::MIN_POSITIVE)]),
        3 => (rng.unit() * 60.0) as f32,
        4..=6 => rng.below(40) as f32,
        _ => 0.0,
    }
}

/// A float above 0, or one of the two next to it.
pub fn beside(rng: &mut Rng, x: f32) -> f32 {
    f32::from_bits(x.to_bits() + rng.below(3) as u32 - 1)
}

/// A threshold for the exact choice (RULES 10.1), which asks for more fifths than five times the threshold: at whole
/// fifths and beside them, at the ends of the responses, of kinds that count as 0, and beyond everything.
pub fn threshold_beside_fifths(rng: &mut Rng) -> f32 {
    match rng.below(24) {
        0..=2 => {
            let fifth = rng.pick(&[0.2, 0.4, 0.6, 0.8, 4.8]);
            beside(rng, fifth)
        }
        3..=6 => {
            let most = rng.pick(&[8, 40, 40, 2041]);
            let fifths = rng.from_to(1, 5 * most);
            beside(rng, fifths as f32 / 5.0)
        }
        7 => rng.pick(&[-0.0, -1.0, f32::NEG_INFINITY, -f32::from_bits(1)]),
        8 => nan(rng),
        9 => {
            let end = rng.pick(&[2040.0, 2041.0]);
            beside(rng, end)
        }
        10 => rng.pick(&[f32::INFINITY, f32::MAX, 10_200.0, 3e9, 3e19]),
        11 => rng.pick(&[f32::from_bits(1), f32::MIN_POSITIVE, next_toward(f32::MIN_POSITIVE)]),
        12 => (rng.unit() * 60.0) as f32,
        13..=15 => rng.below(30) as f32,
        _ => 0.0,
    }
}

/// A merge radius of any kind that a frame takes; most are off or a few pixels.
pub fn merge_radius(rng: &mut Rng) -> f32 {
    match rng.below(16) {
        0 => rng.pick(&[f32::INFINITY, f32::NEG_INFINITY, -0.0, -1.0, -f32::from_bits(1), f32::MIN]),
        1 => nan(rng),
        2 => 1.0 / 64.0,
        3 => 4096.0,
        4 => (rng.unit() * 20.0 + 0.016) as f32,
        5 | 6 => 1.0 + rng.below(48) as f32,
        7 => (64 + rng.below(2048)) as f32 / 64.0,
        8 | 9 => 0.0,
        10 => 1.0,
        _ => 3.0,
    }
}

/// A merge radius that refusal 5 is about.
pub fn refused_radius(rng: &mut Rng) -> f32 {
    match rng.below(6) {
        0 => next_toward(1.0 / 64.0),
        1 => next_away(4096.0),
        2 => f32::from_bits(1),
        3 => f32::MIN_POSITIVE,
        4 => f32::MAX,
        _ => (rng.unit() / 64.0) as f32 * 0.99 + f32::MIN_POSITIVE,
    }
}

/// A map cell that no image gives: NaN, infinities and ties among them.
pub fn cell(rng: &mut Rng) -> f32 {
    match rng.below(12) {
        0 => f32::NAN,
        1 => f32::INFINITY,
        2 => f32::NEG_INFINITY,
        3 => -0.0,
        4 => any_bits(rng),
        5 => -(rng.below(50) as f32),
        6 => f32::from_bits(1 + rng.below(3) as u32),
        _ => rng.below(6) as f32,
    }
}
