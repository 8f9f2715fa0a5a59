//! Single floats: their bits and roundings; and the ring tables.
use super::file::{kind, Body, File};
use crate::generate::{floats, Rng};
use crate::numbers::{next_away, next_toward, rounded};
use crate::ring::offsets;

const SUBJECT: u64 = 111;
const RANDOM: usize = 300;

fn put(file: &mut File, x: f32) {
    let r = rounded(x);
    let mut body = Body::default();
    body.word(x.to_bits() as usize).float(r.magnitude).byte(r.finite.into()).float(r.lifted);
    body.long(r.cut_off).long(r.floor as u64).long(r.ceil as u64).long(r.round as u64);
    file.record(kind::NUMBER, 0, &body);
}

fn put_ring(file: &mut File, radius: u32) {
    let table = offsets(radius);
    let reach = if radius == 10 { 10 } else { 5 };
    let mut body = Body::default();
    body.words(&[radius as usize, reach as usize]);
    body.word(16).words(&table.map(|(dx, _)| (dx + reach) as usize));
    body.word(16).words(&table.map(|(_, dy)| (dy + reach) as usize));
    file.record(kind::RING, 0, &body);
}

/// Where roundings go wrong: halves, the floats beside them, and where floats have no fraction left.
fn put_named(file: &mut File) {
    let sizes = [
        0.0,
        0.5,
        1.0,
        1.5,
        2.5,
        3.5,
        95.5,
        4095.5,
        4096.0,
        8_388_607.5,
        8_388_608.0,
        16_777_215.0,
        16_777_216.0,
        1e9,
        1.8e19,
    ];
    for size in sizes {
        let beside = if size == 0.0 { size } else { next_toward(size) };
        for x in [size, beside, next_away(size)] {
            put(file, x);
            put(file, -x);
        }
    }
    for bits in [
        0x7f80_0000,
        0xff80_0000,
        0x7fc0_0000,
        0x7f80_0001,
        0xffff_ffff,
        0x7f7f_ffff,
        0x0080_0000,
        0x007f_ffff,
    ] {
        put(file, f32::from_bits(bits));
    }
}

fn random(rng: &mut Rng) -> f32 {
    match rng.below(5) {
        0 => floats::odd(rng),
        1 => floats::any_bits(rng),
        2 => rng.below(9000) as f32 * 0.5 - 100.0,
        3 => (rng.unit() * 2.0 - 1.0) as f32,
        _ => (rng.unit() * 8192.0 - 2000.0) as f32,
    }
}

pub fn file(seed: u64) -> File {
    let mut file = File::new("numbers.bin");
    for radius in [5, 10, 0, 1, 9, 11, 255, u32::MAX] {
        put_ring(&mut file, radius);
    }
    put_named(&mut file);
    let mut rng = Rng::of_case(seed, SUBJECT, 0);
    for _ in 0..RANDOM {
        let x = random(&mut rng);
        put(&mut file, x);
    }
    file
}
