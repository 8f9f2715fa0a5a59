//! Search boxes of seeds.
use super::file::{kind, Body, File};
use crate::generate::Rng;
use crate::numbers::next_away;
use crate::params::{Params, PLAIN};
use crate::refusal::number_of;
use crate::search_box::search_box;

const SUBJECT: u64 = 106;
const RANDOM: usize = 700;

#[derive(Clone)]
struct Case {
    width: usize,
    height: usize,
    params: Params,
    level: u32,
    x: f32,
    y: f32,
}

fn put(file: &mut File, case: &Case) {
    let p = &case.params;
    let answer = search_box(case.width, case.height, case.level, p, case.x, case.y);
    let mut body = Body::default();
    body.words(&[case.width, case.height, p.ring as usize, p.window as usize]);
    body.words(&[p.centroid as usize, p.search as usize, case.level as usize]);
    body.float(case.x).float(case.y);
    body.word(number_of(&answer) as usize);
    match answer {
        Ok(Some(area)) => body.byte(1).words(&[area.x0, area.y0, area.x1, area.y1]),
        _ => body.byte(0).words(&[0; 4]),
    };
    file.record(kind::BOX, number_of(&answer), &body);
}

/// A seed's coordinate on a level: about the border, exactly half way between two pixels of the base, or anywhere.
fn coordinate(rng: &mut Rng, side: usize, border: usize, level: u32) -> f32 {
    let scale = f64::from(1u32 << level);
    let at = match rng.below(8) {
        0 => border as f64 + rng.below(5) as f64 * 0.5,
        1 => side as f64 - border as f64 - rng.below(5) as f64 * 0.5,
        2 | 3 => rng.below(side + 1) as f64 + 0.5,
        _ => rng.unit() * side as f64,
    };
    (at / scale).clamp(0.0, 4096.0) as f32
}

fn random(rng: &mut Rng) -> Case {
    let params = Params {
        ring: rng.pick(&[5, 5, 10]),
        window: rng.pick(&[0, 1, 2, 16]),
        centroid: rng.pick(&[0, 1, 2, 16]),
        search: rng.pick(&[0, 1, 2, 3, 8, 40, 255]),
        ..PLAIN
    };
    let level = if rng.once_in(8) { rng.below(13) } else { rng.from_to(1, 4) } as u32;
    let mut side = || if rng.once_in(8) { rng.pick(&[0, 1, 12, 4096]) } else { rng.from_to(20, 320) };
    let (width, height) = (side(), side());
    let x = coordinate(rng, width, params.border(), level);
    let y = coordinate(rng, height, params.border(), level);
    Case { width, height, params, level, x, y }
}

/// The P cases: base 200 by 200, border 9, scale 1/2, search 3.
fn named() -> Case {
    Case {
        width: 200,
        height: 200,
        params: Params { window: 2, centroid: 2, search: 3, ..PLAIN },
        level: 1,
        x: 50.0,
        y: 40.0,
    }
}

/// Each refusal, alone and with higher ones, and the ends of each range.
fn put_refused(file: &mut File) {
    let params = |change: fn(&mut Params)| {
        let mut params = named().params;
        change(&mut params);
        params
    };
    let below_zero = -f32::from_bits(1);
    let cases = [
        Case { width: 4097, ..named() },
        Case { height: 4097, level: 13, x: f32::NAN, ..named() },
        Case { width: u32::MAX as usize, height: u32::MAX as usize, ..named() },
        Case { params: params(|p| p.ring = 9), ..named() },
        Case { params: params(|p| p.ring = 9), x: f32::NAN, ..named() },
        Case { params: params(|p| p.window = 17), ..named() },
        Case { params: params(|p| p.centroid = 17), ..named() },
        Case { params: params(|p| p.search = 256), ..named() },
        Case { params: params(|p| (p.window, p.search) = (u32::MAX, u32::MAX)), ..named() },
        Case { level: 13, ..named() },
        Case { level: u32::MAX, y: -1.0, ..named() },
        Case { x: f32::NAN, ..named() },
        Case { y: f32::NAN, ..named() },
        Case { x: f32::INFINITY, ..named() },
        Case { y: f32::NEG_INFINITY, ..named() },
        Case { x: below_zero, ..named() },
        Case { y: next_away(4096.0), ..named() },
        Case { x: -0.0, y: 4096.0, ..named() },
        Case { width: 4096, height: 4096, level: 12, x: 4096.0, y: 0.5, ..named() },
        Case { width: 4096, height: 4096, params: params(|p| p.search = 255), ..named() },
        Case { width: 4096, height: 4096, level: 0, x: 4000.0, y: 2000.0, ..named() },
        Case { width: 4096, height: 4096, level: 12, x: 0.5, y: 0.5, ..named() },
    ];
    for case in cases {
        put(file, &case);
    }
}

pub fn file(seed: u64) -> File {
    let mut file = File::new("boxes.bin");
    let mut rng = Rng::of_case(seed, SUBJECT, 0);
    put(&mut file, &named());
    put(&mut file, &Case { x: 7.5, y: 50.0, ..named() });
    put(&mut file, &Case { x: 8.0, y: 50.0, ..named() });
    put_refused(&mut file);
    for _ in 0..RANDOM {
        put(&mut file, &random(&mut rng));
    }
    file
}
