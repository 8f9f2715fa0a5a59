//! Centroids: seeds of every kind on maps of every kind.
use super::file::{kind, Body, File};
use crate::centroid::{refine, Map, Outcome};
use crate::generate::{floats, Rng};
use crate::numbers::{next_away, next_toward};
use crate::refusal::number_of;

const SUBJECT: u64 = 105;
const RANDOM: usize = 420;

#[derive(Clone)]
struct Case {
    radius: u32,
    x: f32,
    y: f32,
    borrowed: bool,
    width: usize,
    height: usize,
    cells: Vec<f32>,
}

fn outcome_number(outcome: Outcome) -> u8 {
    match outcome {
        Outcome::Accepted => 1,
        Outcome::Rejected => 2,
        Outcome::OutOfBounds => 3,
        Outcome::IllConditioned => 4,
        _ => unreachable!("the original has four"),
    }
}

fn put(file: &mut File, case: &Case) {
    let map = Map { cells: &case.cells, width: case.width, height: case.height };
    let answer = refine(case.radius, case.x, case.y, case.borrowed.then_some(map));
    let mut body = Body::default();
    body.word(case.radius as usize).float(case.x).float(case.y);
    body.byte(case.borrowed.into()).words(&[case.width, case.height]).floats(&case.cells);
    body.word(number_of(&answer) as usize);
    match &answer {
        Ok(c) => body.byte(outcome_number(c.outcome)).float(c.x).float(c.y).float(c.mass),
        Err(_) => body.byte(0).words(&[0; 3]),
    };
    file.record(kind::CENTROID, number_of(&answer), &body);
}

/// A coordinate on or about a map's side: quarters, halves, the floats beside a half, or anything.
fn coordinate(rng: &mut Rng, side: usize) -> f32 {
    let whole = rng.below(side + 1) as f32;
    match rng.below(10) {
        0 => next_toward(whole + 0.5),
        1 => next_away(whole + 0.5),
        2 | 3 => whole + 0.5,
        4 => -whole - 0.5,
        5 => (rng.unit() * (side + 2) as f64) as f32 - 1.0,
        6 => rng.below(4 * side + 2) as f32 * 0.25,
        _ => whole,
    }
}

fn random(rng: &mut Rng, case: usize) -> Case {
    let mut side = || if case % 9 == 8 { rng.below(9) } else { rng.from_to(3, 9) };
    let (width, height) = (side(), side());
    let look = rng.below(4);
    let cell = |rng: &mut Rng| match look {
        0 => floats::cell(rng),
        1 => rng.pick(&[-1.0, 0.0, -0.0, 2.0]),
        _ => (rng.unit() * 500.0 - 150.0) as f32,
    };
    let cells = (0..width * height).map(|_| cell(rng)).collect();
    Case {
        radius: rng.pick(&[0, 0, 1, 1, 1, 2, 2, 3]),
        x: coordinate(rng, width),
        y: coordinate(rng, height),
        borrowed: true,
        width,
        height,
        cells,
    }
}

/// Windows of the largest radius.
fn put_largest(file: &mut File, rng: &mut Rng) {
    for side in [33, 34] {
        let cells = (0..side * side).map(|_| (rng.unit() * 2040.0) as f32).collect();
        let (x, y) = (16.0, 16.49);
        put(file, &Case { radius: 16, x, y, borrowed: true, width: side, height: side, cells });
    }
}

/// Seeds at the ends of their range, with and without a map.
fn put_seeds(file: &mut File) {
    let million = 1_000_000.0f32;
    let seeds = [
        million,
        -million,
        next_away(million),
        -next_away(million),
        f32::NAN,
        f32::INFINITY,
        f32::NEG_INFINITY,
        f32::MAX,
        -0.0,
        0.499_999_97,
        -0.499_999_97,
        -0.5,
        f32::from_bits(1),
    ];
    for seed in seeds {
        for borrowed in [true, false] {
            let cells = vec![2.0; 9];
            let case = Case { radius: 0, x: seed, y: 1.0, borrowed, width: 3, height: 3, cells };
            put(file, &case);
            put(file, &Case { x: 1.0, y: seed, ..case });
        }
    }
}

/// Each refusal, alone and with higher ones; without a map 1 and 2 are not judged.
fn put_refused(file: &mut File) {
    let sound =
        || Case { radius: 1, x: 1.0, y: 1.0, borrowed: true, width: 3, height: 3, cells: vec![2.0; 9] };
    let cases = [
        Case { width: 4097, height: 0, cells: vec![], ..sound() },
        Case { width: 0, height: 4097, cells: vec![], radius: 17, ..sound() },
        Case { width: 4096, height: 0, cells: vec![], ..sound() },
        Case { width: 0, height: 0, cells: vec![], radius: 0, ..sound() },
        Case { width: 4, ..sound() },
        Case { cells: vec![2.0; 8], radius: 17, x: f32::NAN, ..sound() },
        Case { radius: 17, ..sound() },
        Case { radius: u32::MAX, x: f32::NAN, ..sound() },
        Case { radius: 16, y: f32::INFINITY, ..sound() },
        Case { radius: 16, ..sound() },
        Case { borrowed: false, width: 4097, ..sound() },
        Case { borrowed: false, width: 4, cells: vec![], ..sound() },
        Case { borrowed: false, radius: 17, ..sound() },
        Case { borrowed: false, radius: 17, x: f32::NAN, ..sound() },
        Case { borrowed: false, x: 1e30, ..sound() },
        Case { borrowed: false, x: 1e5, y: -12.25, ..sound() },
    ];
    for case in cases {
        put(file, &case);
    }
}

pub fn file(seed: u64) -> File {
    let mut file = File::new("centroids.bin");
    let mut rng = Rng::of_case(seed, SUBJECT, 0);
    put_refused(&mut file);
    put_seeds(&mut file);
    put_largest(&mut file, &mut rng);
    for case in 0..RANDOM {
        let case = random(&mut rng, case);
        put(&mut file, &case);
    }
    file
}
