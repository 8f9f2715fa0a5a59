//! Merges: lists near the borders of their cells, and refusals in their order.
use super::file::{kind, Body, File};
use crate::buffers::CornerBuffer;
use crate::generate::{floats, Rng};
use crate::merge::merge;
use crate::numbers::next_away;
use crate::refusal::number_of;

const SUBJECT: u64 = 108;
const RANDOM: u64 = 700;

/// A buffer as it comes, the stated count and the radius.
#[derive(Clone)]
pub struct Case {
    pub buffer: CornerBuffer,
    pub count: usize,
    pub radius: f32,
}

fn put(file: &mut File, case: &Case) {
    let before = &case.buffer;
    let mut after = before.clone();
    let answer = merge(&mut after, case.count, case.radius);
    let mut body = Body::default();
    body.float(case.radius).word(case.count);
    body.floats(&before.x).floats(&before.y).floats(&before.strength).numbers(&before.neighbours);
    body.words(&[number_of(&answer) as usize, answer.unwrap_or(0)]);
    body.corner_buffer(before, &after);
    file.record(kind::MERGE, number_of(&answer), &body);
}

/// The neighbours of so many corners, of which no two have as many.
fn different(places: usize) -> Vec<u32> {
    (0..places as u32).map(|place| 7 + 11 * place).collect()
}

/// Corners of one strength.
fn corners(places: &[(f32, f32)]) -> CornerBuffer {
    CornerBuffer {
        x: places.iter().map(|p| p.0).collect(),
        y: places.iter().map(|p| p.1).collect(),
        strength: vec![1.0; places.len()],
        neighbours: different(places.len()),
    }
}

/// The case of RULES 14: with radius 1 all three stay.
pub fn run_case() -> Case {
    let below_one = 1.0 - f32::EPSILON / 2.0;
    Case { buffer: corners(&[(below_one, 0.0), (2.0, 0.0), (0.0, 100.0)]), count: 3, radius: 1.0 }
}

/// A coordinate: a few last bits beside a border of a cell counted from `origin`, or anywhere.
fn coordinate(rng: &mut Rng, origin: f32, radius: f32) -> f32 {
    let v = match rng.below(3) {
        0 => (rng.unit() * 30.0) as f32,
        _ => origin + rng.below(8) as f32 * radius,
    };
    beside(rng, v)
}

fn strength(rng: &mut Rng) -> f32 {
    match rng.below(12) {
        0 => f32::NAN,
        1 => rng.pick(&[f32::INFINITY, f32::NEG_INFINITY, -0.0, 0.0]),
        _ => rng.below(4) as f32,
    }
}

fn radius(rng: &mut Rng) -> f32 {
    match rng.below(12) {
        0 => floats::merge_radius(rng),
        1 => (rng.unit() * 10.0 + 0.02) as f32,
        2 => rng.pick(&[1.0 / 64.0, 4096.0]),
        _ => rng.pick(&[1.0, 3.0, 0.5, 0.7, 7.0, 5.0, 1.0 / 3.0, 4.1]),
    }
}

/// A list that is in range, with a buffer that has places behind it.
fn in_range(rng: &mut Rng) -> Case {
    let radius = radius(rng);
    let step = if radius.is_finite() && radius > 0.0 { radius.min(500.0) } else { 1.0 };
    let origin = if rng.once_in(2) { 0.0 } else { (rng.unit() * 9.0) as f32 };
    let count = rng.below(11);
    let places = count + if rng.once_in(4) { rng.below(4) } else { 0 };
    let mut list = |f: &mut dyn FnMut(&mut Rng) -> f32| (0..places).map(|_| f(rng)).collect();
    let buffer = CornerBuffer {
        x: list(&mut |rng| coordinate(rng, origin, step)),
        y: list(&mut |rng| if rng.once_in(2) { origin } else { coordinate(rng, origin, step) }),
        strength: list(&mut strength),
        neighbours: different(places),
    };
    Case { buffer, count, radius }
}

/// A float moved by up to two last bits.
fn beside(rng: &mut Rng, v: f32) -> f32 {
    let bits = i64::from(v.to_bits()) + rng.below(5) as i64 - 2;
    f32::from_bits(bits.max(0) as u32).min(4096.0)
}

/// Pairs of corners one radius apart, at or beside the borders of cells, and a corner that is the least both ways.
fn at_cell_borders(rng: &mut Rng) -> Case {
    let radius = match rng.below(4) {
        0 => rng.pick(&[0.5, 1.0, 2.0, 4.0, 8.0]),
        1 | 2 => rng.from_to(1, 130) as f32,
        _ => (rng.unit() * 40.0 + 0.1) as f32,
    };
    let origin = if rng.once_in(3) { 0.0 } else { (rng.unit() * 20.0) as f32 };
    let cells = ((3000.0 / radius) as usize).min(24);
    let mut places = vec![(origin, origin)];
    for _ in 0..rng.from_to(1, 3) {
        let (first, other) = (rng.below(cells) as f32, origin + rng.below(cells) as f32 * radius);
        let (a, b) = (origin + first * radius, origin + (first + 1.0) * radius);
        let exact = rng.once_in(2);
        let mut coordinate = |v: f32| if exact { v } else { beside(rng, v) };
        places.extend([(coordinate(a), other), (coordinate(b), other)]);
    }
    if rng.once_in(2) {
        places.rotate_left(1);
    }
    if rng.once_in(2) {
        places.iter_mut().for_each(|place| *place = (place.1, place.0));
    }
    let mut buffer = corners(&places);
    buffer.strength.iter_mut().for_each(|s| *s = strength(rng));
    Case { count: places.len(), buffer, radius }
}

/// A coordinate that refusal 4 is about.
fn refused_coordinate(rng: &mut Rng) -> f32 {
    let below_zero = -f32::from_bits(1);
    rng.pick(&[f32::NAN, f32::INFINITY, f32::NEG_INFINITY, below_zero, -7.0, next_away(4096.0)])
}

/// The same with a fault or two, which may lie where it is not judged.
fn with_faults(rng: &mut Rng) -> Case {
    let mut case = in_range(rng);
    if rng.once_in(2) && !case.buffer.x.is_empty() {
        let at = rng.below(case.buffer.x.len());
        let coordinates = if rng.once_in(2) { &mut case.buffer.x } else { &mut case.buffer.y };
        coordinates[at] = refused_coordinate(rng);
    }
    if rng.once_in(2) {
        case.radius = floats::refused_radius(rng);
    }
    if rng.once_in(2) {
        case.count = rng.pick(&[case.buffer.x.len() + 1, 20, u32::MAX as usize]);
    }
    for slice in [&mut case.buffer.x, &mut case.buffer.y, &mut case.buffer.strength] {
        if rng.once_in(4) {
            slice.pop();
        }
    }
    if rng.once_in(4) {
        case.buffer.neighbours.pop();
    }
    case
}

/// One of the random lists.
pub fn random_case(seed: u64, case: u64) -> Case {
    let mut rng = Rng::of_case(seed, SUBJECT, case);
    match case % 4 {
        0 => in_range(&mut rng),
        1 => with_faults(&mut rng),
        _ => at_cell_borders(&mut rng),
    }
}

/// The random lists, also for a check that the wrong merges show on them.
pub fn random_cases(seed: u64) -> impl Iterator<Item = Case> {
    (0..RANDOM).map(move |case| random_case(seed, case))
}

/// Cases by hand: the grid above 2^20 cells, replacing in place, and the limits.
fn named() -> Vec<Case> {
    let case = |places: &[(f32, f32)], count, radius| Case { buffer: corners(places), count, radius };
    let mut replaced = case(&[(0.0, 0.0), (1.0, 0.0), (2.0, 0.0), (3.0, 0.0), (9.0, 9.0)], 4, 1.0);
    replaced.buffer.strength = vec![1.0, 2.0, 3.0, 3.0, 7.0];
    let mut uncounted = case(&[(1.0, 1.0), (2.0, 1.0)], 2, 3.0);
    uncounted.buffer.neighbours.pop();
    vec![
        run_case(),
        replaced,
        uncounted,
        case(&[], 0, 3.0),
        case(&[], 0, 0.001),
        case(&[], 1, 3.0),
        case(&[], 1, f32::NAN),
        case(&[(0.0, 0.0), (4096.0, 4096.0), (4096.0, 4095.99)], 3, 1.0 / 64.0),
        case(&[(0.0, 0.0), (100.0, 4096.0), (0.01, 0.01)], 3, 1.0 / 64.0),
        case(&[(0.0, 0.0), (4096.0, 0.0), (0.0, 4096.0), (2896.0, 2896.0)], 4, 4096.0),
        case(&[(-0.0, 0.0), (0.0, -0.0), (1.0, 1.0)], 3, 1.0),
        case(&[(5.0, 5.0), (-1.0, 5.0)], 1, 3.0),
        case(&[(5.0, 5.0), (-1.0, 5.0)], 2, 3.0),
        case(&[(5.0, 5.0), (-1.0, 5.0)], 2, 0.0),
        case(&[(5.0, 5.0), (-1.0, 5.0)], 3, -1.0),
    ]
}

pub fn file(seed: u64) -> File {
    let mut file = File::new("merges.bin");
    for case in named() {
        put(&mut file, &case);
    }
    for case in random_cases(seed) {
        put(&mut file, &case);
    }
    file
}
