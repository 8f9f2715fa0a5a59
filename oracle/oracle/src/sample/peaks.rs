//! Peaks of maps that no image gives, too: cells that are NaN or infinite, ties, thresholds of every kind.
use super::file::{kind, Body, File};
use crate::buffers::CornerBuffer;
use crate::generate::{floats, Rng};
use crate::params::{Params, PLAIN};
use crate::peaks::{find_peaks, peaks_of};
use crate::refusal::number_of;
use crate::ResponseMap;

const SUBJECT: u64 = 104;
const RANDOM: u64 = 160;

/// A map with its claimed sides, the parameters that count, the buffer's lengths and how many corners it holds.
#[derive(Clone)]
pub struct Case {
    pub cells: Vec<f32>,
    pub width: usize,
    pub height: usize,
    pub params: Params,
    pub lengths: [usize; 4],
    pub held: usize,
}

fn put(file: &mut File, case: &Case) {
    let p = &case.params;
    let before = CornerBuffer::before(case.lengths);
    let mut after = before.clone();
    let answer = find_peaks(&case.cells, case.width, case.height, p, &mut after, case.held);
    let mut body = Body::default();
    body.words(&[case.width, case.height, p.ring as usize]).float(p.threshold);
    body.words(&[p.window as usize, p.least as usize, p.centroid as usize]);
    body.floats(&case.cells).words(&case.lengths).word(case.held);
    body.words(&[number_of(&answer) as usize, answer.unwrap_or(0)]);
    body.corner_buffer(&before, &after);
    file.record(kind::PEAKS, number_of(&answer), &body);
}

fn cells(rng: &mut Rng, size: usize, look: usize) -> Vec<f32> {
    let cell = |rng: &mut Rng| match look {
        0 | 1 => floats::cell(rng),
        2 => rng.below(4) as f32 - 1.0,
        3 => (rng.unit() * 300.0 - 100.0) as f32,
        _ => (rng.below(2000) as f32 - 1000.0) / 5.0,
    };
    (0..size).map(|_| cell(rng)).collect()
}

/// How a list that just fits, or just not, is put behind what the buffer holds.
fn places(rng: &mut Rng, found: usize) -> ([usize; 4], usize) {
    let held = if rng.once_in(3) { rng.below(6) } else { 0 };
    let mut lengths = [held + found; 4];
    match rng.below(6) {
        0 => lengths[rng.below(4)] = (held + found).saturating_sub(1),
        1 => lengths = [held.saturating_sub(1); 4],
        2 => lengths = lengths.map(|n| n + rng.below(4)),
        _ => {}
    }
    (lengths, held)
}

fn random(rng: &mut Rng, case: u64) -> Case {
    let params = Params {
        ring: if case % 13 == 12 { 10 } else { 5 },
        threshold: if rng.once_in(3) { floats::odd(rng) } else { floats::threshold(rng) },
        window: rng.pick(&[0, 1, 1, 2]),
        least: rng.pick(&[0, 0, 1, 2, 3, 5, 8]),
        centroid: rng.pick(&[0, 0, 0, 1]),
        ..PLAIN
    };
    let border = params.border();
    let (width, height) = (2 * border + rng.below(5), 2 * border + rng.below(5));
    let look = rng.below(5);
    let cells = cells(rng, width * height, look);
    let found = peaks_of(&ResponseMap::new(width, height, cells.clone()), &params).len();
    let (lengths, held) = places(rng, found);
    Case { cells, width, height, params, lengths, held }
}

/// The random maps, also for a check that the wrong road "above the threshold" shows on them.
pub fn random_cases(seed: u64) -> impl Iterator<Item = Case> {
    (0..RANDOM).map(move |case| random(&mut Rng::of_case(seed, SUBJECT, case), case))
}

/// 11 by 11 cells, of which only the middle one can be a peak.
fn one_cell(middle: f32, threshold: f32) -> Case {
    let mut cells = vec![0.0; 121];
    cells[60] = middle;
    Case { cells, width: 11, height: 11, params: Params { threshold, ..PLAIN }, lengths: [1; 4], held: 0 }
}

/// Single cells against thresholds: at it, beside it, NaN on either side.
fn put_single(file: &mut File) {
    let inf = f32::INFINITY;
    let least = f32::from_bits(1);
    let pairs = [
        (5.0, 5.0),
        (5.0, 4.999_999_5),
        (4.999_999_5, 5.0),
        (0.0, 0.0),
        (-0.0, -0.0),
        (least, 0.0),
        (least, -3.0),
        (least, least),
        (0.0, -3.0),
        (5.0, f32::NAN),
        (-5.0, f32::NAN),
        (f32::NAN, 5.0),
        (f32::NAN, inf),
        (f32::NAN, f32::NAN),
        (inf, inf),
        (inf, f32::MAX),
        (f32::MAX, inf),
        (-inf, -inf),
        (5.0, -inf),
    ];
    for (middle, threshold) in pairs {
        put(file, &one_cell(middle, threshold));
    }
}

/// Equal cells all survive, a larger one beats them, a NaN or infinity beside them.
fn put_pairs(file: &mut File) {
    for (left, right) in
        [(3.0, 3.0), (3.0, 4.0), (3.0, f32::NAN), (f32::INFINITY, 3.0), (f32::INFINITY, f32::INFINITY)]
    {
        for least in [0, 1, 2] {
            let mut cells = vec![0.0; 14 * 13];
            (cells[6 * 14 + 6], cells[6 * 14 + 7]) = (left, right);
            let params = Params { window: 1, least, ..PLAIN };
            put(file, &Case { cells, width: 14, height: 13, params, lengths: [2; 4], held: 0 });
        }
    }
}

/// A peak of 2 and cells of 1, -1 and NaN in its window: one neighbour.
fn put_neighbours(file: &mut File) {
    for least in [0, 1, 2] {
        let mut cells = vec![0.0; 13 * 13];
        cells[6 * 13 + 6] = 2.0;
        for (x, y, value) in [(7, 6, 1.0), (5, 5, -1.0), (6, 7, f32::NAN), (6, 4, 1.0)] {
            cells[y * 13 + x] = value;
        }
        let params = Params { window: 1, least, ..PLAIN };
        put(file, &Case { cells, width: 13, height: 13, params, lengths: [2; 4], held: 0 });
    }
}

/// Windows and radii at their limits.
fn put_limits(file: &mut File, rng: &mut Rng) {
    for (ring, window, centroid) in [(5, 16, 0), (5, 0, 16), (10, 2, 2)] {
        let params = Params { ring, window, centroid, ..PLAIN };
        let side = 2 * params.border() + 1;
        let cells = cells(rng, side * side, 3);
        put(file, &Case { cells, width: side, height: side, params, lengths: [1; 4], held: 0 });
    }
}

/// Each refusal, alone and with higher ones.
fn put_refused(file: &mut File) {
    let sound = || one_cell(5.0, 0.0);
    let params = |ring, window, centroid| Params { ring, window, centroid, ..PLAIN };
    let cases = [
        Case { width: 4097, height: 0, cells: vec![], ..sound() },
        Case { width: 0, height: 4097, cells: vec![], params: params(4, 0, 0), ..sound() },
        Case { width: 4096, height: 0, cells: vec![], lengths: [0; 4], ..sound() },
        Case { width: 12, ..sound() },
        Case { cells: vec![5.0; 120], params: params(6, 0, 0), lengths: [0; 4], ..sound() },
        Case { params: params(6, 0, 0), ..sound() },
        Case { params: params(0, 0, 0), lengths: [0; 4], ..sound() },
        Case { params: params(5, 17, 0), ..sound() },
        Case { params: params(5, 0, 17), ..sound() },
        Case { params: params(5, u32::MAX, u32::MAX), ..sound() },
        Case { lengths: [0; 4], ..sound() },
        Case { lengths: [4, 4, 3, 4], held: 3, ..sound() },
        Case { lengths: [4, 4, 4, 3], held: 3, ..sound() },
        Case { lengths: [4; 4], held: 3, ..sound() },
        Case { lengths: [3, 4, 4, 4], held: 4, cells: vec![0.0; 121], ..sound() },
        Case { lengths: [4; 4], held: 4, cells: vec![0.0; 121], ..sound() },
        Case { held: u32::MAX as usize, cells: vec![0.0; 121], ..sound() },
    ];
    for case in cases {
        put(file, &case);
    }
}

pub fn file(seed: u64) -> File {
    let mut file = File::new("peaks.bin");
    put_single(&mut file);
    put_pairs(&mut file);
    put_neighbours(&mut file);
    put_refused(&mut file);
    put_limits(&mut file, &mut Rng::of_case(seed, SUBJECT, RANDOM));
    for case in random_cases(seed) {
        put(&mut file, &case);
    }
    file
}
