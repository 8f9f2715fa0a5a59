//! oracle_tolerance [N [SEED]]: how far the centre may be off, by running. On N frames (60) of each of two kinds and N/10
//! images that are 4,096 wide or high, with both rings and centroid radius 0, 1 and 2: about every cell of each map that
//! the pass looks at, the last level's and the patches', an accepted centroid is within 1/32 pixel of the exact one, and
//! so is each corner of the map, before it is moved.
use oracle::centroid::{centroids, refine_on, Outcome};
use oracle::exact::fifths_map;
use oracle::frame::with_lists;
use oracle::generate::images;
use oracle::generate::Rng;
use oracle::params::{Params, PLAIN};
use oracle::pass::{View, STEPS};
use oracle::stream::Upload;
use oracle::tally::Tally;
use oracle::tolerance::{deviation, exact_centroid};
use oracle::{Corner, ResponseMap};
use std::process::ExitCode;

/// What a kind of images showed.
#[derive(Default)]
struct Seen {
    maps: usize,
    patches: usize,
    accepted: usize,
    corners: usize,
    worst: f64,
}

/// A map that the pass looks at, with its exact values and the centroid's radius.
struct Looked {
    map: ResponseMap,
    fifths: Vec<i32>,
    radius: u32,
}

impl Looked {
    /// An accepted centroid about a seed.
    fn judge(&self, tally: &mut Tally, seen: &mut Seen, seed: (f32, f32), got: (f32, f32)) {
        let exact = exact_centroid(&self.fifths, self.map.width(), self.radius, seed);
        match deviation(got, &exact) {
            Some(off) => {
                tally.passed += 1;
                seen.worst = seen.worst.max(off);
            }
            None => {
                let radius = self.radius;
                tally.check(&format!("seed {seed:?}, radius {radius}: {got:?} against {exact:?}"), false);
            }
        }
    }

    /// About each cell twice: at its place, and at a seed that may be rounded to it.
    fn cells(&self, tally: &mut Tally, seen: &mut Seen, rng: &mut Rng) {
        let cells = (0..self.map.height()).flat_map(|y| (0..self.map.width()).map(move |x| (x, y)));
        for place in cells.map(|(x, y)| (x as f32, y as f32)) {
            let mut beside = |at: f32| at + rng.pick(&[-0.5, -0.25, 0.0, 0.0, 0.25, 0.5]);
            for seed in [place, (beside(place.0), beside(place.1))] {
                let got = refine_on(self.radius, seed.0, seed.1, Some(&self.map));
                if got.outcome == Outcome::Accepted {
                    seen.accepted += 1;
                    self.judge(tally, seen, seed, (got.x, got.y));
                }
            }
        }
    }

    /// The corners that the map's peaks become in the pass.
    fn corners(&self, tally: &mut Tally, seen: &mut Seen, peaks: &[Corner]) {
        let corners = centroids(peaks.to_vec(), &self.map, self.radius);
        tally.same("no peak is dropped", corners.len(), peaks.len());
        for (peak, corner) in peaks.iter().zip(&corners) {
            self.judge(tally, seen, (peak.x, peak.y), (corner.x, corner.y));
        }
        seen.corners += corners.len();
    }
}

fn judge(tally: &mut Tally, seen: &mut Seen, rng: &mut Rng, view: &View, params: &Params) {
    let (map, fifths) = (view.map(params.ring), fifths_map(view, params.ring));
    let peaks = (STEPS.peaks)(view, &map, params);
    let looked = Looked { map, fifths, radius: params.centroid };
    looked.cells(tally, seen, rng);
    looked.corners(tally, seen, &peaks);
    seen.maps += 1;
}

/// Each map that the pass looks at, with each radius.
fn frames(
    tally: &mut Tally,
    name: &str,
    seed: u64,
    subject: u64,
    count: u64,
    make: impl Fn(&mut Rng) -> Upload,
) {
    let mut seen = Seen::default();
    for case in 0..count {
        let mut rng = Rng::of_case(seed, subject, case);
        let upload = make(&mut rng);
        for centroid in 0..=2 {
            let params = Params { centroid, ..upload.params };
            with_lists(upload.image(), &params, &STEPS, |lists| {
                for view in &lists.views {
                    judge(tally, &mut seen, &mut rng, view, &params);
                }
                seen.patches += lists.views.len().saturating_sub(1);
            });
        }
    }
    let Seen { maps, patches, accepted, corners, worst } = seen;
    println!("{name}: {maps} maps, {patches} of them patches, with {corners} corners; {accepted} accepted centroids");
    println!("{name}: largest deviation {worst:.9} pixels");
}

fn params(rng: &mut Rng) -> Params {
    let (ring, window) = (rng.pick(&[5, 10]), rng.from_to(1, 3) as u32);
    Params { ring, window, levels: rng.from_to(1, 2) as u32, search: rng.below(5) as u32, ..PLAIN }
}

/// Images of any look, with sides of up to 300.
fn random(rng: &mut Rng) -> Upload {
    let params = params(rng);
    let (width, height) = (rng.from_to(30, 300), rng.from_to(30, 300));
    let pixels = images::random(rng, width, height, &params);
    Upload { width, height, params, pixels }
}

/// Two to four neighbouring grey levels: weights of a few fifths, whose errors are the largest for their size.
fn faint(rng: &mut Rng) -> Upload {
    let params = params(rng);
    let (width, height) = (rng.from_to(30, 120), rng.from_to(30, 120));
    let (least, spread) = (rng.below(250), rng.from_to(2, 4));
    let pixels = images::noise(rng, width * height, least, spread);
    Upload { width, height, params, pixels }
}

/// The largest sides, one at a time: the largest columns and rows.
fn long(rng: &mut Rng) -> Upload {
    let params = Params { levels: 1, ..params(rng) };
    let short = rng.from_to(40, 60);
    let (width, height) = if rng.once_in(2) { (4096, short) } else { (short, 4096) };
    let pixels = if rng.once_in(2) {
        images::noise(rng, width * height, 100, 4)
    } else {
        images::random(rng, width, height, &params)
    };
    Upload { width, height, params, pixels }
}

fn main() -> ExitCode {
    let mut words = std::env::args().skip(1).map(|word| word.parse().expect("a number"));
    let count = words.next().unwrap_or(60);
    let seed = words.next().unwrap_or(1);
    let mut tally = Tally::default();
    frames(&mut tally, "random", seed, 301, count, random);
    frames(&mut tally, "faint noise", seed, 302, count, faint);
    frames(&mut tally, "a side of 4,096", seed, 303, count.div_ceil(10), long);
    tally.finish()
}
