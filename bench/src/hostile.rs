//! Frames that are legal and take long.
use crate::alone::{cells, head, outcomes, timed, Done, Prepared};
use crate::library::{self, bits, Buffers};
use crate::pictures::{usual, Kind, Picture};
use crate::settings::Settings;
use crate::table::Table;
use crate::targets::{Count, HOSTILE};
use oracle::frame::{corners_of, with_lists};
use oracle::generate::Rng;
use oracle::image::Image;
use oracle::merge::grid_cells;
use oracle::params::{Params, PLAIN};
use oracle::peaks::peaks_of;
use oracle::pyramid::levels_of;
use oracle::response::map_of;
use oracle::timing::ORIGINAL;

const SIDE: usize = 4096;
const GREY: i32 = 128;

/// Of each pixel, from its column and row.
fn picture(params: Params, mut grey: impl FnMut(usize, usize) -> i32) -> Picture {
    let pixels = (0..SIDE * SIDE).map(|i| grey(i % SIDE, i / SIDE) as u8).collect();
    Picture { kind: Kind::Hostile, width: SIDE, height: SIDE, pixels, params }
}

/// A frame with many corners that do not come by rows. Each square of 2 x 2 pixels has a faint texture that halving
/// takes away, and without a window every cell of the base above 0 is a corner. Small saddles in a row survive halving.
/// Their seeds have large boxes with nearly the same corners, and merging by a tenth of a pixel keeps one of each.
fn many_corners(saddles: usize) -> Picture {
    let mut rng = Rng::new(3);
    let signs: Vec<i32> = (0..SIDE * SIDE / 4).map(|_| [-1, 0, 0, 0, 1][rng.below(5)]).collect();
    let sign = |x: usize, y: usize| signs[y / 2 * (SIDE / 2) + x / 2] * if x % 2 == y % 2 { 1 } else { -1 };
    let params = Params { merge: 0.1, levels: 2, search: 255, ..PLAIN };
    picture(params, |x, y| GREY + saddle(x, y, saddles) + 2 * sign(x, y))
}

/// How much brighter the saddles make a pixel: four squares of 12 pixels about (530 + 1030 i, 530).
fn saddle(x: usize, y: usize, saddles: usize) -> i32 {
    const REACH: usize = 12;
    let from = 530 - REACH;
    let (i, across) = ((x.wrapping_sub(from)) / 1030, (x.wrapping_sub(from)) % 1030);
    let down = y.wrapping_sub(from);
    if x < from || i >= saddles || across >= 2 * REACH || down >= 2 * REACH {
        return 0;
    }
    if (across < REACH) == (down < REACH) {
        40
    } else {
        -40
    }
}

/// A frame whose boxes overlap and have no corner: a faint board, in the middle, of this many squares of 32 pixels a
/// side, which alone is left on the third level, below stripes four pixels wide.
fn overlapping_boxes(squares: usize) -> Picture {
    let from = (SIDE - 32 * squares) / 2;
    let within = |v: usize| v >= from && v < SIDE - from;
    let board = |x: usize, y: usize| match ((x - from) / 32 + (y - from) / 32) % 2 {
        0 => 10,
        _ => -10,
    };
    let stripe = |x: usize| if x % 4 < 2 { 60 } else { -60 };
    let params = Params { minimum: 0, levels: 3, search: 255, ..usual(SIDE) };
    picture(params, |x, y| GREY + stripe(x) + if within(x) && within(y) { board(x, y) } else { 0 })
}

/// How many seeds a frame of several levels has.
fn seeds(picture: &Picture) -> usize {
    let mut scratch = box_image_pyramid::PyramidBuffers::new();
    let pyramid = levels_of(picture.image(), &picture.params, &mut scratch);
    let view = pyramid.levels.last().expect("a level").img;
    let last = Image { pixels: view.data, width: view.width, height: view.height };
    peaks_of(&map_of(last, picture.params.ring, last.whole()), &picture.params).len()
}

const WAYS: [&str; 2] = ["Rust", "ours"];

/// The jobs, and what their rows are called.
const JOBS: [(&str, &str); 4] = [
    ("corners-2", "many corners from two saddles"),
    ("corners-3", "many corners from three saddles"),
    ("boxes-10", "overlapping boxes, a board of 10 x 10 squares"),
    ("boxes-128", "overlapping boxes, a board over the whole image"),
];

fn frame_of(job: &str) -> Option<Picture> {
    let (kind, number) = job.split_once('-')?;
    let number = number.parse().ok()?;
    match kind {
        "corners" => Some(many_corners(number)),
        "boxes" => Some(overlapping_boxes(number)),
        _ => None,
    }
}

/// What the process of one way runs, where the job is a frame.
pub fn prepared(job: &str, way: &str) -> Option<Prepared> {
    frame_of(job).map(|picture| if way == WAYS[0] { original(picture) } else { ours(picture) })
}

fn original(picture: Picture) -> Prepared {
    refuse_large_grid(&picture)?;
    Ok(Box::new(move || {
        let (seconds, corners) = timed(|| corners_of(picture.image(), &picture.params, &ORIGINAL));
        Done::new(seconds, &bits(&corners))
    }))
}

fn ours(picture: Picture) -> Prepared {
    let mut buffers = Buffers::new(picture.cells(), picture.cells() / 8);
    Ok(Box::new(move || {
        let (seconds, n) = timed(|| library::frame(picture.image(), &picture.params, &mut buffers));
        Done::new(seconds, &buffers.corners.bits(n))
    }))
}

/// The original's grid is made where it takes at most 3 GB: each cell, as wide as the merge radius, has 24 bytes.
fn refuse_large_grid(picture: &Picture) -> Result<(), String> {
    const MOST: f64 = (1u64 << 27) as f64;
    let radius = picture.params.merge;
    let side = (SIDE as f64 / f64::from(radius)).ceil();
    let apart = Params { merge: 0.0, ..picture.params };
    // the corners are looked at only where a grid of the whole image would be too large
    let cells = || with_lists(picture.image(), &apart, &ORIGINAL, |lists| grid_cells(&lists.found, radius));
    let cells = if side * side <= MOST { 0.0 } else { cells() };
    if cells <= MOST {
        return Ok(());
    }
    Err(format!("its grid would take {:.0} GB", cells * 24.0 / 1e9))
}

pub fn table(settings: &Settings) -> Table {
    let mut counts = Vec::new();
    let rows = JOBS.map(|(job, name)| {
        let outcomes = outcomes(job, &WAYS, settings);
        counts.push(Count { target: &HOSTILE, value: outcomes[1].seconds(), most: HOSTILE.most });
        let seeds = seeds(&frame_of(job).expect("a frame"));
        [vec![name.into(), seeds.to_string()], cells(&outcomes)].concat()
    });
    let head = head(&["hostile frame, 4096 x 4096", "seeds", "corners"], &WAYS);
    Table { head, rows: rows.into(), counts }
}
