//! Lists of up to a million corners that are merged.
use crate::alone::{cells, head, outcomes, timed, Done, Outcome, Prepared};
use crate::library::{self, bits, List};
use crate::lists::anywhere;
use crate::settings::Settings;
use crate::table::Table;
use crate::targets::{Count, MILLION};
use oracle::{merge, Corner};

/// The ways, as columns.
const WAYS: [&str; 3] = ["Rust", "ours", "ours, by table"];

/// Merges the first corners of a list in place, so many, by a radius; how many are left.
type Merge = Box<dyn FnMut(&mut List, usize, f32) -> usize>;

/// One of our ways for so many corners. What it borrows is made here, before the time is taken; the table has the length
/// that the header calls the fastest.
fn merge_by(way: &str, count: usize) -> Merge {
    let mut table = vec![0.0; 4 * count + 4];
    match way {
        "ours" => Box::new(library::merge),
        _ => Box::new(move |list, count, radius| library::merge_by_table(list, count, radius, &mut table)),
    }
}

/// The jobs, and what their rows are called.
const JOBS: [(&str, &str); 4] = [
    ("random-130000", "130000 corners, in any order, radius 1"),
    ("random-160000", "160000 corners, in any order, radius 1"),
    ("random-1000000", "1000000 corners, in any order, radius 1"),
    ("rows-1000000", "1000000 corners, by rows, radius 3"),
];

/// The job that counts towards a target.
const COUNTED: &str = "random-1000000";

fn list_of(job: &str) -> Option<(Vec<Corner>, f32)> {
    let (kind, count) = job.split_once('-')?;
    let corners = anywhere(count.parse().ok()?, 4095.0);
    match kind {
        "random" => Some((corners, 1.0)),
        "rows" => Some((by_rows(corners), 3.0)),
        _ => None,
    }
}

fn by_rows(mut corners: Vec<Corner>) -> Vec<Corner> {
    corners.sort_by(|a, b| (a.y.floor(), a.x).partial_cmp(&(b.y.floor(), b.x)).expect("numbers"));
    corners
}

/// What the process of one way runs, where the job is a list.
pub fn prepared(job: &str, way: &str) -> Option<Prepared> {
    let (corners, radius) = list_of(job)?;
    Some(Ok(if way == WAYS[0] { original(corners, radius) } else { ours(&corners, radius, way) }))
}

type Run = Box<dyn FnMut() -> Done>;

/// It copies the list first, as ours does.
fn original(corners: Vec<Corner>, radius: f32) -> Run {
    Box::new(move || {
        let (seconds, kept) = timed(|| merge::original(&corners, radius));
        Done::new(seconds, &bits(&kept))
    })
}

fn ours(corners: &[Corner], radius: f32, way: &str) -> Run {
    let (before, count, mut merge) = (List::of(corners), corners.len(), merge_by(way, corners.len()));
    let mut list = before.clone();
    Box::new(move || {
        let (seconds, n) = timed(|| {
            list.copy_from(&before);
            merge(&mut list, count, radius)
        });
        Done::new(seconds, &list.bits(n))
    })
}

/// The fastest of ours against the original.
fn best(outcomes: &[Outcome]) -> f64 {
    let ours = outcomes[1..].iter().map(Outcome::seconds).fold(f64::INFINITY, f64::min);
    if ours.is_finite() {
        ours / outcomes[0].seconds()
    } else {
        ours
    }
}

pub fn table(settings: &Settings) -> Table {
    let mut counts = Vec::new();
    let rows = JOBS.map(|(job, name)| {
        let outcomes = outcomes(job, &WAYS, settings);
        if job == COUNTED {
            counts.push(Count { target: &MILLION, value: best(&outcomes), most: MILLION.most });
        }
        [vec![name.into()], cells(&outcomes)].concat()
    });
    Table { head: head(&["merge of", "stay"], &WAYS), rows: rows.into(), counts }
}
