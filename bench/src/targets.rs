//! The targets, and whether the rows that were measured meet them.
use crate::table::{ratio, Table};

/// A ratio, or a number of seconds, that is to be met by each row that counts towards it.
pub struct Target {
    pub what: &'static str,
    /// The limit in words.
    pub said: &'static str,
    pub most: f64,
}

/// What a row counts towards a target.
#[derive(Clone, Copy)]
pub struct Count {
    pub target: &'static Target,
    pub value: f64,
    pub most: f64,
}

const fn target(what: &'static str, said: &'static str, most: f64) -> Target {
    Target { what, said, most }
}

pub static PHOTOGRAPHS: Target = target("frame, one level, photographs", "0.10", 0.10);
pub static BOARDS: Target = target("frame, one level, boards above 96 x 96", "0.10", 0.10);
pub static NOISE: Target = target("frame, one level, noise", "0.20", 0.20);
pub static THREE: Target =
    target("frame, three levels, 640 x 480", "0.15, or 1.5 of the time to clear the map", 0.15);
pub static THREE_ABOVE: Target =
    target("frame, three levels, above 640 x 480", "0.25, or 1.5 of the time to clear the map", 0.25);
/// Times of one code differ by as much from run to run.
pub static SMALL: Target =
    target("frame up to 96 x 96, against the library before", "1, and 0.05 for what times vary by", 1.05);
pub static RESPONSE_C: Target = target("response, against C", "1.2", 1.2);
pub static MILLION: Target = target("merge, a million corners in any order", "2", 2.0);
pub static HOSTILE: Target = target("hostile frame, seconds", "5 (\"some seconds\")", 5.0);
pub static RESPONSE: Target = target("response", "0.15", 0.15);
pub static PEAKS: Target = target("peaks", "0.6", 0.6);
pub static CENTROIDS: Target = target("centroids", "1.0", 1.0);
pub static LEVELS: Target = target("levels", "1.0", 1.0);
pub static MERGE: Target = target("merge, 30,000 corners", "1.5", 1.5);
pub static APART: Target = target("merge apart, against ours in place", "1.1", 1.1);
pub static LIMITS: Target = target("limits, against our response", "4", 4.0);
pub static FRAMES: Target = target("frame of a board above 96 x 96, lists of w h / 8 places", "0.25", 0.25);

static ALL: [&Target; 17] = [
    &PHOTOGRAPHS,
    &BOARDS,
    &NOISE,
    &THREE,
    &THREE_ABOVE,
    &SMALL,
    &RESPONSE_C,
    &MILLION,
    &HOSTILE, //
    &RESPONSE,
    &PEAKS,
    &CENTROIDS,
    &LEVELS,
    &MERGE,
    &APART,
    &LIMITS,
    &FRAMES,
];

/// Every target, with what was measured.
pub fn table(counts: &[Count]) -> Table {
    let head = ["target, ratio to the Rust where nothing else is said", "at most", "measured", ""];
    let row = |target: &&Target| {
        let its: Vec<_> = counts.iter().filter(|count| std::ptr::eq(count.target, *target)).collect();
        let [measured, met] = judged(&its);
        vec![target.what.into(), target.said.into(), measured, met]
    };
    Table { head: head.map(String::from).into(), rows: ALL.iter().map(row).collect(), counts: Vec::new() }
}

fn judged(counts: &[&Count]) -> [String; 2] {
    if counts.is_empty() {
        return ["not measured".into(), String::new()];
    }
    let least = counts.iter().map(|count| count.value).fold(f64::INFINITY, f64::min);
    let greatest = counts.iter().map(|count| count.value).fold(0.0, f64::max);
    let range =
        if counts.len() == 1 { shown(least) } else { format!("{} to {}", shown(least), shown(greatest)) };
    let missed = counts.iter().filter(|count| count.value > count.most).count();
    let met = if missed == 0 { "met".into() } else { format!("not met by {missed} of {}", counts.len()) };
    [range, met]
}

fn shown(value: f64) -> String {
    if value.is_finite() {
        ratio(value)
    } else {
        "not done".into()
    }
}
