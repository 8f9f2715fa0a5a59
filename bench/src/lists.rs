//! What is done with lists of corners: peaks, enough peaks, centroids, merging; and the levels.
use crate::interleaved::Turns;
use crate::library::{self, bits, List};
use crate::pictures::{self, board};
use crate::settings::Settings;
use crate::table::Column::{Ratio, Time};
use crate::table::{Measured, Table};
use crate::targets;
use oracle::generate::Rng;
use oracle::params::Params;
use oracle::pyramid::{levels_of, pixels_above};
use oracle::timing::Subject;
use oracle::{merge, Corner};

const USUAL: [crate::table::Column; 3] = [Time("Rust"), Time("ours"), Ratio("ours", "Rust")];

fn named(s: &Subject) -> String {
    format!("{} x {}, ring {}", s.width, s.height, s.params.ring)
}

/// The boards with ring 5.
fn subjects() -> impl Iterator<Item = Subject> {
    pictures::boards(5).map(|picture| picture.subject())
}

/// The peaks of a map, in lists of any length.
pub fn peaks(settings: &Settings) -> Table {
    let all = subjects().chain(pictures::boards(10).map(|picture| picture.subject()));
    let rows = all.flat_map(|s| {
        let cells = s.pixels.len();
        let lists =
            [("", cells / 8), (", a place for every cell", cells), (", no place to spare", s.peaks.len())];
        lists.map(|(how, places)| peaks_of(&s, places, how, settings))
    });
    Table::of("peaks of", &USUAL, rows.collect())
}

fn peaks_of(s: &Subject, places: usize, how: &str, settings: &Settings) -> Measured {
    let mut list = List::empty(places);
    let mut ours = || library::peaks(s.map.data(), s.width, s.height, &s.params, &mut list);
    let n = ours();
    let turns = Turns::default().way("Rust", || s.find_peaks().len()).way("ours", ours);
    let times = turns.best(settings.effort);
    assert_eq!(list.bits(n), bits(&s.peaks));
    let input = format!("{}, {n} peaks{how}", named(s));
    Measured::new(input, times).towards(&targets::PEAKS, "ours", "Rust")
}

/// Whether there are 100 peaks, against all peaks.
pub fn enough(settings: &Settings) -> Table {
    let rows = [5, 10].map(|ring| enough_of(&board(4096, 4096, ring).subject(), 100, settings));
    let columns =
        [Time("all, Rust"), Time("all, ours"), Time("enough, ours"), Ratio("enough, ours", "all, ours")];
    Table::of("enough peaks of", &columns, rows.into())
}

fn enough_of(s: &Subject, wanted: usize, settings: &Settings) -> Measured {
    let (w, h, map) = (s.width, s.height, s.map.data());
    let rows = library::enough_peaks(map, w, h, &s.params, wanted);
    assert_eq!(rows, s.peaks[wanted - 1].y as usize - s.params.border() + 1);
    let mut list = List::empty(w * h / 8);
    let turns = Turns::default()
        .way("all, Rust", || s.find_peaks().len())
        .way("all, ours", || library::peaks(map, w, h, &s.params, &mut list))
        .way("enough, ours", || library::enough_peaks(map, w, h, &s.params, wanted));
    let input = format!("{}, {wanted} of {} peaks, in {rows} rows", named(s), s.peaks.len());
    Measured::new(input, turns.best(settings.effort))
}

/// Both copy the list of peaks first.
pub fn centroids(settings: &Settings) -> Table {
    Table::of("centroids of", &USUAL, subjects().map(|s| centroids_of(&s, settings)).collect())
}

fn centroids_of(s: &Subject, settings: &Settings) -> Measured {
    let (before, radius) = (List::of(&s.peaks), s.params.centroid);
    let mut list = before.clone();
    let turns = Turns::default().way("Rust", || s.localize().len()).way("ours", || {
        list.copy_from(&before);
        library::centroids(s.map.data(), s.width, s.height, radius, &mut list, s.peaks.len());
        0
    });
    let times = turns.best(settings.effort);
    assert_eq!(list.bits(s.peaks.len()), bits(&s.localize()));
    let input = format!("{}, {} peaks, radius {radius}", named(s), s.peaks.len());
    Measured::new(input, times).towards(&targets::CENTROIDS, "ours", "Rust")
}

/// Points within a square of this side, anywhere.
pub fn anywhere(n: usize, side: f64) -> Vec<Corner> {
    let mut rng = Rng::new(7);
    let mut number = |most: f64| (rng.unit() * most) as f32;
    (0..n).map(|_| Corner::new(number(side), number(side), number(1000.0))).collect()
}

/// Lists that are merged: of boards, and others.
pub fn merging(settings: &Settings) -> Table {
    let boards = subjects().map(|s| merged(&s.found, 3.0, "of a board", settings));
    let spread = merged(&anywhere(30_000, 4095.0), 3.0, "anywhere on 4096 x 4096", settings);
    let close = merged(&anywhere(30_000, 10.0), 3.0, "within 10 pixels", settings);
    let rows = boards.chain([spread.towards(&targets::MERGE, "ours", "Rust"), close]);
    Table::of("merge of", &USUAL, rows.collect())
}

/// Both copy the list first.
fn merged(corners: &[Corner], radius: f32, what: &str, settings: &Settings) -> Measured {
    let before = List::of(corners);
    let mut list = before.clone();
    let n = library::merge(&mut list, corners.len(), radius);
    assert_eq!(list.bits(n), bits(&merge::original(corners, radius)));
    let turns = Turns::default().way("Rust", || merge::original(corners, radius).len()).way("ours", || {
        list.copy_from(&before);
        library::merge(&mut list, corners.len(), radius)
    });
    let input = format!("{} corners, {what}, radius {radius}, {n} stay", corners.len());
    Measured::new(input, turns.best(settings.effort))
}

/// A list merged in place and into a separate buffer.
pub fn apart(settings: &Settings) -> Table {
    let [small, large] = [1024, 4096].map(|side| board(side, side, 5).subject().found);
    let spread = merged_apart(&anywhere(30_000, 4095.0), 3.0, "anywhere on 4096 x 4096", settings);
    let boards = [small, large].map(|corners| merged_apart(&corners, 3.0, "of a board", settings));
    let columns = [Time("in place, Rust"), Time("in place"), Time("apart"), Ratio("apart", "in place")];
    Table::of("merge apart of", &columns, boards.into_iter().chain([spread]).collect())
}

/// All three copy the list first.
fn merged_apart(corners: &[Corner], radius: f32, what: &str, settings: &Settings) -> Measured {
    let (before, count) = (List::of(corners), corners.len());
    let (mut list, mut left) = (before.clone(), before.clone());
    let n = library::merge(&mut list, count, radius);
    assert_eq!(library::merge_apart(&before, count, radius, &mut left), n);
    assert_eq!(left.bits(count), list.bits(count));
    let turns = Turns::default()
        .way("in place, Rust", || merge::original(corners, radius).len())
        .way("in place", || {
            list.copy_from(&before);
            library::merge(&mut list, count, radius)
        })
        .way("apart", || {
            left.copy_from(&before);
            library::merge_apart(&before, count, radius, &mut left)
        });
    let input = format!("{count} corners, {what}, radius {radius}");
    Measured::new(input, turns.best(settings.effort)).towards(&targets::APART, "apart", "in place")
}

/// Three levels of a board.
pub fn levels(settings: &Settings) -> Table {
    let rows = pictures::boards(5).map(|picture| {
        let (image, p) = (picture.image(), Params { levels: 3, ..picture.params });
        let mut ours = vec![0; picture.cells()];
        let mut scratch = box_image_pyramid::PyramidBuffers::new();
        let theirs = levels_of(image, &p, &mut scratch);
        let above = pixels_above(&theirs);
        assert_eq!(library::levels(image, &p, &mut ours), theirs.levels.len());
        assert_eq!(ours[..above.len()], above);
        let count = || levels_of(image, &p, &mut box_image_pyramid::PyramidBuffers::new()).levels.len();
        let turns = Turns::default().way("Rust", count).way("ours", || library::levels(image, &p, &mut ours));
        let input = format!("{}, {} levels", picture.sides(), theirs.levels.len());
        Measured::new(input, turns.best(settings.effort)).towards(&targets::LEVELS, "ours", "Rust")
    });
    Table::of("levels of", &USUAL, rows.collect())
}
