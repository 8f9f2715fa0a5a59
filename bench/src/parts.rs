//! What a frame costs by its parts: each stage's function for C, on the data that the frame hands to it.
use crate::frames::{clear, named, places};
use crate::interleaved::Turns;
use crate::library::{self, Buffers, List};
use crate::pictures::{self, Picture};
use crate::settings::Settings;
use crate::table::{digits, milliseconds, Table};
use oracle::frame::with_lists;
use oracle::params::Params;
use oracle::pass::{Lists, View};
use oracle::timing::ORIGINAL;

const WHOLE: &str = "whole frame";
const PARTS: [&str; 6] = ["pyramid", "response", "peaks", "centroids", "merging", "clearing"];

pub fn table(settings: &Settings) -> Table {
    let photographs = settings.photo.iter().flat_map(|path| pictures::photographs(path));
    let boards = pictures::boards(5).filter(|picture| picture.width > 96);
    let noises = [pictures::noise(640, 480, 0.0), pictures::noise(4096, 4096, 30.0)];
    let rows = photographs.chain(boards).chain(noises).flat_map(|picture| rows(&picture, settings)).collect();
    let head =
        std::iter::once("frame, ms and percent of the whole").chain([WHOLE]).chain(PARTS).chain(["other"]);
    Table { head: head.map(String::from).collect(), rows, counts: Vec::new() }
}

fn rows(picture: &Picture, settings: &Settings) -> Vec<Vec<String>> {
    picture.level_counts().iter().map(|&levels| row(picture, levels, settings)).collect()
}

fn row(picture: &Picture, levels: u32, settings: &Settings) -> Vec<String> {
    let params = Params { levels, ..picture.params };
    let ((whole, parts), name) = with_lists(picture.image(), &params, &ORIGINAL, |lists| {
        let places = places(lists.seeds.len().max(lists.found.len()));
        let name = named(picture, levels, lists.corners.len(), places);
        (measured(picture, &params, &lists, places, settings), name)
    });
    let other = whole - parts.iter().sum::<f64>();
    let digits = digits(whole);
    let share = |part: f64| format!("{} ({} %)", rounded(part, digits), rounded(100.0 * part / whole, 0));
    let shares = parts.into_iter().chain([other]).map(share);
    [name, milliseconds(whole)].into_iter().chain(shares).collect()
}

/// Without the sign of what is rounded to 0 from below.
fn rounded(value: f64, digits: usize) -> String {
    let text = format!("{value:.digits$}");
    match text.strip_prefix('-') {
        Some(zero) if zero.chars().all(|c| "0.".contains(c)) => zero.into(),
        _ => text,
    }
}

/// What the stages of a map work in.
struct Work {
    map: Vec<f32>,
    list: List,
}

impl Work {
    fn new(cells: usize, places: usize) -> Self {
        Self { map: vec![0.0; cells], list: List::empty(places) }
    }

    /// The first of the stages of each map of a frame, map by map as the frame has them: one, two, or all three.
    fn stages(&mut self, views: &[View], p: &Params, count: usize) -> usize {
        let mut found = 0;
        for view in views {
            let (w, h) = library::response_of(view.image, p.ring, view.area, &mut self.map);
            if count > 1 {
                let n = library::peaks(&self.map[..w * h], w, h, p, &mut self.list);
                found += n;
                if count > 2 {
                    library::centroids(&self.map[..w * h], w, h, p.centroid, &mut self.list, n);
                }
            }
        }
        found
    }
}

/// The times of the whole frame and of its parts. Peaks and centroids are what the stages of all maps take longer with
/// them than without: so each finds its map where the stage before left it, as in a frame. The corners that are merged
/// are the original's, which have the same bits; they are copied first, since merging changes them.
fn measured(
    picture: &Picture,
    p: &Params,
    lists: &Lists,
    places: usize,
    settings: &Settings,
) -> (f64, [f64; 6]) {
    let (image, cells, found) = (picture.image(), picture.cells(), List::of(&lists.found));
    let [mut one, mut two, mut three] = [(); 3].map(|()| Work::new(cells, places));
    let [mut frame, mut cleared] = [(); 2].map(|()| Buffers::new(cells, places));
    let (mut levels, mut merged) = (vec![0; cells], found.clone());
    let times = Turns::default()
        .way(WHOLE, || library::frame(image, p, &mut frame))
        .way("pyramid", || library::levels(image, p, &mut levels))
        .way("response", || one.stages(&lists.views, p, 1))
        .way("peaks", || two.stages(&lists.views, p, 2))
        .way("centroids", || three.stages(&lists.views, p, 3))
        .way("merging", || {
            merged.copy_from(&found);
            library::merge(&mut merged, lists.found.len(), p.merge)
        })
        .way("clearing", || {
            cleared.seeds.clear();
            cleared.corners.clear();
            clear(&mut cleared.map)
        })
        .best(settings.effort);
    let of = |way| times.of(way).expect("a way");
    let [response, to_peaks, to_centroids] = ["response", "peaks", "centroids"].map(of);
    let [pyramid, merging, clearing] = ["pyramid", "merging", "clearing"].map(of);
    (of(WHOLE), [pyramid, response, to_peaks - response, to_centroids - to_peaks, merging, clearing])
}
