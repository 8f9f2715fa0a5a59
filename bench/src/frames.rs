//! Whole frames: photographs, boards, noise and small ones.
use crate::interleaved::Turns;
use crate::library::{self, bits, Buffers};
use crate::pictures::{self, Kind, Picture};
use crate::settings::{Settings, NATIVE, SIMD};
use crate::table::Column::{self, Ratio, Time};
use crate::table::{Measured, Table};
use crate::targets::{self, Target};
use oracle::frame::{by_orchestrator, corners_of, with_lists};
use oracle::params::Params;
use oracle::timing::ORIGINAL;
use oracle::Corner;
use std::hint::black_box;

/// The places of a list in the targets.
const PLACES: usize = 4096;
const LONG: &str = "w h / 8 places";
const CLEAR: &str = "clearing the map";

pub fn table(settings: &Settings) -> Table {
    let noise = |(w, h)| [0.0, 30.0].map(|threshold| pictures::noise(w, h, threshold));
    let photographs = settings.photo.iter().flat_map(|path| pictures::photographs(path));
    let boards = pictures::boards(5).chain(pictures::boards(10));
    let noises = [(640, 480), (4096, 4096)].into_iter().flat_map(noise);
    let all = photographs.chain(boards).chain(noises).chain(pictures::small());
    let rows = all.flat_map(|picture| rows(&picture, settings));
    let missing = "photographs: not measured, no opencv-doc or no JPEG decoder on this machine";
    let line = settings.photo.is_none().then(|| missing.into());
    Table::of("whole frame", &columns(settings), rows.collect()).with_line(line)
}

fn columns(settings: &Settings) -> Vec<Column> {
    let mut columns = vec![Time("Rust"), Time("ours"), Ratio("ours", "Rust"), Time(LONG), Time(CLEAR)];
    columns.extend([Time(SIMD), Ratio("ours", SIMD), Time(NATIVE), Ratio("ours", NATIVE)]);
    if settings.before.is_some() {
        columns.extend([Time("before"), Ratio("ours", "before")]);
    }
    columns
}

fn rows(picture: &Picture, settings: &Settings) -> Vec<Measured> {
    picture.level_counts().iter().map(|&levels| row(picture, levels, settings)).collect()
}

/// The places of lists that are asked to hold so many corners: those of the targets, or more where they are needed.
pub fn places(corners: usize) -> usize {
    corners.next_power_of_two().max(PLACES)
}

/// The time of the original is the lesser of two: its functions one after the other, and its own orchestrator.
fn row(picture: &Picture, levels: u32, settings: &Settings) -> Measured {
    let (image, params) = (picture.image(), Params { levels, ..picture.params });
    let lists = |lists: oracle::pass::Lists| (lists.seeds.len().max(lists.found.len()), lists.corners);
    let (most, due) = with_lists(image, &params, &ORIGINAL, lists);
    let places = places(most);
    let [mut short, mut former, mut long] =
        [places, places, picture.cells() / 8].map(|places| Buffers::new(picture.cells(), places));
    compare(picture, &params, &due, settings, &mut [&mut short, &mut long]);
    let mut map = vec![1.0f32; picture.cells()];
    let mut turns = Turns::default()
        .way("Rust", || corners_of(image, &params, &ORIGINAL).len())
        .way("Rust", || by_orchestrator(image, &params).len())
        .way("ours", || library::frame(image, &params, &mut short))
        .way(LONG, || library::frame(image, &params, &mut long))
        .way(CLEAR, || clear(&mut map));
    for simd in &settings.simd {
        for orchestrated in [false, true] {
            turns = turns.way(simd.name, move || simd.frame(image, &params, orchestrated, &mut []));
        }
    }
    if let Some(find) = settings.before {
        turns = turns.way("before", move || library::frame_by(find, image, &params, &mut former));
    }
    let input = named(picture, levels, due.len(), places);
    counted(picture, levels, Measured::new(input, turns.best(settings.effort)))
}

pub fn clear(map: &mut Vec<f32>) -> usize {
    black_box(&mut *map).fill(0.0);
    black_box(map).len()
}

/// Everything that is timed gives the same corners, bit for bit.
fn compare(
    picture: &Picture,
    params: &Params,
    due: &[Corner],
    settings: &Settings,
    buffers: &mut [&mut Buffers; 2],
) {
    let image = picture.image();
    for buffers in buffers {
        let n = library::frame(image, params, buffers);
        assert_eq!(buffers.corners.bits(n), bits(due));
        if let Some(find) = settings.before {
            let n = library::frame_by(find, image, params, buffers);
            assert_eq!(buffers.corners.bits(n), bits(due));
        }
    }
    assert_eq!(by_orchestrator(image, params).len(), due.len());
    for simd in &settings.simd {
        let mut floats = vec![0.0; 3 * due.len()];
        assert_eq!(simd.frame(image, params, false, &mut floats), due.len());
        assert_eq!(simd.frame(image, params, true, &mut []), due.len());
        assert!(floats.chunks(3).zip(bits(due)).all(|(c, due)| [c[0], c[1], c[2]].map(f32::to_bits) == due));
    }
}

pub fn named(picture: &Picture, levels: u32, corners: usize, places: usize) -> String {
    let more = if places > PLACES { format!(", {places} places") } else { String::new() };
    let plural = |n: usize, what| if n == 1 { format!("1 {what}") } else { format!("{n} {what}s") };
    let [levels, corners] = [plural(levels as usize, "level"), plural(corners, "corner")];
    format!("{}, {levels}, {corners}{more}", picture.name())
}

/// A row with the targets that it counts towards.
fn counted(picture: &Picture, levels: u32, row: Measured) -> Measured {
    let is_large = picture.width > 96;
    let row = match target(picture, levels) {
        Some(target) => {
            // ours / Rust is at most 1.5 of clearing / Rust where ours is at most 1.5 of clearing
            let clearing = if levels > 1 { row.times.ratio(CLEAR, "Rust").unwrap_or(0.0) } else { 0.0 };
            row.towards_most(target, "ours", "Rust", target.most.max(1.5 * clearing))
        }
        None => row,
    };
    match picture.kind {
        Kind::Board if is_large => row.towards(&targets::FRAMES, LONG, "Rust"),
        _ if !is_large => row.towards(&targets::SMALL, "ours", "before"),
        _ => row,
    }
}

fn target(picture: &Picture, levels: u32) -> Option<&'static Target> {
    match (picture.kind, levels, picture.width) {
        (_, _, ..=96) => None,
        (Kind::Photograph, 1, _) => Some(&targets::PHOTOGRAPHS),
        (Kind::Board, 1, _) => Some(&targets::BOARDS),
        (Kind::Noise, 1, _) => Some(&targets::NOISE),
        (_, 3, 640) => Some(&targets::THREE),
        _ => Some(&targets::THREE_ABOVE),
    }
}
