//! Frames for `corners`: a stream and what is printed for it.
use super::file::{kind, Body, File};
use crate::frame::with_lists;
use crate::generate::frames::{damaged_stream, frame, Shape};
use crate::generate::images::Board;
use crate::generate::{hunted, refused_streams, Rng};
use crate::image::Image;
use crate::params::{Params, PLAIN};
use crate::pass::STEPS;
use crate::program::{corners, CORNERS};
use crate::refusal::number_of;
use crate::response::map_of;
use crate::stream::{write, Upload};

const SUBJECT: u64 = 101;
const RANDOM: u64 = 2000;
const LARGE: u64 = 8;
const FULL: u64 = 5;
const DAMAGED: u64 = 300;

fn put(file: &mut File, stream: &[u8]) {
    let mut body = Body::default();
    body.bytes(stream).bytes(corners(stream).as_bytes());
    file.record(kind::FRAME, number_of(&CORNERS.run(stream).0), &body);
}

/// The side of a last level that is crowded with peaks.
const CROWDED: usize = 48;

/// A fine board of low contrast: a third of its responses are positive.
fn crowded(number: u64) -> Vec<u8> {
    let mut rng = Rng::new(number);
    let board = Board {
        cell: 3.45 + rng.unit() * 0.1,
        turn: 0.42 + rng.unit() * 0.04,
        soft: 0.0,
        noise: rng.below(4),
        dark: 83.0,
        bright: 173.0,
    };
    board.image(&mut rng, CROWDED, CROWDED, 0)
}

/// An image of twice the side that halves to this one. A fine check pattern over it keeps its own responses low by
/// pulling the means of ring and cross apart.
fn doubled(small: &[u8]) -> Vec<u8> {
    let side = 2 * CROWDED;
    let pixel = |i: usize| {
        let (x, y) = (i % side, i / side);
        let v = small[y / 2 * CROWDED + x / 2];
        if (x + y) % 2 == 0 {
            v + 77
        } else {
            v - 77
        }
    };
    (0..side * side).map(pixel).collect()
}

/// The responses of a crowded level, largest first.
fn responses(small: &[u8]) -> Vec<f32> {
    let image = Image { pixels: small, width: CROWDED, height: CROWDED };
    let mut cells = map_of(image, 5, image.whole()).data().to_vec();
    cells.sort_by(|a, b| b.total_cmp(a));
    cells
}

/// How many corners a frame finds before merging.
fn found(upload: &Upload) -> usize {
    with_lists(upload.image(), &upload.params, &STEPS, |lists| lists.found.len())
}

/// A frame of one level or two whose last level has exactly `count` peaks, by a threshold between its responses; with
/// two levels the corners all have a place.
fn with_peaks(count: usize, levels: u32) -> Upload {
    for number in 0.. {
        let small = crowded(number);
        let cells = responses(&small);
        if cells[count] > 0.0 && cells[count - 1] > cells[count] {
            let params = Params { threshold: cells[count], merge: 8.0, levels, ..PLAIN };
            let pixels = if levels == 1 { small } else { doubled(&small) };
            let side = CROWDED << (levels - 1);
            let upload = Upload { width: side, height: side, params, pixels };
            if levels == 1 || found(&upload) <= 512 {
                return upload;
            }
        }
    }
    unreachable!()
}

/// A frame of two levels whose seeds have a place, and whose patches' corners do not: wide boxes over the same corners.
fn with_full_patches() -> Upload {
    let board = Board { cell: 15.0, turn: 0.1, soft: 2.0, noise: 0, dark: 40.0, bright: 200.0 };
    Upload {
        width: 64,
        height: 64,
        params: Params { levels: 2, search: 8, ..PLAIN },
        pixels: board.image(&mut Rng::new(1), 64, 64, 0),
    }
}

/// The 512 places of `corners` for corners and for seeds: just full, and one too few.
fn at_the_limit(file: &mut File) {
    for levels in [1, 2] {
        for count in [511, 512, 513] {
            put(file, &write(&with_peaks(count, levels)));
        }
    }
    put(file, &write(&with_full_patches()));
}

pub fn file(seed: u64) -> File {
    let mut file = File::new("frames.bin");
    for case in refused_streams::cases() {
        put(&mut file, &case.stream);
    }
    for case in 0..RANDOM + LARGE + FULL {
        let mut rng = Rng::of_case(seed, SUBJECT, case);
        let shape = match case {
            0..RANDOM if rng.once_in(16) => Shape::Thin,
            0..RANDOM => Shape::Small,
            _ if case < RANDOM + LARGE => Shape::Large,
            _ => Shape::Full,
        };
        put(&mut file, &write(&frame(&mut rng, shape)));
    }
    for case in 0..DAMAGED {
        put(&mut file, &damaged_stream(seed, case));
    }
    for (road, number) in hunted::FOUND {
        put(&mut file, &write(&road.frame(number)));
    }
    at_the_limit(&mut file);
    file
}

#[cfg(test)]
mod tests {
    use super::*;

    #[test]
    fn the_limit_of_512_is_met() {
        for levels in [1, 2] {
            let text = |count| corners(&write(&with_peaks(count, levels)));
            assert!(text(512).starts_with("corners "));
            assert_eq!(text(513), "refused 10\n");
        }
        let full = with_full_patches();
        let seeds = with_lists(full.image(), &full.params, &STEPS, |lists| lists.seeds.len());
        assert!(seeds <= 512 && found(&full) > 512, "{seeds} seeds, {} corners", found(&full));
    }
}
