//! The response of whole images and of boxes, pixels retouched, and limits.
use crate::interleaved::Turns;
use crate::library;
use crate::pictures::{self, board, Picture};
use crate::settings::{Settings, NATIVE, SIMD};
use crate::table::Column::{Ratio, Time};
use crate::table::{Measured, Table};
use crate::targets;
use oracle::generate::Rng;
use oracle::image::Area;
use oracle::response::map_of;

/// The sides of the boxes: of a retouched cell, small ones, and those of seeds on three levels with either ring.
const BOXES: [usize; 5] = [1, 8, 16, 25, 33];

fn named(picture: &Picture) -> String {
    format!("{}, ring {}", picture.sides(), picture.params.ring)
}

fn same(a: &[f32], b: &[f32]) -> bool {
    a.len() == b.len() && a.iter().zip(b).all(|(a, b)| a.to_bits() == b.to_bits())
}

/// Of whole images.
pub fn whole(settings: &Settings) -> Table {
    let boards = pictures::boards(5).chain(pictures::boards(10));
    let rows = boards.map(|picture| {
        let image = picture.image();
        let mut c = vec![1.0; picture.cells()];
        library::c_response(image, picture.params.ring, &mut c);
        let (turns, due) = turns(&picture, image.whole(), settings);
        assert!(same(&c, &due));
        let turns = turns.way("C", || {
            library::c_response(image, picture.params.ring, &mut c);
            0
        });
        Measured::new(named(&picture), turns.best(settings.effort))
            .towards(&targets::RESPONSE, "ours", "Rust")
            .towards(&targets::RESPONSE_C, "ours", "C")
    });
    let ours = [Time("Rust"), Time("ours"), Ratio("ours", "Rust"), Time("C"), Ratio("ours", "C")];
    let simd = [Time(SIMD), Ratio("ours", SIMD), Time(NATIVE), Ratio("ours", NATIVE)];
    Table::of("response of", &[&ours[..], &simd].concat(), rows.collect())
}

/// Of boxes in the middle of a board.
pub fn boxes(settings: &Settings) -> Table {
    let boards = [5, 10].map(|ring| board(640, 480, ring));
    let rows = boards.iter().flat_map(|picture| {
        BOXES.map(|side| {
            let [x0, y0] = [picture.width, picture.height].map(|n| n / 2 - side / 2);
            let (turns, _) = turns(picture, Area { x0, y0, x1: x0 + side, y1: y0 + side }, settings);
            Measured::new(format!("{side} x {side} of {}", named(picture)), turns.best(settings.effort))
        })
    });
    let columns = [Time("Rust"), Time("ours"), Ratio("ours", "Rust"), Time(SIMD), Time(NATIVE)];
    Table::of("response of a box", &columns, rows.collect())
}

/// The original's, ours and its `simd` builds', compared; and the response.
fn turns<'a>(picture: &'a Picture, area: Area, settings: &'a Settings) -> (Turns<'a>, Vec<f32>) {
    let (image, params) = (picture.image(), &picture.params);
    let due = map_of(image, params.ring, area).data().to_vec();
    let mut map = vec![1.0; due.len()];
    library::response_of(image, params.ring, area, &mut map);
    assert!(same(&map, &due));
    let mut turns =
        Turns::default().way("Rust", move || map_of(image, params.ring, area).width()).way("ours", {
            let mut map = map.clone();
            move || library::response_of(image, params.ring, area, &mut map).0
        });
    for simd in &settings.simd {
        map.fill(1.0);
        simd.response(image, params, area, &mut map);
        assert!(same(&map, &due));
        turns = turns.way(simd.name, move || simd.response(image, params, area, &mut []));
    }
    (turns, due)
}

/// A pixel is changed, and the map redone: the original computes all of it, ours what the pixel touches.
pub fn retouch(settings: &Settings) -> Table {
    let sizes = [(96, 96), (4096, 4096)];
    let pictures = [5, 10].into_iter().flat_map(|ring| sizes.map(|(w, h)| board(w, h, ring)));
    let rows =
        pictures.flat_map(|picture| [false, true].map(|anywhere| retouched(&picture, anywhere, settings)));
    Table::of("a pixel retouched in", &[Time("Rust"), Time("ours")], rows.collect())
}

/// The pixel in the middle, or one anywhere.
fn retouched(picture: &Picture, anywhere: bool, settings: &Settings) -> Measured {
    let (w, h, ring) = (picture.width, picture.height, picture.params.ring);
    let mut rng = Rng::new(8);
    let places = if anywhere {
        (0..1024).map(|_| (rng.below(w), rng.below(h))).collect()
    } else {
        vec![(w / 2, h / 2)]
    };
    let mut changed = Picture { pixels: picture.pixels.clone(), ..*picture };
    let mut map = map_of(picture.image(), ring, picture.image().whole()).data().to_vec();
    for &(x, y) in &places {
        library::retouch(&mut changed.pixels, w, h, ring, &mut map, x, y, 255 - picture.pixels[y * w + x]);
    }
    assert!(same(&map, map_of(changed.image(), ring, changed.image().whole()).data()));
    let mut turn = 0;
    let turns = Turns::default()
        .way("Rust", || map_of(picture.image(), ring, picture.image().whole()).width())
        .way("ours", || {
            let (x, y) = places[turn % places.len()];
            turn += 1;
            library::retouch(&mut changed.pixels, w, h, ring, &mut map, x, y, turn as u8)
        });
    let which = if anywhere { "a pixel anywhere" } else { "the pixel in the middle" };
    Measured::new(format!("{}, {which}", named(picture)), turns.best(settings.effort))
}

/// The limits of the responses where each pixel is known within three grey levels either way, against our response.
pub fn limits(settings: &Settings) -> Table {
    let rows = [5, 10].map(|ring| limits_of(&board(1024, 1024, ring), settings));
    let columns = [Time("response"), Time("limits"), Ratio("limits", "response")];
    Table::of("limits of", &columns, rows.into())
}

fn limits_of(picture: &Picture, settings: &Settings) -> Measured {
    let (w, h, ring, image) = (picture.width, picture.height, picture.params.ring, picture.image());
    let low: Vec<u8> = image.pixels.iter().map(|v| v.saturating_sub(3)).collect();
    let high: Vec<u8> = image.pixels.iter().map(|v| v.saturating_add(3)).collect();
    let mut map = map_of(image, ring, image.whole()).data().to_vec();
    let (mut lows, mut highs) = (vec![1; w * h], vec![1; w * h]);
    let fifths: Vec<i32> = map.iter().map(|cell| (5.0 * cell).round() as i32).collect();
    library::limits(image.pixels, image.pixels, w, h, ring, &mut lows, &mut highs);
    assert!(lows == fifths && highs == fifths);
    library::limits(&low, &high, w, h, ring, &mut lows, &mut highs);
    assert!((0..w * h).all(|i| lows[i] <= fifths[i] && fifths[i] <= highs[i]));
    let turns = Turns::default()
        .way("response", || {
            library::response(image, ring, &mut map);
            0
        })
        .way("limits", || {
            library::limits(&low, &high, w, h, ring, &mut lows, &mut highs);
            0
        });
    Measured::new(named(picture), turns.best(settings.effort)).towards(&targets::LIMITS, "limits", "response")
}
