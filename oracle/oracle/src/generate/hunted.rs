//! Hunted frames: those on which a wrong road (RULES 15.3) gives another list. Random frames seldom do.
//! (The fourth wrong road, "above the threshold", shows only on maps with NaN cells: see sample/peaks.rs.)
use super::images::{noise, Board};
use super::Rng;
use crate::buffers::same_list;
use crate::frame::corners_of;
use crate::params::{Params, PLAIN};
use crate::pass::{Steps, STEPS};
use crate::stream::Upload;
use crate::wrong;

/// The wrong roads that a frame can show.
#[derive(Clone, Copy, Debug, PartialEq, Eq)]
pub enum Road {
    ByDistance,
    HalfToEven,
    EqualFifths,
}

pub const ROADS: [Road; 3] = [Road::ByDistance, Road::HalfToEven, Road::EqualFifths];

impl Road {
    fn steps(self) -> &'static Steps {
        match self {
            Road::ByDistance => &wrong::BY_DISTANCE,
            Road::HalfToEven => &wrong::HALF_TO_EVEN,
            Road::EqualFifths => &wrong::EQUAL_FIFTHS,
        }
    }

    /// Frame `number` of the hunt for this road.
    pub fn frame(self, number: u64) -> Upload {
        match self {
            Road::ByDistance => merge_frame(number),
            Road::HalfToEven => box_frame(number),
            Road::EqualFifths => tie_frame(number),
        }
    }

    /// Whether the wrong road gives another list on a frame.
    pub fn shows(self, upload: &Upload) -> bool {
        let list = |steps| corners_of(upload.image(), &upload.params, steps);
        !same_list(&list(&STEPS), &list(self.steps()))
    }
}

const MERGES: u64 = 11;
const BOXES: u64 = 12;
const TIES: u64 = 13;

/// Many corners at whole places or a last bit beside them, and a merge radius of a few pixels.
fn merge_frame(number: u64) -> Upload {
    let mut rng = Rng::of_case(MERGES, 0, number);
    let (width, height) = (rng.from_to(24, 56), rng.from_to(24, 56));
    let pixels = noise(&mut rng, width * height, 0, 256);
    let merge = rng.from_to(2, 9) as f32;
    let params = Params { window: 1, merge, ..PLAIN };
    Upload { width, height, params, pixels }
}

/// A dim board on two levels: seeds whose doubled coordinate is exactly half way.
fn box_frame(number: u64) -> Upload {
    let mut rng = Rng::of_case(BOXES, 0, number);
    let (width, height) = (rng.from_to(32, 64), rng.from_to(32, 64));
    let board = Board {
        cell: 8.0 + rng.unit() * 10.0,
        turn: rng.unit(),
        soft: 1.0 + rng.unit() * 3.0,
        noise: rng.below(2),
        dark: 100.0,
        bright: 102.0 + rng.below(6) as f64,
    };
    let pixels = board.image(&mut rng, width, height, 0);
    let search = rng.below(3) as u32;
    let params = Params { window: 1, centroid: 1, levels: 2, search, ..PLAIN };
    Upload { width, height, params, pixels }
}

/// Faint noise: equal exact values abound.
fn tie_frame(number: u64) -> Upload {
    let mut rng = Rng::of_case(TIES, 0, number);
    let (width, height) = (rng.from_to(13, 40), rng.from_to(13, 40));
    let (least, spread) = (rng.from_to(20, 200), rng.from_to(2, 6));
    let pixels = noise(&mut rng, width * height, least, spread);
    let window = rng.from_to(1, 3) as u32;
    let params = Params { window, ..PLAIN };
    Upload { width, height, params, pixels }
}

/// The first frames of each hunt that show their road, as `oracle_hunt` finds them.
pub const FOUND: [(Road, u64); 18] = [
    (Road::ByDistance, 10873),
    (Road::ByDistance, 35128),
    (Road::ByDistance, 68603),
    (Road::ByDistance, 115_532),
    (Road::ByDistance, 131_422),
    (Road::ByDistance, 153_316),
    (Road::HalfToEven, 880),
    (Road::HalfToEven, 5886),
    (Road::HalfToEven, 7247),
    (Road::HalfToEven, 13656),
    (Road::HalfToEven, 16539),
    (Road::HalfToEven, 19923),
    (Road::EqualFifths, 32225),
    (Road::EqualFifths, 32984),
    (Road::EqualFifths, 33297),
    (Road::EqualFifths, 38411),
    (Road::EqualFifths, 40046),
    (Road::EqualFifths, 47279),
];

#[cfg(test)]
mod tests {
    use super::*;

    #[test]
    fn the_frames_found_show_their_road() {
        for (road, number) in FOUND {
            assert!(road.shows(&road.frame(number)), "{road:?} {number}");
        }
    }
}
