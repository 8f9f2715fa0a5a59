//! The frames that are measured, but for the hostile ones.
use crate::photograph::{self, Grey};
use oracle::centroid::centroids;
use oracle::generate::images::{self, Board};
use oracle::generate::Rng;
use oracle::image::Image;
use oracle::params::{Params, PLAIN};
use oracle::peaks::peaks_of;
use oracle::response::map_of;
use oracle::timing::Subject;

/// The sides of boards.
pub const SIDES: [(usize, usize); 4] = [(96, 96), (640, 480), (1600, 1200), (4096, 4096)];

const BOARD: Board = Board { cell: 24.0, turn: 0.15, soft: 2.0, noise: 3, dark: 25.0, bright: 230.0 };

#[derive(Clone, Copy, PartialEq, Eq)]
pub enum Kind {
    Photograph,
    Board,
    Noise,
    Whole,
    Hostile,
}

pub struct Picture {
    pub kind: Kind,
    pub width: usize,
    pub height: usize,
    pub pixels: Vec<u8>,
    pub params: Params,
}

/// The parameters of all frames where nothing else is said.
pub fn usual(width: usize) -> Params {
    let minimum = 32.min(width as u32 / 4);
    Params { threshold: 30.0, window: 2, least: 2, centroid: 2, merge: 3.0, minimum, search: 3, ..PLAIN }
}

/// A turned, soft and noisy board with squares of 24 pixels, with a corner at least `margin` pixels from the edges.
fn board_within(width: usize, height: usize, ring: u32, margin: usize) -> Picture {
    let pixels = BOARD.image(&mut Rng::new(1), width, height, margin);
    Picture { kind: Kind::Board, width, height, pixels, params: Params { ring, ..usual(width) } }
}

pub fn board(width: usize, height: usize, ring: u32) -> Picture {
    board_within(width, height, ring, 0)
}

/// The boards of every size, with a ring.
pub fn boards(ring: u32) -> impl Iterator<Item = Picture> {
    SIDES.into_iter().map(move |(width, height)| board(width, height, ring))
}

/// Pixels of any value.
pub fn noise(width: usize, height: usize, threshold: f32) -> Picture {
    let pixels = images::noise(&mut Rng::new(2), width * height, 0, 256);
    Picture { kind: Kind::Noise, width, height, pixels, params: Params { threshold, ..usual(width) } }
}

/// The least frame with a corner, the whole case of the rules; and a board with a corner in the middle.
pub fn small() -> [Picture; 2] {
    let params = Params { threshold: 30.0, merge: 3.0, ..PLAIN };
    let whole = Picture { kind: Kind::Whole, width: 11, height: 11, pixels: images::whole_case(), params };
    [whole, board_within(24, 24, 5, 11)]
}

/// A photograph as it is, 1600 wide, and of 4096 x 4096.
pub fn photographs(path: &str) -> impl Iterator<Item = Picture> {
    let grey = photograph::read(path);
    let sides = [(grey.width, grey.height), (1600, 1600 * grey.height / grey.width), (4096, 4096)];
    sides.into_iter().map(move |(width, height)| {
        let Grey { pixels, .. } = photograph::enlarged(&grey, width, height);
        Picture { kind: Kind::Photograph, width, height, pixels, params: usual(width) }
    })
}

impl Picture {
    pub fn image(&self) -> Image<'_> {
        Image { pixels: &self.pixels, width: self.width, height: self.height }
    }

    pub fn cells(&self) -> usize {
        self.width * self.height
    }

    pub fn sides(&self) -> String {
        format!("{} x {}", self.width, self.height)
    }

    /// Of how many levels frames are made of it.
    pub fn level_counts(&self) -> &'static [u32] {
        match self.kind {
            Kind::Photograph | Kind::Board if self.width >= 96 => &[1, 3],
            _ => &[1],
        }
    }

    /// As a row of a table names it.
    pub fn name(&self) -> String {
        let sides = self.sides();
        match self.kind {
            Kind::Photograph => format!("photograph, {sides}"),
            Kind::Board => format!("board, {sides}, ring {}", self.params.ring),
            Kind::Noise => format!("noise, {sides}, threshold {}", self.params.threshold),
            Kind::Whole => format!("one corner, {sides}"),
            Kind::Hostile => sides,
        }
    }

    /// With what each stage of one level hands to the next, by the original.
    pub fn subject(self) -> Subject {
        let Self { width, height, pixels, params, .. } = self;
        let image = Image { pixels: &pixels, width, height };
        let map = map_of(image, params.ring, image.whole());
        let peaks = peaks_of(&map, &params);
        let found = centroids(peaks.clone(), &map, params.centroid);
        Subject { width, height, pixels, params, map, peaks, found }
    }
}
