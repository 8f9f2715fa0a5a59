//! Plain timings of the original's stages, callable from other drivers.
use crate::buffers::Sizes;
use crate::centroid::centroids;
use crate::frame::corners_of;
use crate::generate::images::Board;
use crate::generate::Rng;
use crate::image::Image;
use crate::params::{Params, PLAIN};
use crate::pass::{Steps, STEPS};
use crate::peaks::peaks_of;
use crate::pyramid::levels_of;
use crate::response::map_of;
use crate::{merge, Corner, ResponseMap};
use box_image_pyramid::PyramidBuffers;
use std::hint::black_box;

/// CPU time of this thread in seconds, so that other work on the machine counts less.
pub fn cpu_seconds() -> f64 {
    #[repr(C)]
    struct Timespec {
        seconds: i64,
        nanoseconds: i64,
    }
    extern "C" {
        fn clock_gettime(clock: i32, time: *mut Timespec) -> i32;
    }
    const THREAD_CPU_TIME: i32 = 3; // Linux
    let mut time = Timespec { seconds: 0, nanoseconds: 0 };
    // SAFETY: `time` is a timespec of 64-bit Linux, written by the call.
    unsafe { clock_gettime(THREAD_CPU_TIME, &mut time) };
    time.seconds as f64 + time.nanoseconds as f64 * 1e-9
}

/// The least CPU time of `n` calls, in milliseconds.
pub fn best_of<T>(n: usize, mut call: impl FnMut() -> T) -> f64 {
    let mut best = f64::INFINITY;
    for _ in 0..n {
        let start = cpu_seconds();
        black_box(call());
        best = best.min(cpu_seconds() - start);
    }
    best * 1e3
}

/// The original pass, its merge with whatever grid it needs.
pub const ORIGINAL: Steps = Steps { merge: merge::original, ..STEPS };

/// What is timed: one image, its parameters, and what each stage hands to the next.
pub struct Subject {
    pub width: usize,
    pub height: usize,
    pub pixels: Vec<u8>,
    pub params: Params,
    pub map: ResponseMap,
    pub peaks: Vec<Corner>,
    pub found: Vec<Corner>,
}

impl Subject {
    /// A turned, soft and noisy board.
    pub fn board(width: usize, height: usize) -> Self {
        let board = Board { cell: 24.0, turn: 0.15, soft: 2.0, noise: 3, dark: 25.0, bright: 230.0 };
        let params = Params {
            threshold: 30.0,
            window: 2,
            least: 2,
            centroid: 2,
            merge: 3.0,
            minimum: 32.min(width as u32 / 4),
            search: 3,
            ..PLAIN
        };
        let pixels = board.image(&mut Rng::new(1), width, height, 0);
        let image = Image { pixels: &pixels, width, height };
        let map = map_of(image, params.ring, image.whole());
        let peaks = peaks_of(&map, &params);
        let found = centroids(peaks.clone(), &map, params.centroid);
        Self { width, height, pixels, params, map, peaks, found }
    }

    pub fn image(&self) -> Image<'_> {
        Image { pixels: &self.pixels, width: self.width, height: self.height }
    }

    /// Buffers that are never short for this subject.
    pub fn sizes(&self) -> Sizes {
        let cells = self.width * self.height;
        let places = [self.peaks.len() * 16 + 1024; 4];
        Sizes { map: cells, levels: cells, seeds: places, corners: places }
    }

    pub fn response(&self) -> ResponseMap {
        map_of(black_box(self.image()), self.params.ring, self.image().whole())
    }

    pub fn find_peaks(&self) -> Vec<Corner> {
        peaks_of(black_box(&self.map), &self.params)
    }

    pub fn localize(&self) -> Vec<Corner> {
        centroids(self.peaks.clone(), black_box(&self.map), self.params.centroid)
    }

    pub fn merge(&self) -> Vec<Corner> {
        merge::original(black_box(&self.found), self.params.merge)
    }

    /// Builds `levels` levels; their number.
    pub fn pyramid(&self, levels: u32) -> usize {
        let params = Params { levels, ..self.params };
        let mut buffers = PyramidBuffers::new();
        levels_of(black_box(self.image()), &params, &mut buffers).levels.len()
    }

    /// The whole frame over `levels` levels.
    pub fn frame(&self, levels: u32) -> Vec<Corner> {
        let params = Params { levels, ..self.params };
        corners_of(black_box(self.image()), &params, &ORIGINAL)
    }
}
