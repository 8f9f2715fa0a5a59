//! The parameters of a frame, in the order of the stream's kind 2, and their checks.
use crate::refusal::{refuse_if, Refusal, MERGE_RADIUS, PARAMETER};
use box_image_pyramid::PyramidParams;
use chess_corners_core::ChessParams;

#[derive(Clone, Copy, Debug, PartialEq)]
pub struct Params {
    pub ring: u32,
    pub threshold: f32,
    /// The window's radius.
    pub window: u32,
    /// The least number of positive neighbours.
    pub least: u32,
    /// The centroid's radius.
    pub centroid: u32,
    /// The merge radius.
    pub merge: f32,
    /// The level count.
    pub levels: u32,
    /// The least side of a level.
    pub minimum: u32,
    /// The search radius.
    pub search: u32,
}

/// One level, everything else off or 0.
pub const PLAIN: Params = Params {
    ring: 5,
    threshold: 0.0,
    window: 0,
    least: 0,
    centroid: 0,
    merge: 0.0,
    levels: 1,
    minimum: 0,
    search: 0,
};

impl Params {
    /// The border of peaks and of boxes: ring + window + centroid radius.
    pub fn border(&self) -> usize {
        (self.ring + self.window + self.centroid) as usize
    }

    /// Refusal 3, as far as peak finding and the frame share it.
    pub fn check_window(&self) -> Result<(), Refusal> {
        check_ring(self.ring)?;
        refuse_if(self.window > 16 || self.centroid > 16, PARAMETER)
    }

    /// Refusals 3 and 5 of a frame.
    pub fn check(&self) -> Result<(), Refusal> {
        self.check_window()?;
        refuse_if(self.search > 255, PARAMETER)?;
        check_merge_radius(self.merge)
    }

    /// As the original takes them.
    pub fn chess(&self) -> ChessParams {
        let mut chess = ChessParams::default();
        chess.use_radius10 = self.ring == 10;
        chess.threshold = self.threshold;
        chess.nms_radius = self.window;
        chess.min_cluster_size = self.least;
        chess.center_of_mass.radius = self.centroid as i32;
        chess.orientation_method = None;
        chess
    }

    /// As the original takes them. Its level count is a byte; sides up to 4,096 never reach more than 13 levels.
    pub fn pyramid(&self) -> PyramidParams {
        let mut pyramid = PyramidParams::default();
        pyramid.num_levels = self.levels.min(255) as u8;
        pyramid.min_size = self.minimum as usize;
        pyramid
    }
}

/// A parameter set may say only 5 or 10 (RULES 1.7).
pub fn check_ring(ring: u32) -> Result<(), Refusal> {
    refuse_if(ring != 5 && ring != 10, PARAMETER)
}

/// A radius that is off: not finite or at most 0 (RULES 8.1).
pub fn is_off(radius: f32) -> bool {
    !radius.is_finite() || radius <= 0.0
}

/// Refusal 5.
pub fn check_merge_radius(radius: f32) -> Result<(), Refusal> {
    let in_range = (1.0 / 64.0..=4096.0).contains(&radius);
    refuse_if(!is_off(radius) && !in_range, MERGE_RADIUS)
}
