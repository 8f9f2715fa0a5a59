//! Stub: no axes. Descriptors carry the corner's three floats unchanged.
use crate::detect::{Corner, CornerDescriptor};

/// The fit that is left out.
#[derive(Clone, Copy, Debug, Default, PartialEq)]
pub enum OrientationMethod {
    /// The original's default.
    #[default]
    RingFit,
}

impl OrientationMethod {
    /// A door to the crate-private `ring_offsets`, hung on a stub so that no original file is edited.
    pub fn ring_offsets(radius: u32) -> &'static [(i32, i32); 16] {
        crate::detect::chess::ring::ring_offsets(radius)
    }
}

/// The result of the fit that is left out.
pub struct AxisFitResult;

/// Never called.
pub fn fit_axes_at_point() -> AxisFitResult {
    AxisFitResult
}

/// One descriptor per corner, in order, without axes.
pub fn describe_corners(
    _img: &[u8],
    _w: usize,
    _h: usize,
    _radius: u32,
    corners: Vec<Corner>,
    _method: Option<OrientationMethod>,
) -> Vec<CornerDescriptor> {
    corners
        .iter()
        .map(|c| CornerDescriptor::without_axes(c.x, c.y, c.strength))
        .collect()
}
