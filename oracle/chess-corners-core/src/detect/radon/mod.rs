//! Stub: the names of the Radon detector that the original files mention. None of it is ever run.
use crate::detect::Corner;
use core::marker::PhantomData;

/// Left out.
pub mod primitives {
    /// Left out.
    #[derive(Clone, Copy, Debug, Default, PartialEq)]
    pub enum PeakFitMode {
        /// Left out.
        #[default]
        Gaussian,
    }
}

/// Left out.
pub mod detect {
    use super::{Corner, RadonBuffers, RadonDetectorParams};
    use crate::imageview::ImageView;

    /// Left out.
    pub fn attach_peak_fit_covariances(
        _corners: &mut [Corner],
        _image: ImageView<'_>,
        _params: &RadonDetectorParams,
        _buffers: &mut RadonBuffers,
    ) {
    }

    /// Left out.
    pub fn retain_above_relative_threshold(_corners: &mut Vec<Corner>, _threshold: f32) {}
}

/// Left out.
#[derive(Clone, Debug, Default)]
pub struct RadonDetectorParams {
    /// Left out.
    pub threshold_rel: f32,
    /// Left out.
    pub nms_radius: u32,
}

impl RadonDetectorParams {
    /// Left out.
    pub fn image_upsample_clamped(&self) -> u32 {
        1
    }

    /// Left out.
    pub fn ray_radius_clamped(&self) -> u32 {
        1
    }

    /// A door to `merge_corners_naive`, hung on a stub: its module is private, and no sibling but this one is ours.
    pub fn merge_corners_naive(corners: &[Corner], r2: f32) -> Vec<Corner> {
        super::merge::visible::naive(corners, r2)
    }
}

/// Left out.
#[derive(Debug, Default)]
pub struct RadonBuffers;

/// Left out.
pub struct RadonResponseView<'a>(PhantomData<&'a ()>);

/// Left out.
pub fn radon_response_u8<'a>(
    _img: &[u8],
    _w: usize,
    _h: usize,
    _params: &RadonDetectorParams,
    _buffers: &'a mut RadonBuffers,
) -> RadonResponseView<'a> {
    RadonResponseView(PhantomData)
}

/// Left out.
pub fn detect_peaks_from_radon(
    _response: &RadonResponseView<'_>,
    _params: &RadonDetectorParams,
) -> Vec<Corner> {
    Vec::new()
}
