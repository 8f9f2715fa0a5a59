//! Stub: no noise estimate. The covariance, which would use one, is off.

/// Never called with the covariance off.
pub fn estimate_noise_sigma_u8(_img: &[u8], _w: usize, _h: usize) -> Option<f32> {
    None
}
