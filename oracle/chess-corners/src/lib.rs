//! Stub crate root: the configuration that the original multiscale.rs reads, without the facade around it.
use box_image_pyramid::PyramidParams;
pub use chess_corners_core::{estimate_noise_sigma_u8, CornerDescriptor};
use chess_corners_core::{ChessParams, OrientationMethod, RadonDetectorParams, SaddlePointConfig};

pub mod config {
    pub mod uncertainty;
}
pub mod multiscale;
pub use config::uncertainty::{NoiseLevel, Uncertainty};

pub enum ChessError {
    InvalidNoiseSigma(f32),
}

#[derive(Clone, Copy)]
pub enum ImageRefiner {
    SaddlePoint(SaddlePointConfig),
}

#[derive(Clone, Copy)]
pub enum OnRefinerReject {
    Drop,
    KeepCenterOfMass,
}

pub struct ChessStrategy {
    pub on_refiner_reject: OnRefinerReject,
}

pub enum DetectionStrategy {
    Chess(ChessStrategy),
    Radon(()),
}

pub struct DetectorConfig {
    pub strategy: DetectionStrategy,
    pub refiner: Option<ImageRefiner>,
    pub merge_radius: f32,
    pub uncertainty: Uncertainty,
    pub orientation_method: Option<OrientationMethod>,
    pub chess: ChessParams,
    pub pyramid: PyramidParams,
    pub refinement_radius: u32,
}

impl DetectorConfig {
    /// Finds ChESS corners by the center of mass alone: no image refiner, no covariance, no axes.
    pub fn scalar(
        chess: ChessParams,
        pyramid: PyramidParams,
        refinement_radius: u32,
        merge_radius: f32,
    ) -> Self {
        Self {
            strategy: DetectionStrategy::Chess(ChessStrategy {
                on_refiner_reject: OnRefinerReject::Drop,
            }),
            refiner: None,
            merge_radius,
            uncertainty: Uncertainty::Off,
            orientation_method: None,
            chess,
            pyramid,
            refinement_radius,
        }
    }

    pub fn chess_params(&self) -> ChessParams {
        self.chess.clone()
    }

    pub fn radon_detector_params(&self) -> RadonDetectorParams {
        RadonDetectorParams::default()
    }

    pub(crate) fn coarse_to_fine_params(&self) -> Option<multiscale::CoarseToFineParams> {
        Some(multiscale::CoarseToFineParams {
            pyramid: self.pyramid.clone(),
            refinement_radius: self.refinement_radius,
            merge_radius: self.merge_radius,
        })
    }
}
