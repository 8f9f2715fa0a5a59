//! Makes the private functions of multiscale.rs callable.
use super::*;

/// The base's sides and what else a seed's box depends on.
pub struct BoxContext {
    pub width: usize,
    pub height: usize,
    pub coarse_scale: f32,
    pub detector_border: i32,
    pub refine_border: i32,
    pub refinement_radius: u32,
}

/// `make_roi_context`, then `compute_roi` for each seed. `base` is only asked for its sides.
pub fn roi_boxes(base: &[u8], context: &BoxContext, seeds: &[Corner]) -> Vec<Option<RoiBounds>> {
    let view = ImageView::from_u8_slice(context.width, context.height, base)
        .expect("a base of width times height pixels");
    let params = CoarseToFineParams {
        refinement_radius: context.refinement_radius,
        ..CoarseToFineParams::default()
    };
    let roi_context = make_roi_context(
        view,
        context.coarse_scale,
        context.detector_border,
        context.refine_border,
        &params,
    );
    seeds.iter().map(|seed| roi_context.compute_roi(seed)).collect()
}

/// The original coarse-to-fine detector, whole.
pub fn detect(base: ImageView<'_>, config: &DetectorConfig) -> Vec<CornerDescriptor> {
    detect_with_buffers(
        base,
        config,
        Uncertainty::Off,
        &mut PyramidBuffers::new(),
        &mut ChessBuffers::default(),
        &mut RadonBuffers::default(),
    )
    .corners
}
