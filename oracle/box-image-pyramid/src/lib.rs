//! Stub crate root over the two original files.
pub mod imageview;
pub mod pyramid;

pub use imageview::{ImageBuffer, ImageView};
pub use pyramid::{build_pyramid, Pyramid, PyramidBuffers, PyramidLevel, PyramidParams};
