//! The corners of a chessboard in a grey image.
//!
//! A [`Finder`] owns the buffers that the library works in and uses them again; a [`Frame`] is what it finds. What the
//! library refuses comes back as a [`Refusal`].
mod editing;
mod finder;
mod library;
mod limits;
mod lists;
mod maps;
mod merging;
mod params;
mod pgm;
pub mod raw;
mod refusal;
mod retention;
mod stream;

pub use editing::{EditedList, Shown};
pub use finder::{Finder, Frame};
pub use limits::{response_limits, sure_peak, ResponseLimits};
pub use lists::Corner;
pub use maps::{has_peaks, response, retouch, Enough, ResponseMap};
pub use merging::{merge_naive, merged};
pub use params::Params;
pub use pgm::{read_pgm, Pgm};
pub use refusal::Refusal;
pub use retention::{holding, holdings, Holding};
pub use stream::write_stream;

/// The largest side of an image; the library refuses larger ones.
const LARGEST_SIDE: usize = 4096;

/// Whether a side is too large. No buffer is made for such an image: it is refused before one is looked at.
fn is_large(width: usize, height: usize) -> bool {
    width > LARGEST_SIDE || height > LARGEST_SIDE
}
