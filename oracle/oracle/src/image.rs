//! An image, a box of it, and the checks on its sides and length.
use crate::refusal::{refuse_if, Refusal, LENGTH, SIDE};

/// Pixels in row order, with the sides that are claimed for them.
#[derive(Clone, Copy, Debug)]
pub struct Image<'a> {
    pub pixels: &'a [u8],
    pub width: usize,
    pub height: usize,
}

/// Columns x0 to x1 and rows y0 to y1, the ends x1 and y1 left out.
#[derive(Clone, Copy, Debug, PartialEq, Eq)]
pub struct Area {
    pub x0: usize,
    pub y0: usize,
    pub x1: usize,
    pub y1: usize,
}

impl Image<'_> {
    /// Refusals 1 and 2.
    pub fn check(&self, largest_side: usize) -> Result<(), Refusal> {
        check_map(self.pixels.len(), self.width, self.height, largest_side)
    }

    /// The whole image as one box (RULES 9.3).
    pub fn whole(&self) -> Area {
        Area { x0: 0, y0: 0, x1: self.width, y1: self.height }
    }
}

impl Area {
    /// The sides of the box within an image; both 0 where the box is empty.
    pub fn clipped_sides(&self, width: usize, height: usize) -> (usize, usize) {
        let w = self.x1.min(width).saturating_sub(self.x0.min(width));
        let h = self.y1.min(height).saturating_sub(self.y0.min(height));
        if w == 0 || h == 0 {
            (0, 0)
        } else {
            (w, h)
        }
    }
}

/// Refusals 1 and 2 for anything that has width times height places.
pub fn check_map(length: usize, width: usize, height: usize, largest_side: usize) -> Result<(), Refusal> {
    refuse_if(width > largest_side || height > largest_side, SIDE)?;
    refuse_if(length != width * height, LENGTH)
}
