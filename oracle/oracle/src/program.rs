//! The program `corners`: a stream in, a listing out.
use crate::buffers::{Buffers, Sizes};
use crate::frame::{find_corners, Found};
use crate::listing::{listing, refused};
use crate::pass::{Steps, STEPS};
use crate::refusal::Refusal;
use crate::stream::read;

/// The largest side and the buffers that a program works with, and the steps of its pass.
#[derive(Clone, Copy, Debug)]
pub struct Program {
    pub largest_side: usize,
    pub sizes: Sizes,
    pub steps: Steps,
}

/// `corners`: sides up to 96, 512 places for seeds and 512 for corners (RULES 12.4). Map and levels always fit.
pub const CORNERS: Program = Program {
    largest_side: 96,
    sizes: Sizes { map: 96 * 96, levels: 3072, seeds: [512; 4], corners: [512; 4] },
    steps: STEPS,
};

impl Program {
    /// The answer to a stream, with the buffers as they are afterwards.
    pub fn run(&self, stream: &[u8]) -> (Result<Found, Refusal>, Buffers) {
        let mut buffers = Buffers::before(&self.sizes);
        let answer = read(stream, self.largest_side).and_then(|upload| {
            find_corners(upload.image(), &upload.params, &mut buffers, self.largest_side, &self.steps)
        });
        (answer, buffers)
    }

    /// What the program prints.
    pub fn print(&self, stream: &[u8]) -> String {
        let (answer, buffers) = self.run(stream);
        printed(answer, &buffers)
    }
}

/// The text of an answer: the list that stands in the corner buffer, or the refusal.
pub fn printed(answer: Result<Found, Refusal>, buffers: &Buffers) -> String {
    match answer {
        Ok(Found { count, .. }) => {
            listing(&buffers.corners.list(count), &buffers.corners.neighbours[..count])
        }
        Err(number) => refused(number),
    }
}

/// What `corners` prints.
pub fn corners(stream: &[u8]) -> String {
    CORNERS.print(stream)
}
