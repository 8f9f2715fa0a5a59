//! The corners of images and photographs.
use crate::library::{self, Choice, Given};
use crate::lists::Lists;
use crate::{is_large, Corner, Params, Refusal};

/// What is found in an image.
#[derive(Clone, Debug, Default, PartialEq)]
#[non_exhaustive]
pub struct Frame {
    /// The corners, in the order of include/zakdomp.h.
    pub corners: Vec<Corner>,
    /// How many cells of the peaks' windows equal the peak, over all peaks before merging, seeds not counted. By the
    /// exact choice too they are counted in floats: a peak with a larger float in its window counts 0.
    pub ties: u64,
}

/// The buffers that the library works in. They only grow.
#[derive(Clone, Debug, Default)]
pub(crate) struct Buffers {
    pub(crate) map: Vec<f32>,
    pub(crate) levels: Vec<u8>,
    pub(crate) seeds: Lists,
    pub(crate) corners: Lists,
}

impl Buffers {
    /// Makes map and levels large enough for an image.
    fn fit(&mut self, width: usize, height: usize, params: &Params) {
        if !is_large(width, height) {
            let bytes = library::level_bytes(width, height, params);
            self.map.resize(self.map.len().max(width * height), 0.0);
            self.levels.resize(self.levels.len().max(bytes), 0);
        }
    }
}

/// Finds corners, in buffers that it owns.
#[derive(Clone, Debug)]
pub struct Finder {
    buffers: Buffers,
    places: usize,
    most: usize,
}

impl Default for Finder {
    fn default() -> Self {
        Self::new()
    }
}

impl Finder {
    /// Takes any number of corners up to 4,194,304, before merging.
    #[must_use]
    pub fn new() -> Self {
        Self::with_most(1 << 22)
    }

    /// Takes at most so many seeds, and so many corners before merging: an image with more is refused. Each seed has a box
    /// that is searched, so this bounds the time too.
    #[must_use]
    pub fn with_most(most: usize) -> Self {
        Self { buffers: Buffers::default(), places: most.min(1024), most }
    }

    /// The corners of an image of `width` by `height` pixels, and its ties.
    pub fn find(
        &mut self,
        image: &[u8],
        width: usize,
        height: usize,
        params: &Params,
    ) -> Result<Frame, Refusal> {
        self.search(Choice::Computed, &Given::Image(image), (width, height), params)
    }

    /// The same by the exact choice: peaks are chosen by responses without rounding. If `find` gives the same list,
    /// choosing by rounded responses has made no difference. Only one of the two may be refused with
    /// `Refusal::ListShort`.
    pub fn find_exact(
        &mut self,
        image: &[u8],
        width: usize,
        height: usize,
        params: &Params,
    ) -> Result<Frame, Refusal> {
        self.search(Choice::Exact, &Given::Image(image), (width, height), params)
    }

    /// The corners of an uploaded photograph, a binary PGM (P5) with a maxval of 255, and its ties.
    pub fn find_pgm(&mut self, upload: &[u8], params: &Params) -> Result<Frame, Refusal> {
        self.search(Choice::Computed, &Given::Upload(upload), library::pgm(upload)?.1, params)
    }

    /// The corners of an uploaded photograph by the exact choice, as `find_exact` has them of its pixels.
    pub fn find_exact_pgm(&mut self, upload: &[u8], params: &Params) -> Result<Frame, Refusal> {
        self.search(Choice::Exact, &Given::Upload(upload), library::pgm(upload)?.1, params)
    }

    /// Asks with more and more places for corners, while there are too few of them.
    fn search(
        &mut self,
        choice: Choice,
        given: &Given,
        sides: (usize, usize),
        params: &Params,
    ) -> Result<Frame, Refusal> {
        self.buffers.fit(sides.0, sides.1, params);
        loop {
            self.buffers.seeds.resize(self.places);
            self.buffers.corners.resize(self.places);
            match library::find_corners(choice, given, sides, params, &mut self.buffers) {
                Ok((count, ties)) => return Ok(Frame { corners: self.buffers.corners.first(count), ties }),
                Err(Refusal::ListShort) if self.places < self.most => {
                    self.places = (self.places * 4).min(self.most);
                }
                Err(refusal) => return Err(refusal),
            }
        }
    }
}
