//! A frame as numbers for C: this program and the original's `simd` build are made by two compilers.
use oracle::image::Image;
use oracle::params::Params;

#[repr(C)]
pub struct Asked {
    pixels: *const u8,
    width: usize,
    height: usize,
    threshold: f32,
    merge: f32,
    ring: u32,
    window: u32,
    least: u32,
    centroid: u32,
    levels: u32,
    minimum: u32,
    search: u32,
}

#[allow(dead_code)] // each side uses its own half
impl Asked {
    pub fn new(image: Image, p: &Params) -> Self {
        let Params { ring, threshold, window, least, centroid, merge, levels, minimum, search } = *p;
        let (pixels, width, height) = (image.pixels.as_ptr(), image.width, image.height);
        Self {
            pixels,
            width,
            height,
            threshold,
            merge,
            ring,
            window,
            least,
            centroid,
            levels,
            minimum,
            search,
        }
    }

    /// # Safety
    /// The image is still there.
    pub unsafe fn image(&self) -> Image<'_> {
        let (width, height) = (self.width, self.height);
        Image { pixels: std::slice::from_raw_parts(self.pixels, width * height), width, height }
    }

    pub fn params(&self) -> Params {
        let Self { threshold, merge, ring, window, least, centroid, levels, minimum, search, .. } = *self;
        Params { ring, threshold, window, least, centroid, merge, levels, minimum, search }
    }
}
