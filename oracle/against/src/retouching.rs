//! A pixel changed and its map redone: the library against the original's map of the changed image.
use oracle::exact::fifths_map;
use oracle::generate::{images, Rng};
use oracle::image::Image;
use oracle::params::{Params, PLAIN};
use oracle::pass::View;
use oracle::response::map_of;
use oracle::ring::{offsets, CROSS};
use oracle::tally::Tally;

/// An image with its sides and a ring.
struct Painted {
    pixels: Vec<u8>,
    width: usize,
    height: usize,
    ring: u32,
}

impl Painted {
    fn random(rng: &mut Rng) -> Self {
        let (width, height, ring) = (rng.from_to(1, 48), rng.from_to(1, 48), rng.pick(&[5, 10]));
        let pixels = images::random(rng, width, height, &Params { ring, ..PLAIN });
        Self { pixels, width, height, ring }
    }

    fn image(&self) -> Image<'_> {
        Image { pixels: &self.pixels, width: self.width, height: self.height }
    }

    /// The bits of the original's map.
    fn map(&self) -> Vec<u32> {
        let image = self.image();
        map_of(image, self.ring, image.whole()).data().iter().map(|cell| cell.to_bits()).collect()
    }

    fn fifths(&self) -> Vec<i32> {
        let image = self.image();
        fifths_map(&View { image, area: image.whole() }, self.ring)
    }

    /// By how many fifths a grey level of the pixel (x, y) may move a cell: 15 through the ring, 16 through the cross, else 0.
    fn reach(&self, cell: usize, x: usize, y: usize) -> i32 {
        let ring = self.ring as usize;
        let (i, j) = (cell % self.width, cell / self.width);
        if i < ring || j < ring || i + ring >= self.width || j + ring >= self.height {
            return 0;
        }
        let step = (x as i32 - i as i32, y as i32 - j as i32);
        if CROSS.contains(&step) {
            16
        } else if offsets(self.ring).contains(&step) {
            15
        } else {
            0
        }
    }
}

/// One pixel of one image, in its own map and in another, which the cells that are computed anew show.
fn one(rng: &mut Rng) -> bool {
    let mut painted = Painted::random(rng);
    let (w, h, ring) = (painted.width, painted.height, painted.ring);
    let (x, y, value) = (rng.below(w), rng.below(h), rng.byte());
    let floats = |bits: &[u32]| bits.iter().map(|&bits| f32::from_bits(bits)).collect::<Vec<f32>>();
    let (mut image, mut map, mut other) =
        (painted.pixels.clone(), floats(&painted.map()), vec![f32::NAN; w * h]);
    let before = painted.fifths();
    let count = zakdomp::retouch(&mut image, w, h, ring, &mut map, x, y, value);
    let again = zakdomp::retouch(&mut painted.pixels.clone(), w, h, ring, &mut other, x, y, value);
    let grey = i32::from(painted.pixels[y * w + x].abs_diff(value));
    painted.pixels[y * w + x] = value;
    let (due, after) = (painted.map(), painted.fifths());
    let reach: Vec<i32> = (0..w * h).map(|cell| painted.reach(cell, x, y)).collect();
    let touched = reach.iter().filter(|&&most| most > 0).count();
    image == painted.pixels
        && count == Ok(touched)
        && again == Ok(touched)
        && touched <= 21
        && map.iter().zip(&due).all(|(cell, due)| cell.to_bits() == *due)
        && (0..w * h).all(|i| if reach[i] > 0 { other[i].to_bits() == due[i] } else { other[i].is_nan() })
        && (0..w * h).all(|i| (after[i] - before[i]).abs() <= reach[i] * grey)
}

/// `count` pixels.
pub fn run(count: u64, seed: u64) -> Tally {
    let mut tally = Tally::default();
    for case in 0..count {
        tally.check(&format!("pixel {seed}-{case}"), one(&mut Rng::of_case(seed, 8, case)));
    }
    tally
}
