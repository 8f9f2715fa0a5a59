//! A photograph, as it is and enlarged.
use crate::library;

/// A grey picture.
pub struct Grey {
    pub pixels: Vec<u8>,
    pub width: usize,
    pub height: usize,
}

/// The picture of a binary PGM file.
pub fn read(path: &str) -> Grey {
    let upload = std::fs::read(path).unwrap_or_else(|error| panic!("{path}: {error}"));
    let (at, width, height) = library::pgm(&upload);
    Grey { pixels: upload[at..at + width * height].to_vec(), width, height }
}

/// Cubic interpolation with the centres of the pixels in place: as OpenCV's `INTER_CUBIC`, with its factor.
pub fn enlarged(grey: &Grey, width: usize, height: usize) -> Grey {
    let columns = taps(grey.width, width);
    let across: Vec<f32> = grey
        .pixels
        .chunks(grey.width)
        .flat_map(|row| columns.iter().map(|tap| tap.sum(|x| f32::from(row[x]))))
        .collect();
    let down = |tap: &Tap| (0..width).map(|x| tap.sum(|y| across[y * width + x])).collect::<Vec<_>>();
    let values = taps(grey.height, height).iter().flat_map(down).collect::<Vec<_>>();
    let pixels = values.iter().map(|value| value.round().clamp(0.0, 255.0) as u8).collect();
    Grey { pixels, width, height }
}

/// Four places of a side and their weights.
struct Tap {
    places: [usize; 4],
    weights: [f32; 4],
}

impl Tap {
    fn sum(&self, at: impl Fn(usize) -> f32) -> f32 {
        self.places.iter().zip(self.weights).map(|(&place, weight)| at(place) * weight).sum()
    }
}

/// For each place of the new side; beyond its ends the old side goes on with its last pixel.
fn taps(old: usize, new: usize) -> Vec<Tap> {
    let tap = |i: usize| {
        let at = (i as f32 + 0.5) * old as f32 / new as f32 - 0.5;
        let first = at.floor() as isize - 1;
        let places = [0, 1, 2, 3].map(|k| (first + k).clamp(0, old as isize - 1) as usize);
        Tap { places, weights: [0, 1, 2, 3].map(|k| weight((at - (first + k) as f32).abs())) }
    };
    (0..new).map(tap).collect()
}

/// The weight of a pixel so far away.
fn weight(d: f32) -> f32 {
    const A: f32 = -0.75;
    if d <= 1.0 {
        ((A + 2.0) * d - (A + 3.0)) * d * d + 1.0
    } else {
        ((A * d - 5.0 * A) * d + 8.0 * A) * d - 4.0 * A
    }
}
