//! Images: boards, noise, ties, flat and stamped ones.
use super::Rng;
use crate::params::Params;
use crate::ring::{offsets, CROSS};

/// A chessboard, seen straight on.
#[derive(Clone, Copy, Debug)]
pub struct Board {
    /// The side of a cell in pixels.
    pub cell: f64,
    /// The tangent of half the angle by which it is turned.
    pub turn: f64,
    /// Over how many pixels an edge goes from dark to bright.
    pub soft: f64,
    /// Each pixel is off by up to this much.
    pub noise: usize,
    pub dark: f64,
    pub bright: f64,
}

/// A soft square wave of two cells' period, from -1 to 1.
fn wave(at: f64, cell: f64, soft: f64) -> f64 {
    let phase = at / cell - 2.0 * (at / cell / 2.0).floor();
    let to_edge = if phase < 1.0 { phase.min(1.0 - phase) } else { -(phase - 1.0).min(2.0 - phase) };
    (to_edge * cell / soft.max(1e-6)).clamp(-1.0, 1.0)
}

impl Board {
    /// A board of any look.
    pub fn random(rng: &mut Rng, least_cell: f64, greatest_cell: f64) -> Self {
        let dark = rng.below(120) as f64;
        Self {
            cell: least_cell + rng.unit() * (greatest_cell - least_cell),
            turn: if rng.once_in(6) { 0.0 } else { rng.unit() },
            soft: rng.pick(&[0.0, 0.5, 1.0, 2.0, 4.0]),
            noise: rng.pick(&[0, 0, 1, 3, 8, 20]),
            dark,
            bright: dark + rng.pick(&[6.0, 40.0, 100.0, 135.0]),
        }
    }

    /// Its image, with one of its corners `margin` or more from the edges. Only +, -, *, / and floor: no sine, whose
    /// last bit depends on the library.
    pub fn image(&self, rng: &mut Rng, width: usize, height: usize, margin: usize) -> Vec<u8> {
        let t = self.turn;
        let (cos, sin) = ((1.0 - t * t) / (1.0 + t * t), 2.0 * t / (1.0 + t * t));
        let mut inside = |side: usize| {
            let free = side.saturating_sub(2 * margin + 1) as f64;
            (side as f64 - 1.0 - free) / 2.0 + rng.unit() * free
        };
        let (left, top) = (inside(width), inside(height));
        let mut pixels = Vec::with_capacity(width * height);
        for y in 0..height {
            for x in 0..width {
                let (u, v) = (x as f64 - left, y as f64 - top);
                let along = wave(u * cos + v * sin, self.cell, self.soft);
                let across = wave(v * cos - u * sin, self.cell, self.soft);
                let grey = self.dark + (self.bright - self.dark) * (along * across + 1.0) / 2.0;
                let off = rng.below(2 * self.noise + 1) as f64 - self.noise as f64;
                pixels.push((grey.round() + off).clamp(0.0, 255.0) as u8);
            }
        }
        pixels
    }
}

/// Pixels from `least` on, `spread` many values.
pub fn noise(rng: &mut Rng, size: usize, least: usize, spread: usize) -> Vec<u8> {
    (0..size).map(|_| (least + rng.below(spread)).min(255) as u8).collect()
}

/// A tile of random pixels, repeated: every response comes back tile by tile, so equal cells abound.
pub fn tiled(rng: &mut Rng, width: usize, height: usize) -> Vec<u8> {
    let (w, h) = (rng.from_to(2, 9), rng.from_to(2, 9));
    let values: Vec<u8> = (0..rng.from_to(2, 5)).map(|_| rng.byte()).collect();
    let tile: Vec<u8> = (0..w * h).map(|_| rng.pick(&values)).collect();
    let place = |i: usize| i / width % h * w + i % width % w;
    (0..width * height).map(|i| tile[place(i)]).collect()
}

/// The whole case (RULES 14), 11 by 11: ring places 0..3 and 8..11 about (5,5) are 255, the cross 128, all else 0.
pub fn whole_case() -> Vec<u8> {
    let samples = std::array::from_fn(|k| if k % 8 < 4 { 255 } else { 0 });
    around_centre(&samples, &[128; 5], 5)
}

/// The least image with a response, in its middle: these ring samples and cross pixels, and 0 elsewhere.
pub fn around_centre(samples: &[u8; 16], cross: &[u8; 5], ring: u32) -> Vec<u8> {
    let (side, middle) = (2 * ring as usize + 1, ring as i32);
    let mut pixels = vec![0; side * side];
    let mut set =
        |(dx, dy): (i32, i32), v| pixels[(middle + dy) as usize * side + (middle + dx) as usize] = v;
    for (&offset, &v) in offsets(ring).iter().zip(samples) {
        set(offset, v);
    }
    for (offset, &v) in CROSS.into_iter().zip(cross) {
        set(offset, v);
    }
    pixels
}

/// Corner patterns on a flat ground: half the ring bright, the cross between, as in the whole case. Their
/// centres are `margin` or more from the edges.
pub fn stamped(rng: &mut Rng, width: usize, height: usize, ring: u32, margin: usize) -> Vec<u8> {
    let mut pixels = vec![rng.byte(); width * height];
    let reach = margin.max(ring as usize);
    if width <= 2 * reach || height <= 2 * reach {
        return pixels;
    }
    for _ in 0..rng.from_to(1, 1 + width * height / 400) {
        let x = rng.from_to(reach, width - reach - 1);
        let y = rng.from_to(reach, height - reach - 1);
        stamp(rng, &mut pixels, width, x, y, ring);
    }
    pixels
}

fn stamp(rng: &mut Rng, pixels: &mut [u8], width: usize, x: usize, y: usize, ring: u32) {
    let mut set = |(dx, dy): (i32, i32), value: u8| {
        let place = (y as i32 + dy) as usize * width + (x as i32 + dx) as usize;
        pixels[place] = value;
    };
    let (dark, bright, turn) = (rng.below(100), rng.from_to(101, 255), rng.below(16));
    for (k, &offset) in offsets(ring).iter().enumerate() {
        let value = if (k + turn) % 8 < 4 { bright } else { dark };
        set(offset, value as u8);
    }
    for offset in CROSS {
        set(offset, ((dark + bright) / 2 + rng.below(2)) as u8);
    }
}

/// An image of any look; most have a corner that these parameters let through.
pub fn random(rng: &mut Rng, width: usize, height: usize, params: &Params) -> Vec<u8> {
    let size = width * height;
    let halvings = params.levels.clamp(1, 3) - 1;
    let reach = f64::from(params.ring << halvings);
    let margin = params.border() << halvings;
    match rng.below(24) {
        0 => vec![rng.byte(); size],
        1 => noise(rng, size, 0, 256),
        2 => {
            let (least, spread) = (rng.below(200), rng.from_to(2, 20));
            noise(rng, size, least, spread)
        }
        3 => tiled(rng, width, height),
        4..=8 if halvings == 0 => stamped(rng, width, height, params.ring, margin),
        _ => Board::random(rng, 1.3 * reach, 2.2 * reach).image(rng, width, height, margin),
    }
}
