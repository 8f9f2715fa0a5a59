//! What the tests share: images, numbers that look random, and the rules' peaks a second time.
#![allow(dead_code)] // each test uses a part of it
use zakdomp::{Corner, Frame, Params, Refusal};

/// Every cell above 0 is a peak, and stays where it is.
pub const PLAIN: Params = Params {
    ring: 5,
    threshold: 0.0,
    window: 0,
    least_neighbours: 0,
    centroid_radius: 0,
    merge_radius: 3.0,
    levels: 1,
    minimum_side: 1,
    search_radius: 0,
};

/// The places of the smaller ring about a cell (RULES 3.1), and those of the cross.
#[rustfmt::skip]
pub const RING: [(isize, isize); 16] = [
    (0, -5), (2, -5), (3, -3), (5, -2), (5, 0), (5, 2), (3, 3), (2, 5),
    (0, 5), (-2, 5), (-3, 3), (-5, 2), (-5, 0), (-5, -2), (-3, -3), (-2, -5),
];
pub const CROSS: [(isize, isize); 5] = [(0, 0), (0, -1), (0, 1), (1, 0), (-1, 0)];

/// The pixel that is so far from another, in row order.
pub fn beside(width: usize, (x, y): (usize, usize), (dx, dy): (isize, isize)) -> usize {
    let moved = |n: usize, d: isize| n.checked_add_signed(d).expect("inside");
    moved(y, dy) * width + moved(x, dx)
}

// ---- images

/// The side of the whole case.
pub const SIDE: usize = 11;

/// The whole case (RULES 14): one corner in the middle of 11 by 11 pixels.
pub fn whole_case() -> Vec<u8> {
    let mut image = vec![0; SIDE * SIDE];
    for k in (0..4).chain(8..12) {
        image[beside(SIDE, (5, 5), RING[k])] = 255;
    }
    for place in CROSS {
        image[beside(SIDE, (5, 5), place)] = 128;
    }
    image
}

/// Squares of so many pixels.
pub fn board(width: usize, height: usize, square: usize) -> Vec<u8> {
    let grey = |(x, y): (usize, usize)| if (x / square + y / square) % 2 == 0 { 20 } else { 220 };
    cells(width, height).map(grey).collect()
}

/// An image with the header of a photograph.
pub fn photograph(header: &str, image: &[u8]) -> Vec<u8> {
    [header.as_bytes(), image].concat()
}

// ---- numbers

/// Numbers that look random.
pub struct Numbers(pub usize);

impl Numbers {
    pub fn below(&mut self, n: usize) -> usize {
        self.0 ^= self.0 << 13;
        self.0 ^= self.0 >> 7;
        self.0 ^= self.0 << 17;
        self.0 % n
    }

    pub fn word(&mut self, n: usize) -> u32 {
        u32::try_from(self.below(n)).expect("n is at most 2^32")
    }

    pub fn byte(&mut self, n: usize) -> u8 {
        u8::try_from(self.below(n)).expect("n is at most 256")
    }

    pub fn one_of<T: Copy>(&mut self, items: &[T]) -> T {
        items[self.below(items.len())]
    }

    /// Pixels of so many greys in no order.
    pub fn pixels(&mut self, count: usize, greys: usize) -> Vec<u8> {
        (0..count).map(|_| self.byte(greys)).collect()
    }
}

/// A whole number as a float.
#[allow(clippy::cast_precision_loss)] // there is none below 2^24
pub fn float(n: usize) -> f32 {
    assert!(n < 1 << 24);
    n as f32
}

/// The whole number nearest to a float.
#[allow(clippy::cast_possible_truncation)] // it is rounded first
pub fn nearest(x: f32) -> i32 {
    x.round() as i32
}

pub fn bits(floats: &[f32]) -> Vec<u32> {
    floats.iter().map(|x| x.to_bits()).collect()
}

// ---- maps and lists

/// The cells of a map, in row order.
pub fn cells(width: usize, height: usize) -> impl Iterator<Item = (usize, usize)> {
    (0..width * height).map(move |i| (i % width, i / width))
}

/// The window of a cell (RULES 4.2), inside a map.
pub fn window((x, y): (usize, usize), radius: usize) -> impl Iterator<Item = (usize, usize)> {
    let columns = move || x - radius..=x + radius;
    let square = (y - radius..=y + radius).flat_map(move |v| columns().map(move |u| (u, v)));
    square.filter(move |&cell| cell != (x, y))
}

/// The border of a map (RULES 4.1).
pub fn border(p: &Params) -> usize {
    (p.ring + p.window + p.centroid_radius) as usize
}

/// Whether a cell is no nearer to an edge than the border.
pub fn is_inside((x, y): (usize, usize), width: usize, height: usize, border: usize) -> bool {
    border <= x && x + border < width && border <= y && y + border < height
}

/// The peaks of a map (RULES 4.3), a second time.
pub fn peaks(map: &[f32], width: usize, height: usize, p: &Params) -> Vec<(usize, usize)> {
    let threshold = if p.threshold > 0.0 { p.threshold } else { 0.0 };
    let is_peak = |&(x, y): &(usize, usize)| {
        let (centre, others) = (map[y * width + x], others(map, width, (x, y), p));
        let is_low = centre <= threshold;
        !is_low
            && !others.iter().any(|&cell| cell > centre)
            && count(&others, |cell| cell > 0.0) >= p.least_neighbours as usize
    };
    cells(width, height).filter(|&cell| is_inside(cell, width, height, border(p))).filter(is_peak).collect()
}

/// The responses in a cell's window.
pub fn others(map: &[f32], width: usize, cell: (usize, usize), p: &Params) -> Vec<f32> {
    window(cell, p.window as usize).map(|(u, v)| map[v * width + u]).collect()
}

/// How many of some responses are so.
pub fn count(responses: &[f32], is: impl Fn(f32) -> bool) -> usize {
    responses.iter().filter(|&&response| is(response)).count()
}

/// The corners alone.
pub fn corners(found: Result<Frame, Refusal>) -> Result<Vec<Corner>, Refusal> {
    found.map(|frame| frame.corners)
}
