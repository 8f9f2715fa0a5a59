//! Pixels known between limits (RULES 28): the library against a second implementation, and against random images between the two.
use oracle::exact::{exact_peaks, fifths_map};
use oracle::generate::{images, Rng};
use oracle::image::Image;
use oracle::params::{Params, PLAIN};
use oracle::pass::View;
use oracle::refusal::{CROSSED, LARGEST_SIDE, LENGTH, MAP_SHORT, OUTSIDE, PARAMETER, SIDE};
use oracle::response::map_of;
use oracle::ring::{offsets, CROSS};
use oracle::tally::Tally;
use zakdomp::raw::{zakdomp_response_limits, zakdomp_sure_peak};

/// A number that is known to lie from the first up to the second.
type Range = (i32, i32);

fn sum(of: impl IntoIterator<Item = Range>) -> Range {
    of.into_iter().fold((0, 0), |a, b| (a.0 + b.0, a.1 + b.1))
}

/// |a - b|: the ends of the range of a - b decide, and 0 where they have either sign.
fn absolute(a: Range, b: Range) -> Range {
    let ends = (a.0 - b.1, a.1 - b.0);
    let most = ends.0.abs().max(ends.1.abs());
    (if ends.0 <= 0 && 0 <= ends.1 { 0 } else { ends.0.abs().min(ends.1.abs()) }, most)
}

fn times(k: i32, a: Range) -> Range {
    (k * a.0, k * a.1)
}

/// Two images with their sides and a ring.
struct Known {
    low: Vec<u8>,
    high: Vec<u8>,
    width: usize,
    height: usize,
    ring: u32,
}

impl Known {
    fn random(rng: &mut Rng) -> Self {
        let (width, height, ring) = (rng.from_to(1, 64), rng.from_to(1, 48), rng.pick(&[5, 10]));
        let image = images::random(rng, width, height, &Params { ring, ..PLAIN });
        let far = rng.pick(&[0, 1, 1, 2, 5, 20, 255]);
        let low = image.iter().map(|&v| v.saturating_sub(rng.from_to(0, far) as u8)).collect();
        let high = image.iter().map(|&v| v.saturating_add(rng.from_to(0, far) as u8)).collect();
        Self { low, high, width, height, ring }
    }

    /// An image that lies between the two: anywhere, or at their ends.
    fn between(&self, rng: &mut Rng) -> Vec<u8> {
        let ends = rng.once_in(2);
        let mut pick = |a: u8, b: u8| {
            if ends {
                rng.pick(&[a, b])
            } else {
                rng.from_to(a.into(), b.into()) as u8
            }
        };
        self.low.iter().zip(&self.high).map(|(&a, &b)| pick(a, b)).collect()
    }

    /// The two numbers of a cell, term by term.
    fn cell(&self, x: usize, y: usize) -> Range {
        let reach = self.ring as usize;
        if x < reach || y < reach || x + reach >= self.width || y + reach >= self.height {
            return (0, 0);
        }
        let at = |(dx, dy): (i32, i32)| {
            let place = (y as i32 + dy) as usize * self.width + (x as i32 + dx) as usize;
            (i32::from(self.low[place]), i32::from(self.high[place]))
        };
        let s = offsets(self.ring).map(at);
        let sr = sum((0..4).map(|k| absolute(sum([s[k], s[k + 8]]), sum([s[k + 4], s[k + 12]]))));
        let dr = sum((0..8).map(|k| absolute(s[k], s[k + 8])));
        let off = absolute(times(5, sum(s)), times(16, sum(CROSS.map(at))));
        (5 * (sr.0 - dr.1) - off.1, 5 * (sr.1 - dr.0) - off.0)
    }

    fn cells(&self) -> (Vec<i32>, Vec<i32>) {
        (0..self.width * self.height).map(|i| self.cell(i % self.width, i / self.width)).unzip()
    }
}

/// The exact values of an image of the same sides, and its exact peaks as indices.
fn exact(image: Image<'_>, p: &Params) -> (Vec<i32>, Vec<usize>) {
    let fifths = fifths_map(&View { image, area: image.whole() }, p.ring);
    let map = map_of(image, p.ring, image.whole());
    let peaks = exact_peaks(&fifths, &map, p);
    (fifths, peaks.iter().map(|c| c.y as usize * image.width + c.x as usize).collect())
}

/// Whether a cell is a sure peak, from the words of RULES 28.6.
fn is_sure(lows: &[i32], highs: &[i32], w: usize, h: usize, p: &Params, threshold: u32, cell: usize) -> bool {
    let (b, r, x, y) = (p.border(), p.window as usize, cell % w, cell / w);
    if x < b || y < b || x + b >= w || y + b >= h {
        return false;
    }
    let rows = y - r..=y + r;
    let near: Vec<usize> =
        rows.flat_map(|v| (x - r..=x + r).map(move |u| v * w + u)).filter(|&q| q != cell).collect();
    i64::from(lows[cell]) > 5 * i64::from(threshold)
        && near.iter().all(|&q| highs[q] <= lows[cell])
        && near.iter().filter(|&&q| lows[q] > 0).count() >= p.least as usize
}

/// Two images: the maps, images between, and every place asked for a sure peak.
fn one(rng: &mut Rng) -> bool {
    let known = Known::random(rng);
    let (w, h, ring) = (known.width, known.height, known.ring);
    let limits = zakdomp::response_limits(&known.low, &known.high, w, h, ring).expect("not refused");
    let (lows, highs) = (limits.lows, limits.highs);
    if (lows.clone(), highs.clone()) != known.cells() {
        return false;
    }
    let threshold = rng.pick(&[0, 1, 5, 20, 100, 800]);
    let p = Params {
        ring,
        threshold: threshold as f32,
        window: rng.from_to(0, 2) as u32,
        least: rng.from_to(0, 2) as u32,
        centroid: rng.from_to(0, 1) as u32,
        ..PLAIN
    };
    let params = zakdomp::Params {
        ring,
        window: p.window,
        least_neighbours: p.least,
        centroid_radius: p.centroid,
        ..zakdomp::Params::default()
    };
    let asked = |cell: usize| zakdomp::sure_peak(&lows, &highs, w, h, &params, threshold, cell % w, cell / w);
    let sure: Vec<usize> = (0..w * h).filter(|&cell| asked(cell) == Ok(true)).collect();
    let by_rule: Vec<usize> =
        (0..w * h).filter(|&cell| is_sure(&lows, &highs, w, h, &p, threshold, cell)).collect();
    let inside = (0..4).all(|_| {
        let pixels = known.between(rng);
        let image = Image { pixels: &pixels, width: w, height: h };
        let (fifths, peaks) = exact(image, &p);
        let own = zakdomp::response_limits(&pixels, &pixels, w, h, ring).expect("not refused");
        (0..w * h).all(|i| lows[i] <= fifths[i] && fifths[i] <= highs[i])
            && own.lows == fifths
            && own.highs == fifths
            && sure.iter().all(|cell| peaks.contains(cell))
    });
    sure == by_rule && inside
}

/// The first number whose condition holds.
fn first(conditions: &[(bool, u32)]) -> u32 {
    conditions.iter().find(|(holds, _)| *holds).map_or(0, |(_, number)| *number)
}

/// Lengths, sides, a ring and values that are wrong in any way at once: the numbers in their order, and buffers that stay as they were.
fn refused(rng: &mut Rng) -> bool {
    let side = |rng: &mut Rng| if rng.once_in(8) { LARGEST_SIDE + 1 } else { rng.from_to(0, 12) };
    let (w, h, ring) = (side(rng), side(rng), rng.pick(&[5, 10, 5, 6]));
    let area = if w.max(h) > LARGEST_SIDE { 9 } else { w * h };
    let mut near = |more: usize| (area + rng.pick(&[1, 1, 1, 1, 1, 0, 2]) + more).saturating_sub(1);
    let (low_length, high_length, lows_length, highs_length) = (near(0), near(0), near(1), near(1));
    let (low, mut high) = (vec![7u8; low_length], vec![7u8; high_length]);
    let crossed = rng.once_in(3) && high_length > 0;
    if crossed {
        high[rng.below(high_length)] = 6;
    }
    let (mut lows, mut highs) = (vec![-9; lows_length], vec![-9; highs_length]);
    // SAFETY: every slice is whole, none overlaps another, and the call keeps none.
    #[rustfmt::skip]
    let number = unsafe {
        zakdomp_response_limits(
            low.as_ptr(), low_length, high.as_ptr(), high_length, w, h, ring, lows.as_mut_ptr(), lows_length, highs.as_mut_ptr(), highs_length,
        )
    };
    let large = w > LARGEST_SIDE || h > LARGEST_SIDE;
    let misfit = |length: usize| length != w * h;
    let due = first(&[
        (large, SIDE),
        (misfit(low_length) || misfit(high_length), LENGTH),
        (crossed, CROSSED),
        (ring == 6, PARAMETER),
        (lows_length < w * h || highs_length < w * h, MAP_SHORT),
    ]);
    let kept = if due == 0 { w * h } else { 0 };
    let (window, centroid) = (rng.pick(&[0, 16, 17]), rng.pick(&[0, 16, 17]));
    let (x, y) = (rng.from_to(0, w), rng.from_to(0, h));
    let mut sure = 77;
    // SAFETY: both slices are whole, and the result is the function's own.
    #[rustfmt::skip]
    let asked = unsafe {
        zakdomp_sure_peak(
            lows.as_ptr(), lows_length, highs.as_ptr(), highs_length, w, h, ring, 0, window, 0, centroid, x, y, &mut sure,
        )
    };
    let due_too = first(&[
        (large, SIDE),
        (misfit(lows_length) || misfit(highs_length), LENGTH),
        (ring == 6 || window > 16 || centroid > 16, PARAMETER),
        (x >= w || y >= h, OUTSIDE),
    ]);
    u32::from(number) == due
        && lows[kept..].iter().chain(&highs[kept..]).all(|&cell| cell == -9)
        && u32::from(asked) == due_too
        && (sure == 77) == (due_too != 0)
}

/// `count` pairs of images, and `count` calls that may be refused.
pub fn run(count: u64, seed: u64) -> Tally {
    let mut tally = Tally::default();
    for case in 0..count {
        tally.check(&format!("limits {seed}-{case}"), one(&mut Rng::of_case(seed, 9, case)));
        tally.check(&format!("limits refused {seed}-{case}"), refused(&mut Rng::of_case(seed, 15, case)));
    }
    tally
}
