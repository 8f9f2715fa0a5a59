//! Ours and the C, over slices.
use oracle::image::{Area, Image};
use oracle::params::Params;
use oracle::Corner;
use zakdomp::raw::*;

extern "C" {
    fn response_in_c(img: *const u8, w: usize, h: usize, ring: i32, map: *mut f32);
}

/// Columns, rows and strengths, and the neighbours, which the original does not have.
#[derive(Clone)]
pub struct List {
    floats: [Vec<f32>; 3],
    neighbours: Vec<u32>,
}

impl List {
    pub fn of(corners: &[Corner]) -> Self {
        let field = |f: fn(&Corner) -> f32| corners.iter().map(f).collect();
        let floats = [field(|c| c.x), field(|c| c.y), field(|c| c.strength)];
        Self { floats, neighbours: vec![0; corners.len()] }
    }

    pub fn empty(places: usize) -> Self {
        Self { floats: [(); 3].map(|()| vec![0.0; places]), neighbours: vec![0; places] }
    }

    /// The bits of the first `n`.
    pub fn bits(&self, n: usize) -> Vec<[u32; 3]> {
        (0..n).map(|i| [0, 1, 2].map(|k| self.floats[k][i].to_bits())).collect()
    }

    /// Zeros in every place, as a frame leaves them behind its corners.
    pub fn clear(&mut self) {
        self.floats.iter_mut().for_each(|floats| floats.fill(0.0));
        self.neighbours.fill(0);
    }

    pub fn copy_from(&mut self, other: &List) {
        for k in 0..3 {
            self.floats[k][..other.floats[k].len()].copy_from_slice(&other.floats[k]);
        }
        self.neighbours[..other.neighbours.len()].copy_from_slice(&other.neighbours);
    }
}

/// The bits of a list of the original's.
pub fn bits(corners: &[Corner]) -> Vec<[u32; 3]> {
    List::of(corners).bits(corners.len())
}

// In each of these: SAFETY: every slice is whole, none overlaps another, and the call keeps none.

/// Where the pixels of a PGM file begin, and the sides.
pub fn pgm(upload: &[u8]) -> (usize, usize, usize) {
    let (mut at, mut width, mut height) = (0, 0, 0);
    let number = unsafe { zakdomp_pgm(upload.as_ptr(), upload.len(), &mut at, &mut width, &mut height) };
    assert_eq!(number, 0, "no PGM file");
    (at, width, height)
}

/// The response of a box; the map's sides.
pub fn response_of(image: Image, ring: u32, area: Area, map: &mut [f32]) -> (usize, usize) {
    let (mut width, mut height) = (0, 0);
    let (pixels, Area { x0, y0, x1, y1 }) = (image.pixels, area);
    #[rustfmt::skip]
    let number = unsafe {
        zakdomp_response(
            pixels.as_ptr(), pixels.len(), image.width, image.height, ring, x0, y0, x1, y1,
            map.as_mut_ptr(), map.len(), &mut width, &mut height,
        )
    };
    assert_eq!(number, 0);
    (width, height)
}

/// The response of the whole image.
pub fn response(image: Image, ring: u32, map: &mut [f32]) {
    assert_eq!(response_of(image, ring, image.whole(), map), (image.width, image.height));
}

/// The same in C; the sides are above twice the ring.
pub fn c_response(image: Image, ring: u32, map: &mut [f32]) {
    let (w, h) = (image.width, image.height);
    assert!(image.pixels.len() == w * h && map.len() >= w * h && w.min(h) > 2 * ring as usize);
    unsafe { response_in_c(image.pixels.as_ptr(), w, h, ring as i32, map.as_mut_ptr()) }
}

#[allow(clippy::too_many_arguments)]
pub fn retouch(
    pixels: &mut [u8],
    w: usize,
    h: usize,
    ring: u32,
    map: &mut [f32],
    x: usize,
    y: usize,
    value: u8,
) -> usize {
    zakdomp::retouch(pixels, w, h, ring, map, x, y, value).expect("not refused")
}

/// A low and a high number of fifths for each cell.
pub fn limits(low: &[u8], high: &[u8], w: usize, h: usize, ring: u32, lows: &mut [i32], highs: &mut [i32]) {
    #[rustfmt::skip]
    let number = unsafe {
        zakdomp_response_limits(
            low.as_ptr(), low.len(), high.as_ptr(), high.len(), w, h, ring,
            lows.as_mut_ptr(), lows.len(), highs.as_mut_ptr(), highs.len(),
        )
    };
    assert_eq!(number, 0);
}

pub fn peaks(map: &[f32], w: usize, h: usize, p: &Params, list: &mut List) -> usize {
    let (mut added, mut ties) = (0, 0);
    let List { floats: [x, y, s], neighbours: k } = list;
    #[rustfmt::skip]
    let number = unsafe {
        zakdomp_peaks(
            map.as_ptr(), map.len(), w, h, p.ring, p.threshold, p.window, p.least, p.centroid,
            x.as_mut_ptr(), x.len(), y.as_mut_ptr(), y.len(), s.as_mut_ptr(), s.len(), k.as_mut_ptr(), k.len(),
            0, &mut added, &mut ties,
        )
    };
    assert_eq!(number, 0);
    added
}

/// How many rows were looked at for so many peaks, which are there.
pub fn enough_peaks(map: &[f32], w: usize, h: usize, p: &Params, wanted: usize) -> usize {
    let (mut enough, mut rows) = (0, 0);
    #[rustfmt::skip]
    let number = unsafe {
        zakdomp_has_peaks(
            map.as_ptr(), map.len(), w, h, p.ring, p.threshold, p.window, p.least, p.centroid,
            wanted, &mut enough, &mut rows,
        )
    };
    assert_eq!((number, enough), (0, 1));
    rows
}

/// Of the first `count` of a list.
pub fn centroids(map: &[f32], w: usize, h: usize, radius: u32, list: &mut List, count: usize) {
    let [x, y, _] = &mut list.floats;
    for i in 0..count {
        let mut mass = 0.0;
        let number = unsafe {
            zakdomp_centroid(map.as_ptr(), map.len(), w, h, radius, &mut x[i], &mut y[i], &mut mass)
        };
        assert!(number == 0 && mass > 0.0);
    }
}

pub fn merge(list: &mut List, count: usize, radius: f32) -> usize {
    let mut kept = 0;
    let List { floats: [x, y, s], neighbours: k } = list;
    #[rustfmt::skip]
    let number = unsafe {
        zakdomp_merge(
            x.as_mut_ptr(), x.len(), y.as_mut_ptr(), y.len(), s.as_mut_ptr(), s.len(), k.as_mut_ptr(), k.len(),
            count, radius, &mut kept,
        )
    };
    assert_eq!(number, 0);
    kept
}

/// The same with a table.
pub fn merge_by_table(list: &mut List, count: usize, radius: f32, table: &mut [f32]) -> usize {
    let mut kept = 0;
    let List { floats: [x, y, s], neighbours: k } = list;
    #[rustfmt::skip]
    let number = unsafe {
        zakdomp_merge_by_table(
            x.as_mut_ptr(), x.len(), y.as_mut_ptr(), y.len(), s.as_mut_ptr(), s.len(), k.as_mut_ptr(), k.len(),
            count, radius, table.as_mut_ptr(), table.len(), &mut kept,
        )
    };
    assert_eq!(number, 0);
    kept
}

/// What a merge of a list would leave, in a separate one.
pub fn merge_apart(list: &List, count: usize, radius: f32, left: &mut List) -> usize {
    let mut kept = 0;
    let List { floats: [x, y, s], neighbours: k } = list;
    let List { floats: [mx, my, ms], neighbours: mn } = left;
    #[rustfmt::skip]
    let number = unsafe {
        zakdomp_merge_apart(
            x.as_ptr(), x.len(), y.as_ptr(), y.len(), s.as_ptr(), s.len(), k.as_ptr(), k.len(), count, radius,
            mx.as_mut_ptr(), mx.len(), my.as_mut_ptr(), my.len(), ms.as_mut_ptr(), ms.len(), mn.as_mut_ptr(), mn.len(),
            &mut kept,
        )
    };
    assert_eq!(number, 0);
    kept
}

pub fn levels(image: Image, p: &Params, levels: &mut [u8]) -> usize {
    let (mut built, pixels) = (0, image.pixels);
    #[rustfmt::skip]
    let number = unsafe {
        zakdomp_levels(
            pixels.as_ptr(), pixels.len(), image.width, image.height, p.levels, p.minimum as usize,
            levels.as_mut_ptr(), levels.len(), &mut built,
        )
    };
    assert_eq!(number, 0);
    built
}

/// The buffers of a frame.
pub struct Buffers {
    pub map: Vec<f32>,
    pub levels: Vec<u8>,
    pub seeds: List,
    pub corners: List,
}

impl Buffers {
    pub fn new(cells: usize, places: usize) -> Self {
        let list = || List::empty(places);
        Self { map: vec![0.0; cells], levels: vec![0; cells], seeds: list(), corners: list() }
    }
}

/// `zakdomp_find_corners`, of this library or of another.
#[rustfmt::skip]
pub type Find = unsafe extern "C" fn(
    *const u8, usize, usize, usize, u32, f32, u32, u32, u32, f32, u32, usize, u32, *mut f32, usize, *mut u8, usize,
    *mut f32, usize, *mut f32, usize, *mut f32, usize, *mut u32, usize,
    *mut f32, usize, *mut f32, usize, *mut f32, usize, *mut u32, usize, *mut usize, *mut u64,
) -> u8;

/// How many corners a frame has.
pub fn frame(image: Image, p: &Params, b: &mut Buffers) -> usize {
    frame_by(zakdomp_find_corners, image, p, b)
}

#[rustfmt::skip]
pub fn frame_by(find: Find, image: Image, p: &Params, b: &mut Buffers) -> usize {
    let (mut count, mut ties) = (0, 0);
    let List { floats: [sx, sy, ss], neighbours: sn } = &mut b.seeds;
    let List { floats: [cx, cy, cs], neighbours: cn } = &mut b.corners;
    let number = unsafe {
        find(
            image.pixels.as_ptr(), image.pixels.len(), image.width, image.height,
            p.ring, p.threshold, p.window, p.least, p.centroid, p.merge, p.levels, p.minimum as usize, p.search,
            b.map.as_mut_ptr(), b.map.len(), b.levels.as_mut_ptr(), b.levels.len(),
            sx.as_mut_ptr(), sx.len(), sy.as_mut_ptr(), sy.len(), ss.as_mut_ptr(), ss.len(), sn.as_mut_ptr(), sn.len(),
            cx.as_mut_ptr(), cx.len(), cy.as_mut_ptr(), cy.len(), cs.as_mut_ptr(), cs.len(), cn.as_mut_ptr(), cn.len(),
            &mut count, &mut ties,
        )
    };
    assert_eq!(number, 0);
    count
}
