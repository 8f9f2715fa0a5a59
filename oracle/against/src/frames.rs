//! The four functions that find the corners of a frame, and what each leaves.
use oracle::buffers::Buffers;
use oracle::generate::refused_frames::Case;
use oracle::sample::library::Left;
use zakdomp::raw::{
    zakdomp_find_corners, zakdomp_find_corners_pgm, zakdomp_find_exact_corners,
    zakdomp_find_exact_corners_pgm,
};

/// What the places for count and ties hold before a call. A refused call leaves them so, which is told as 0.
const BEFORE: usize = 77;

/// Calls a function on an image or an upload, by the parameters of a frame and in buffers of its sizes.
macro_rules! left {
    ($find:ident($($given:expr),*), $case:expr) => {{
        let (p, mut b) = (&$case.params, Buffers::before(&$case.sizes));
        let (mut count, mut ties) = (BEFORE, BEFORE as u64);
        let (s, c) = (&mut b.seeds, &mut b.corners);
        // SAFETY: every slice is whole, none overlaps another, and the call keeps none.
        let number = unsafe {
            $find(
                $($given,)* p.ring, p.threshold, p.window, p.least, p.centroid, p.merge,
                p.levels, p.minimum as usize, p.search,
                b.map.as_mut_ptr(), b.map.len(), b.levels.as_mut_ptr(), b.levels.len(),
                s.x.as_mut_ptr(), s.x.len(), s.y.as_mut_ptr(), s.y.len(), s.strength.as_mut_ptr(), s.strength.len(),
                s.neighbours.as_mut_ptr(), s.neighbours.len(),
                c.x.as_mut_ptr(), c.x.len(), c.y.as_mut_ptr(), c.y.len(), c.strength.as_mut_ptr(), c.strength.len(),
                c.neighbours.as_mut_ptr(), c.neighbours.len(), &mut count, &mut ties,
            )
        };
        if number != 0 {
            (count, ties) = (count.wrapping_sub(BEFORE), ties.wrapping_sub(BEFORE as u64));
        }
        Left { number: number.into(), count, ties, buffers: b }
    }};
}

pub fn computed(case: &Case) -> Left {
    left!(zakdomp_find_corners(case.pixels.as_ptr(), case.pixels.len(), case.width, case.height), case)
}

pub fn exact(case: &Case) -> Left {
    left!(zakdomp_find_exact_corners(case.pixels.as_ptr(), case.pixels.len(), case.width, case.height), case)
}

pub fn computed_pgm(upload: &[u8], case: &Case) -> Left {
    left!(zakdomp_find_corners_pgm(upload.as_ptr(), upload.len()), case)
}

pub fn exact_pgm(upload: &[u8], case: &Case) -> Left {
    left!(zakdomp_find_exact_corners_pgm(upload.as_ptr(), upload.len()), case)
}
