//! The functions of libzakdomp.a that this crate calls, over slices.
use crate::finder::Buffers;
use crate::lists::{Corner, Lists};
use crate::{raw, Enough, Params, Refusal, Shown};
use std::ops::Range;

/// By which responses the peaks of a map are chosen.
#[derive(Clone, Copy)]
pub(crate) enum Choice {
    Computed,
    Exact,
}

/// What corners are found in: the pixels of an image, or an uploaded photograph.
pub(crate) enum Given<'a> {
    Image(&'a [u8]),
    Upload(&'a [u8]),
}

/// The results, unless the number is one of a refusal.
fn unless_refused<T>(number: u8, results: T) -> Result<T, Refusal> {
    if number == 0 {
        Ok(results)
    } else {
        Err(Refusal::of(number))
    }
}

pub(crate) fn level_bytes(width: usize, height: usize, p: &Params) -> usize {
    // SAFETY: numbers only.
    unsafe { raw::zakdomp_level_bytes(width, height, p.levels, p.minimum_side) }
}

/// How many corners there are, first in their buffer, and how many ties.
#[rustfmt::skip]
pub(crate) fn find_corners(
    choice: Choice, given: &Given, (width, height): (usize, usize), p: &Params, buffers: &mut Buffers,
) -> Result<(usize, u64), Refusal> {
    let (mut count, mut ties) = (0, 0);
    let Buffers { map, levels, seeds, corners } = buffers;
    let Lists { xs: sx, ys: sy, strengths: ss, neighbours: sn } = seeds;
    let Lists { xs: cx, ys: cy, strengths: cs, neighbours: cn } = corners;
    macro_rules! call {
        ($function:ident, $slice:expr $(, $side:expr)*) => {
            raw::$function(
                $slice.as_ptr(), $slice.len(), $($side,)*
                p.ring, p.threshold, p.window, p.least_neighbours, p.centroid_radius, p.merge_radius,
                p.levels, p.minimum_side, p.search_radius,
                map.as_mut_ptr(), map.len(), levels.as_mut_ptr(), levels.len(),
                sx.as_mut_ptr(), sx.len(), sy.as_mut_ptr(), sy.len(),
                ss.as_mut_ptr(), ss.len(), sn.as_mut_ptr(), sn.len(),
                cx.as_mut_ptr(), cx.len(), cy.as_mut_ptr(), cy.len(),
                cs.as_mut_ptr(), cs.len(), cn.as_mut_ptr(), cn.len(),
                &raw mut count, &raw mut ties,
            )
        };
    }
    // SAFETY: every slice is whole, none overlaps another, and the call keeps none. It is proved to stay within their
    // lengths.
    let number = unsafe {
        match (given, choice) {
            (Given::Image(pixels), Choice::Computed) => call!(zakdomp_find_corners, pixels, width, height),
            (Given::Image(pixels), Choice::Exact) => call!(zakdomp_find_exact_corners, pixels, width, height),
            (Given::Upload(upload), Choice::Computed) => call!(zakdomp_find_corners_pgm, upload),
            (Given::Upload(upload), Choice::Exact) => call!(zakdomp_find_exact_corners_pgm, upload),
        }
    };
    unless_refused(number, (count, ties))
}

/// The place of the pixels of an upload, and its sides.
pub(crate) fn pgm(upload: &[u8]) -> Result<(usize, (usize, usize)), Refusal> {
    let (mut at, mut width, mut height) = (0, 0, 0);
    // SAFETY: the slice is whole, and the three numbers are the function's own.
    let number = unsafe {
        raw::zakdomp_pgm(upload.as_ptr(), upload.len(), &raw mut at, &raw mut width, &raw mut height)
    };
    unless_refused(number, (at, (width, height)))
}

/// The sides of the clipped box, whose cells are first in the map.
#[rustfmt::skip]
pub(crate) fn response(
    image: &[u8], width: usize, height: usize, ring: u32, across: Range<usize>, down: Range<usize>, map: &mut [f32],
) -> Result<(usize, usize), Refusal> {
    let (mut columns, mut rows) = (0, 0);
    // SAFETY: as in `find_corners`.
    let number = unsafe {
        raw::zakdomp_response(
            image.as_ptr(), image.len(), width, height, ring, across.start, down.start, across.end, down.end,
            map.as_mut_ptr(), map.len(), &raw mut columns, &raw mut rows,
        )
    };
    unless_refused(number, (columns, rows))
}

#[rustfmt::skip]
pub(crate) fn retouch(
    image: &mut [u8], width: usize, height: usize, ring: u32, map: &mut [f32], x: usize, y: usize, value: u8,
) -> Result<usize, Refusal> {
    let mut redone = 0;
    // SAFETY: as in `find_corners`.
    let number = unsafe {
        raw::zakdomp_retouch(
            image.as_mut_ptr(), image.len(), width, height, ring, map.as_mut_ptr(), map.len(), x, y, value,
            &raw mut redone,
        )
    };
    unless_refused(number, redone)
}

#[rustfmt::skip]
pub(crate) fn response_limits(
    low: &[u8], high: &[u8], width: usize, height: usize, ring: u32, lows: &mut [i32], highs: &mut [i32],
) -> Result<(), Refusal> {
    // SAFETY: as in `find_corners`.
    let number = unsafe {
        raw::zakdomp_response_limits(
            low.as_ptr(), low.len(), high.as_ptr(), high.len(), width, height, ring,
            lows.as_mut_ptr(), lows.len(), highs.as_mut_ptr(), highs.len(),
        )
    };
    unless_refused(number, ())
}

#[rustfmt::skip]
pub(crate) fn sure_peak(
    lows: &[i32], highs: &[i32], width: usize, height: usize, p: &Params, threshold: u32, x: usize, y: usize,
) -> Result<bool, Refusal> {
    let mut sure = 0;
    // SAFETY: both slices are whole, and the result is the function's own.
    let number = unsafe {
        raw::zakdomp_sure_peak(
            lows.as_ptr(), lows.len(), highs.as_ptr(), highs.len(), width, height,
            p.ring, threshold, p.window, p.least_neighbours, p.centroid_radius, x, y, &raw mut sure,
        )
    };
    unless_refused(number, sure == 1)
}

#[rustfmt::skip]
pub(crate) fn has_peaks(
    map: &[f32], width: usize, height: usize, p: &Params, wanted: usize,
) -> Result<Enough, Refusal> {
    let (mut enough, mut rows) = (0, 0);
    // SAFETY: the slice is whole, and the two results are the function's own.
    let number = unsafe {
        raw::zakdomp_has_peaks(
            map.as_ptr(), map.len(), width, height,
            p.ring, p.threshold, p.window, p.least_neighbours, p.centroid_radius,
            wanted, &raw mut enough, &raw mut rows,
        )
    };
    unless_refused(number, Enough { enough: enough == 1, rows })
}

#[rustfmt::skip]
pub(crate) fn show_corner(lists: &Lists, count: usize, change: u32, place: usize) -> Result<Shown, Refusal> {
    let Lists { xs, ys, strengths: ss, neighbours: ns } = lists;
    let (mut corner, mut shown) = (Corner::default(), 0);
    // SAFETY: every slice is whole, and the results are the function's own.
    let number = unsafe {
        raw::zakdomp_show_corner(
            xs.as_ptr(), xs.len(), ys.as_ptr(), ys.len(), ss.as_ptr(), ss.len(), ns.as_ptr(), ns.len(),
            count, change, place,
            &raw mut corner.x, &raw mut corner.y, &raw mut corner.strength, &raw mut corner.neighbours,
            &raw mut shown,
        )
    };
    unless_refused(number, Shown { corner, change: shown })
}

#[rustfmt::skip]
pub(crate) fn strike_corner(
    lists: &mut Lists, count: &mut usize, change: &mut u32, place: usize, shown: u32,
) -> Result<(), Refusal> {
    let Lists { xs, ys, strengths: ss, neighbours: ns } = lists;
    // SAFETY: as in `find_corners`.
    let number = unsafe {
        raw::zakdomp_strike_corner(
            xs.as_mut_ptr(), xs.len(), ys.as_mut_ptr(), ys.len(), ss.as_mut_ptr(), ss.len(),
            ns.as_mut_ptr(), ns.len(), count, change, place, shown,
        )
    };
    unless_refused(number, ())
}

/// How many corners are left, first in `left`.
#[rustfmt::skip]
pub(crate) fn merge_by_table(
    lists: &mut Lists, count: usize, radius: f32, table: &mut [f32],
) -> Result<usize, Refusal> {
    let Lists { xs, ys, strengths: ss, neighbours: ns } = lists;
    let mut kept = 0;
    // SAFETY: as in `find_corners`.
    let number = unsafe {
        raw::zakdomp_merge_by_table(
            xs.as_mut_ptr(), xs.len(), ys.as_mut_ptr(), ys.len(), ss.as_mut_ptr(), ss.len(),
            ns.as_mut_ptr(), ns.len(), count, radius, table.as_mut_ptr(), table.len(), &raw mut kept,
        )
    };
    unless_refused(number, kept)
}

/// How many corners are left, first in the lists.
#[rustfmt::skip]
pub(crate) fn merge_naive(lists: &mut Lists, count: usize, radius: f32) -> Result<usize, Refusal> {
    let Lists { xs, ys, strengths: ss, neighbours: ns } = lists;
    let mut kept = 0;
    // SAFETY: as in `find_corners`.
    let number = unsafe {
        raw::zakdomp_merge_naive(
            xs.as_mut_ptr(), xs.len(), ys.as_mut_ptr(), ys.len(), ss.as_mut_ptr(), ss.len(),
            ns.as_mut_ptr(), ns.len(), count, radius, &raw mut kept,
        )
    };
    unless_refused(number, kept)
}

/// How long the stream is, first in its buffer.
#[rustfmt::skip]
pub(crate) fn write_stream(
    image: &[u8], width: usize, height: usize, p: &Params, stream: &mut [u8],
) -> Result<usize, Refusal> {
    let mut length = 0;
    // SAFETY: as in `find_corners`.
    let number = unsafe {
        raw::zakdomp_write_stream(
            image.as_ptr(), image.len(), width, height,
            p.ring, p.threshold.to_bits(), p.window, p.least_neighbours, p.centroid_radius, p.merge_radius.to_bits(),
            p.levels, p.minimum_side, p.search_radius,
            stream.as_mut_ptr(), stream.len(), &raw mut length,
        )
    };
    unless_refused(number, length)
}

pub(crate) fn holding(kind: u8, start: u64, time: u64) -> Result<u8, Refusal> {
    let mut letter = 0;
    // SAFETY: numbers, and one byte that is the function's own.
    let number = unsafe { raw::zakdomp_holding(kind, start, time, &raw mut letter) };
    unless_refused(number, letter)
}

pub(crate) fn holdings(stream: &[u8]) -> Vec<u8> {
    let mut output = vec![0; raw::HOLDINGS];
    // SAFETY: the slice is whole, the output has the length that the function asks for, and the two do not overlap.
    let length = unsafe { raw::zakdomp_holdings(stream.as_ptr(), stream.len(), output.as_mut_ptr()) };
    output.truncate(length);
    output
}
