//! `detect_peaks_from_response_with_refine_radius`: the peaks of a map.
use crate::buffers::CornerBuffer;
use crate::image::check_map;
use crate::params::Params;
use crate::refusal::{refuse_if, Refusal, LARGEST_SIDE, LIST_SHORT};
use chess_corners_core::{detect_peaks_from_response_with_refine_radius, Corner, ResponseMap};

/// The peaks of a map, in row order. Ring, threshold, window, least neighbours and centroid radius count.
pub fn peaks_of(map: &ResponseMap, params: &Params) -> Vec<Corner> {
    detect_peaks_from_response_with_refine_radius(map, &params.chess(), params.centroid as i32)
}

/// How many cells of the window about a peak, clipped to the map and without its centre, are so.
fn count_about(map: &ResponseMap, window: u32, peak: &Corner, is: impl Fn(f32) -> bool) -> usize {
    let (x, y, r) = (peak.x as usize, peak.y as usize, window as usize);
    let columns = x.saturating_sub(r)..map.width().min(x + r + 1);
    let rows = y.saturating_sub(r)..map.height().min(y + r + 1);
    let cells = rows.flat_map(|v| columns.clone().map(move |u| (u, v)));
    cells.filter(|&(u, v)| (u, v) != (x, y) && is(map.at(u, v))).count()
}

/// How many cells of its window equal a peak; none where one is larger (RULES 23.1), as about a peak that only the
/// exact choice has.
pub fn ties_at(map: &ResponseMap, window: u32, peak: &Corner) -> u64 {
    let value = map.at(peak.x as usize, peak.y as usize);
    if count_about(map, window, peak, |cell| cell > value) > 0 {
        return 0;
    }
    count_about(map, window, peak, |cell| cell == value) as u64
}

/// How many cells of its window are above 0 (RULES 24.1), for each of some peaks.
pub fn neighbours_of(map: &ResponseMap, window: u32, peaks: &[Corner]) -> Vec<u32> {
    peaks.iter().map(|peak| count_about(map, window, peak, |cell| cell > 0.0) as u32).collect()
}

/// Adds a map's peaks behind the `held` corners of a buffer: how many, or refusal 1, 2, 3 or 10.
pub fn find_peaks(
    cells: &[f32],
    width: usize,
    height: usize,
    params: &Params,
    buffer: &mut CornerBuffer,
    held: usize,
) -> Result<usize, Refusal> {
    check_map(cells.len(), width, height, LARGEST_SIDE)?;
    params.check_window()?;
    let map = ResponseMap::new(width, height, cells.to_vec());
    let list = peaks_of(&map, params);
    let free = buffer.places().checked_sub(held);
    refuse_if(free.is_none_or(|places| places < list.len()), LIST_SHORT)?;
    buffer.put(held, &list, &neighbours_of(&map, params.window, &list));
    Ok(list.len())
}

/// Whether a map has at least `wanted` peaks, and the rows looked at (RULES 26), by counting all; or refusal 1, 2 or 3.
pub fn has_peaks(
    cells: &[f32],
    width: usize,
    height: usize,
    params: &Params,
    wanted: usize,
) -> Result<(bool, usize), Refusal> {
    check_map(cells.len(), width, height, LARGEST_SIDE)?;
    params.check_window()?;
    let list = peaks_of(&ResponseMap::new(width, height, cells.to_vec()), params);
    let border = params.border();
    let inside = if width.min(height) <= 2 * border { 0 } else { height - 2 * border };
    let last = wanted.checked_sub(1).map(|place| list.get(place));
    let rows = last.map_or(0, |peak| peak.map_or(inside, |corner| corner.y as usize - border + 1));
    Ok((wanted <= list.len(), rows))
}

#[cfg(test)]
mod tests {
    use super::*;

    #[test]
    fn a_beaten_cell_has_no_ties() {
        let map = ResponseMap::new(4, 1, vec![2.0, 2.0, 3.0, 3.0]);
        let ties = |x: f32| ties_at(&map, 1, &Corner::new(x, 0.0, 0.0));
        assert_eq!([0.0, 1.0, 2.0, 3.0].map(ties), [1, 0, 1, 1]);
    }
}
