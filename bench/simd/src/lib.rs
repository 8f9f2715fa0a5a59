//! The original, built with `simd`, behind two functions for C.
#[path = "../../src/asked.rs"]
mod asked;

use asked::Asked;
use oracle::frame::{by_orchestrator, corners_of};
use oracle::image::Area;
use oracle::response::map_of;
use oracle::timing::ORIGINAL;

/// The response of a box. Its first `places` cells are written to `out`; returns how many it has.
///
/// # Safety
/// The image is there, and so are the places.
#[no_mangle]
pub unsafe extern "C" fn simd_response(
    asked: &Asked,
    corners: &[usize; 4],
    out: *mut f32,
    places: usize,
) -> usize {
    let [x0, y0, x1, y1] = *corners;
    let map = map_of(asked.image(), asked.params().ring, Area { x0, y0, x1, y1 });
    write(map.data(), out, places);
    map.data().len()
}

/// A whole frame. Column, row and strength of its first corners are written to `out`; returns how many corners it has.
///
/// # Safety
/// The image is there, and so are the places.
#[no_mangle]
pub unsafe extern "C" fn simd_frame(
    asked: &Asked,
    orchestrated: bool,
    out: *mut f32,
    places: usize,
) -> usize {
    let (image, params) = (asked.image(), asked.params());
    let corners =
        if orchestrated { by_orchestrator(image, &params) } else { corners_of(image, &params, &ORIGINAL) };
    if places > 0 {
        let floats: Vec<f32> = corners.iter().flat_map(|c| [c.x, c.y, c.strength]).collect();
        write(&floats, out, places);
    }
    corners.len()
}

unsafe fn write(floats: &[f32], out: *mut f32, places: usize) {
    std::ptr::copy_nonoverlapping(floats.as_ptr(), out, floats.len().min(places));
}
