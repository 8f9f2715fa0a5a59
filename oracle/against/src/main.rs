//! against N SEED [FOLDER]: as oracle_compare, with our corner finder linked in instead of a process for each stream.
//! Besides: N frames of the library, in buffers of every size, each of which is compared afterwards; N by the exact
//! choice, likewise, and some uploads; N maps that are asked for enough peaks; N pixels that are changed; N pairs of
//! images, a low and a high value for each pixel; N lists of which corners are struck; N that are merged apart; N that
//! are merged with a table; and N that are merged by distance alone.
mod apart;
mod exact;
mod frames;
mod limits;
mod merging;
mod retouching;
mod striking;
mod table;

use oracle::compare::{cases, run, run_enough, run_library};
use oracle::refusal::Refusal;
use oracle::sample::peaks;
use std::path::Path;
use std::process::ExitCode;
use zakdomp::raw::{zakdomp_corners, zakdomp_has_peaks, LONGEST};

fn answer(stream: &[u8]) -> Vec<u8> {
    let mut output = vec![0; LONGEST];
    // SAFETY: both slices are whole and apart, the second has LONGEST bytes, and the call keeps neither.
    let length = unsafe { zakdomp_corners(stream.as_ptr(), stream.len(), output.as_mut_ptr()) };
    output.truncate(length);
    output
}

fn enough(case: &peaks::Case, wanted: usize) -> Result<(bool, usize), Refusal> {
    let p = &case.params;
    let (mut yes, mut rows) = (0, 0);
    // SAFETY: the slice is whole, and the two results are the function's own.
    let number = unsafe {
        zakdomp_has_peaks(
            case.cells.as_ptr(),
            case.cells.len(),
            case.width,
            case.height,
            p.ring,
            p.threshold,
            p.window,
            p.least,
            p.centroid,
            wanted,
            &mut yes,
            &mut rows,
        )
    };
    if number == 0 {
        Ok((yes == 1, rows))
    } else {
        Err(number.into())
    }
}

fn main() -> ExitCode {
    let words: Vec<String> = std::env::args().skip(1).collect();
    let usage = "usage: against N SEED [FOLDER]";
    let number = |i: usize| words.get(i).and_then(|w| w.parse().ok()).expect(usage);
    let (count, seed) = (number(0), number(1));
    let folder = words.get(2).map_or("differing", String::as_str);
    let folder = Path::new(folder);
    let frames = run(cases(count, seed), folder, answer)
        .and(run_library(count, seed, folder, frames::computed))
        .and(exact::run(count, seed, folder));
    let maps =
        run_enough(count, seed, enough).and(retouching::run(count, seed)).and(limits::run(count, seed));
    let lists = striking::run(count, seed)
        .and(apart::run(count, seed))
        .and(table::run(count, seed))
        .and(merging::run(count, seed));
    frames.and(maps).and(lists).finish()
}
