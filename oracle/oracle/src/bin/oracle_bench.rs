//! oracle_bench [N]: CPU times of the original's stages on synthetic boards, best of N (7).
use oracle::timing::{best_of, Subject};

fn main() {
    let n: usize = std::env::args().nth(1).map_or(7, |word| word.parse().expect("a number"));
    println!(
        "thread CPU times in ms, best of {n}; frame1 and frame3: one and three levels; boards of cells of 24"
    );
    println!("ring 5, threshold 30, window 2, least 2, centroid 2, merge 3.0, search 3");
    println!(
        "{:>10} {:>9} {:>6} {:>9} {:>9} {:>8} {:>9} {:>9} {:>9} {:>7} {:>8}",
        "frame",
        "response",
        "ns/px",
        "peaks",
        "centroids",
        "merge",
        "pyramid3",
        "frame1",
        "frame3",
        "peaks",
        "corners"
    );
    for (width, height) in [(96, 96), (640, 480), (1024, 1024), (4096, 4096)] {
        let s = Subject::board(width, height);
        let n = if width >= 4096 { n.min(5) } else { n };
        let response = best_of(n, || s.response());
        println!(
            "{:>10} {:>9.3} {:>6.2} {:>9.3} {:>9.4} {:>8.4} {:>9.3} {:>9.3} {:>9.3} {:>7} {:>8}",
            format!("{width}x{height}"),
            response,
            response * 1e6 / (width * height) as f64,
            best_of(n, || s.find_peaks()),
            best_of(n, || s.localize()),
            best_of(n, || s.merge()),
            best_of(n, || s.pyramid(3)),
            best_of(n, || s.frame(1)),
            best_of(n, || s.frame(3)),
            s.peaks.len(),
            format!("{}/{}", s.frame(1).len(), s.frame(3).len()),
        );
    }
}
