//! The fixed sample: answers of the oracle as files for a replay program that has no Rust at hand. SAMPLE.md describes
//! the format field by field.

pub mod boxes;
pub mod centroids;
pub mod file;
pub mod format;
pub mod frames;
pub mod levels;
pub mod library;
pub mod listings;
pub mod merges;
pub mod numbers;
pub mod peaks;
pub mod responses;
pub mod streams;

pub use file::File;

/// The seed of the sample that the replay program runs.
pub const SEED: u64 = 1;

/// All files of the sample.
pub fn files(seed: u64) -> Vec<File> {
    vec![
        frames::file(seed),
        library::file(seed),
        responses::file(seed),
        peaks::file(seed),
        centroids::file(seed),
        boxes::file(seed),
        levels::file(seed),
        merges::file(seed),
        streams::file(seed),
        listings::file(seed),
        numbers::file(seed),
    ]
}

#[cfg(test)]
mod tests {
    use super::*;

    /// The refusals that a file must hold.
    fn refusals(name: &str) -> &'static [u32] {
        match name {
            "frames.bin" => &[1, 3, 5, 6, 7, 10, 11],
            "library.bin" => &[1, 2, 3, 5, 8, 9, 10],
            "responses.bin" => &[1, 2, 3, 8],
            "peaks.bin" => &[1, 2, 3, 10],
            "centroids.bin" => &[1, 2, 3, 4],
            "boxes.bin" => &[1, 3, 4],
            "levels.bin" => &[1, 2, 3, 9],
            "merges.bin" => &[4, 5, 10],
            "streams.bin" => &[1, 3, 5, 6, 7, 11],
            _ => &[],
        }
    }

    #[test]
    fn the_sample_keeps_to_its_description() {
        let files = files(SEED);
        for file in &files {
            assert_eq!(format::walk(&file.finished()), Ok(file.records), "{}", file.name);
            let due: Vec<u32> = file.refusals.keys().copied().filter(|&number| number > 0).collect();
            assert_eq!(due, refusals(file.name), "{}", file.name);
            assert!(file.largest_body <= 25_027, "{}", file.name);
        }
        let size: usize = files.iter().map(|file| file.finished().len()).sum();
        assert!(size < 3_100_000, "{size} bytes");
    }
}
