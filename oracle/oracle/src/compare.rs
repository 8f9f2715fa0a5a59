//! Holds another implementation of `corners` to the oracle, stream by stream, one of the library's frame, buffer by buffer, and one of
//! `has_peaks`, map by map.
use crate::generate::frames::{damaged_stream, random_stream};
use crate::generate::refused_frames::Case as Frame;
use crate::generate::{hunted, refused_streams};
use crate::params::Params;
use crate::pass::{Steps, STEPS};
use crate::peaks::{has_peaks, peaks_of};
use crate::program::corners;
use crate::refusal::Refusal;
use crate::sample::library::{due, put, random, Left};
use crate::sample::{peaks, File};
use crate::stream::write;
use crate::tally::Tally;
use crate::ResponseMap;
use std::fs;
use std::path::Path;

/// A stream and a name for the file that keeps it where the answers differ.
pub struct Case {
    pub name: String,
    pub stream: Vec<u8>,
}

/// `count` random streams, a fifth as many damaged ones, and the fixed ones: hunted frames and each refusal.
pub fn cases(count: u64, seed: u64) -> impl Iterator<Item = Case> {
    let random = (0..count)
        .map(move |case| Case { name: format!("random-{seed}-{case}"), stream: random_stream(seed, case) });
    let damaged = (0..count / 5)
        .map(move |case| Case { name: format!("damaged-{seed}-{case}"), stream: damaged_stream(seed, case) });
    let found = hunted::FOUND.into_iter().map(|(road, number)| Case {
        name: format!("hunted-{road:?}-{number}"),
        stream: write(&road.frame(number)),
    });
    let refused = refused_streams::cases()
        .into_iter()
        .enumerate()
        .map(|(case, r)| Case { name: format!("refusal-{case}"), stream: r.stream });
    random.chain(damaged).chain(found).chain(refused)
}

/// Runs `answer` on every case. A differing stream is left in `folder` as NAME.in, with NAME.due and NAME.got.
pub fn run(
    cases: impl Iterator<Item = Case>,
    folder: &Path,
    mut answer: impl FnMut(&[u8]) -> Vec<u8>,
) -> Tally {
    let mut tally = Tally::default();
    for case in cases {
        let due = corners(&case.stream).into_bytes();
        let got = answer(&case.stream);
        if got != due {
            keep(folder, &case, &due, &got);
        }
        tally.check(&case.name, got == due);
    }
    tally
}

fn keep(folder: &Path, case: &Case, due: &[u8], got: &[u8]) {
    fs::create_dir_all(folder).expect("a folder for differing streams");
    for (ending, bytes) in [("in", &case.stream[..]), ("due", due), ("got", got)] {
        let file = folder.join(format!("{}.{ending}", case.name));
        fs::write(file, bytes).expect("a file for a differing stream");
    }
}

/// Runs `answer` on `count` random frames of the library.
pub fn run_library(count: u64, seed: u64, folder: &Path, answer: impl FnMut(&Frame) -> Left) -> Tally {
    let cases = (0..count).map(|number| (format!("library-{seed}-{number}"), random(seed, number)));
    run_frames(cases, &STEPS, folder, answer)
}

/// A frame and what is left of it, all but the ties, as a file of one record (SAMPLE.md, kind 2).
pub fn record(case: &Frame, left: &Left) -> Vec<u8> {
    let mut file = File::new("library.bin");
    put(&mut file, case, left);
    file.finished()
}

/// Runs `answer` on frames of the library, each with a name, and holds it to what the oracle leaves by some steps. Their
/// ties are compared too, and kept in no file. Of a differing one two records are left in `folder`: NAME.due.bin with
/// what the oracle leaves, and NAME.got.bin. A replay of them is by the computed choice, whichever it was here.
pub fn run_frames(
    cases: impl Iterator<Item = (String, Frame)>,
    steps: &Steps,
    folder: &Path,
    mut answer: impl FnMut(&Frame) -> Left,
) -> Tally {
    let mut tally = Tally::default();
    for (name, case) in cases {
        let (due, got) = (due(&case, steps), answer(&case));
        let ties_alike = due.ties == got.ties;
        let (due, got) = (record(&case, &due), record(&case, &got));
        if got != due {
            fs::create_dir_all(folder).expect("a folder for differing frames");
            for (ending, bytes) in [("due", &due), ("got", &got)] {
                let file = folder.join(format!("{name}.{ending}.bin"));
                fs::write(file, bytes).expect("a file for a differing frame");
            }
        }
        tally.check(&name, got == due && ties_alike);
    }
    tally
}

/// Runs `answer`, whether a map has at least so many peaks, on `count` random maps, with none, one and about as many wanted as there are, and
/// with a ring that is refused.
pub fn run_enough(
    count: u64,
    seed: u64,
    mut answer: impl FnMut(&peaks::Case, usize) -> Result<(bool, usize), Refusal>,
) -> Tally {
    let mut tally = Tally::default();
    let maps = (seed..).flat_map(peaks::random_cases).take(count as usize);
    for (number, case) in maps.enumerate() {
        let due = |case: &peaks::Case, wanted| {
            has_peaks(&case.cells, case.width, case.height, &case.params, wanted)
        };
        let found =
            peaks_of(&ResponseMap::new(case.width, case.height, case.cells.clone()), &case.params).len();
        for wanted in [0, 1, found / 2, found, found + 1] {
            tally.same(&format!("enough-{seed}-{number}"), answer(&case, wanted), due(&case, wanted));
        }
        let refused = peaks::Case { params: Params { ring: 6, ..case.params }, ..case };
        tally.same(&format!("enough-{seed}-{number}, ring 6"), answer(&refused, 0), due(&refused, 0));
    }
    tally
}
