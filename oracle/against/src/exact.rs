//! Frames by the exact choice (RULES 10), in buffers of every size: the library against the oracle's exact frame, and
//! on the same frames its computed choice, so that one sees how often the two part. Then uploads by both.
use crate::frames;
use oracle::buffers::{same_list, Buffers};
use oracle::compare::{record, run_frames};
use oracle::exact::EXACT;
use oracle::generate::refused_frames::{self, Case};
use oracle::generate::Rng;
use oracle::pass::{Steps, STEPS};
use oracle::refusal::{Refusal, MAXVAL, PGM, SIDE};
use oracle::sample::library::{due, random_tipped, Left};
use oracle::tally::Tally;
use std::fmt::Display;
use std::path::Path;

/// How often the two choices of the library part.
#[derive(Default)]
struct Parted {
    frames: u64,
    lists: u64,
    counts: u64,
    ties: u64,
    numbers: u64,
}

impl Parted {
    fn add(&mut self, exact: &Left, computed: &Left) {
        let list = |left: &Left| left.buffers.corners.list(left.count);
        self.frames += 1;
        self.numbers += u64::from(exact.number != computed.number);
        if (exact.number, computed.number) == (0, 0) {
            self.lists += u64::from(!same_list(&list(exact), &list(computed)));
            self.counts += u64::from(exact.count != computed.count);
            self.ties += u64::from(exact.ties != computed.ties);
        }
    }
}

impl Display for Parted {
    fn fmt(&self, f: &mut std::fmt::Formatter<'_>) -> std::fmt::Result {
        let Self { frames, lists, counts, ties, numbers } = self;
        write!(f, "exact and computed on {frames} frames: {lists} lists, {counts} counts and {ties} ")?;
        write!(f, "ties differ, and {numbers} times one of them only is refused by 10")
    }
}

/// A frame as an upload, at times damaged, and the number that its header or its length gives.
fn upload(rng: &mut Rng, case: &Case) -> (Vec<u8>, Refusal) {
    let mut blank = || rng.pick(&[" ", "\n", "\t", "\r\n", " # grey\n", "#\r  "]);
    let (before, between, behind) = (blank(), blank(), blank());
    let wide = rng.once_in(20);
    let width = if wide { 4097 } else { case.width };
    let maxval = if rng.once_in(12) { rng.pick(&[0, 254, 256, 65_535]) } else { 255 };
    let end = rng.pick(&["\n", " ", "\r"]);
    let header = format!("P5{before}{width}{between}{}{behind}{maxval}{end}", case.height);
    let mut bytes = [header.as_bytes(), &case.pixels].concat();
    let is_cut = rng.once_in(12) && !case.pixels.is_empty();
    match rng.below(3) {
        _ if is_cut => bytes.truncate(bytes.len() - rng.from_to(1, case.pixels.len())),
        0 => bytes.extend([7; 5]),
        _ => {}
    }
    let number = match (wide, is_cut, maxval) {
        (true, _, _) => SIDE,
        (_, true, _) => PGM,
        (_, _, 255) => 0,
        _ => MAXVAL,
    };
    (bytes, number)
}

/// What is due of an upload: the number that its header gives, which changes nothing, or else the frame.
fn due_of_upload(case: &Case, number: Refusal, steps: &Steps) -> Left {
    match number {
        0 => due(case, steps),
        _ => Left { number, count: 0, ties: 0, buffers: Buffers::before(&case.sizes) },
    }
}

fn uploads(count: u64, seed: u64) -> Tally {
    let mut tally = Tally::default();
    for at in 0..count {
        let case = random_tipped(seed ^ 1 << 40, at);
        let (bytes, number) = upload(&mut Rng::of_case(seed, 16, at), &case);
        let mut check = |name: &str, got: Left, steps: &Steps| {
            let due = due_of_upload(&case, number, steps);
            let alike = got.ties == due.ties && record(&case, &got) == record(&case, &due);
            tally.check(&format!("{name} {seed}-{at}"), alike);
        };
        check("exact upload", frames::exact_pgm(&bytes, &case), &EXACT);
        check("upload", frames::computed_pgm(&bytes, &case), &STEPS);
    }
    tally
}

/// `count` frames by both choices, each refusal, and a quarter as many uploads.
pub fn run(count: u64, seed: u64, folder: &Path) -> Tally {
    let cases = |name: &'static str| {
        let refused = refused_frames::cases().into_iter().enumerate();
        let tipped = (0..count).map(move |at| (format!("{name}-{seed}-{at}"), random_tipped(seed, at)));
        refused.map(move |(at, case)| (format!("{name}-refusal-{at}"), case)).chain(tipped)
    };
    let mut parted = Parted::default();
    let exact = run_frames(cases("exact"), &EXACT, folder, |case| {
        let left = frames::exact(case);
        parted.add(&left, &frames::computed(case));
        left
    });
    println!("{parted}");
    exact.and(run_frames(cases("tipped"), &STEPS, folder, frames::computed)).and(uploads(count / 4, seed))
}
