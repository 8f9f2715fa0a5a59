//! oracle_exact [N [SEED]]: demand 3 by running. On N frames (2000) of each of four kinds: for each map that the exact
//! pass looks at, computed and exact peak lists are alike exactly when no exact peak is overtaken, and each computed peak
//! has as many neighbours by exact values; and where all are alike, the whole corner lists are the same. Then the responses themselves: error, sign and order.
use oracle::buffers::same_list;
use oracle::exact::{compare, has_whole_threshold, EXACT};
use oracle::frame::{corners_of, with_lists};
use oracle::generate::frames::{frame, Shape};
use oracle::generate::hunted::Road;
use oracle::generate::images::{tiled, Board};
use oracle::generate::{tipped, Rng};
use oracle::params::{Params, PLAIN};
use oracle::pass::STEPS;
use oracle::stream::Upload;
use oracle::tally::Tally;
use std::process::ExitCode;

/// What a kind of frames showed.
#[derive(Default)]
struct Seen {
    frames: usize,
    maps: usize,
    peaks: usize,
    unlike: usize,
    lists_differing: usize,
}

fn judge(tally: &mut Tally, seen: &mut Seen, upload: &Upload) {
    let (image, params) = (upload.image(), &upload.params);
    seen.frames += 1;
    let mut all_alike = true;
    let exact = with_lists(image, params, &EXACT, |lists| {
        for view in &lists.views {
            let found = compare(view, params);
            if has_whole_threshold(params) {
                tally.same("alike exactly when none is overtaken", found.alike, !found.overtaken);
            }
            tally.check("as many neighbours by exact values", found.counts_alike);
            all_alike &= found.alike;
            seen.maps += 1;
            seen.peaks += found.peaks;
            seen.unlike += usize::from(!found.alike);
        }
        lists.corners
    });
    let same = same_list(&exact, &corners_of(image, params, &STEPS));
    seen.lists_differing += usize::from(!same);
    if all_alike {
        tally.check("lists alike give the same corners", same);
    }
}

/// Boards and tiles of few grey levels, on one level or two: many equal exact values.
fn tied(rng: &mut Rng) -> Upload {
    let (width, height) = (rng.from_to(30, 64), rng.from_to(30, 64));
    let levels = rng.from_to(1, 2) as u32;
    let pixels = if rng.once_in(3) {
        tiled(rng, width, height)
    } else {
        let board = Board {
            cell: 8.0 + rng.unit() * 12.0,
            turn: rng.unit(),
            soft: 1.0 + rng.unit() * 4.0,
            noise: rng.below(2),
            dark: rng.from_to(20, 120) as f64,
            bright: 128.0,
        };
        board.image(rng, width, height, 0)
    };
    let threshold = rng.below(6) as f32;
    let params = Params { threshold, window: rng.from_to(1, 3) as u32, levels, search: 2, ..PLAIN };
    Upload { width, height, params, pixels }
}

fn frames(tally: &mut Tally, name: &str, count: u64, make: impl Fn(u64) -> Upload) {
    let mut seen = Seen::default();
    for case in 0..count {
        judge(tally, &mut seen, &make(case));
    }
    println!(
        "{name}: {} frames, {} maps, {} exact peaks; {} maps with unlike lists, {} corner lists differ",
        seen.frames, seen.maps, seen.peaks, seen.unlike, seen.lists_differing
    );
}

/// The response from its sums, in the order of `chess_response_at_u8`; SR and DR are whole and exact in f32.
fn response_of(difference: i32, ring_sum: i32, cross_sum: i32) -> f32 {
    let means = (ring_sum as f32 / 16.0 - cross_sum as f32 / 5.0).abs();
    difference as f32 - 16.0 * means
}

/// Error, sign and order over every ring sum and cross sum, with some differences SR - DR each.
fn responses(tally: &mut Tally) {
    const OFFSET: i32 = 40_000;
    let mut least = vec![f32::INFINITY; 2 * OFFSET as usize];
    let mut greatest = vec![f32::NEG_INFINITY; 2 * OFFSET as usize];
    let (mut worst, mut signs, mut count) = (0.0f64, true, 0u64);
    for ring_sum in 0..=4080i32 {
        for cross_sum in 0..=1275i32 {
            let step = 97 + (ring_sum + cross_sum) % 7;
            let means = (5 * ring_sum - 16 * cross_sum).abs();
            for difference in (-2040 + (ring_sum * 7 + cross_sum) % step..=2040).step_by(step as usize) {
                let (value, fifths) = (response_of(difference, ring_sum, cross_sum), 5 * difference - means);
                worst = worst.max((f64::from(value) - f64::from(fifths) / 5.0).abs());
                signs &= (value > 0.0) == (fifths > 0) && (value < 0.0) == (fifths < 0);
                let at = (fifths + OFFSET) as usize;
                least[at] = least[at].min(value);
                greatest[at] = greatest[at].max(value);
                count += 1;
            }
        }
    }
    let mut before = f32::NEG_INFINITY;
    let mut ordered = true;
    for at in (0..least.len()).filter(|&at| least[at] <= greatest[at]) {
        ordered &= before < least[at];
        before = greatest[at];
    }
    println!("{count} responses: greatest error 2^{:.2}", worst.log2());
    tally.check("responses within 1/1024", worst <= 1.0 / 1024.0);
    tally.check("responses have the sign of their exact value", signs);
    tally.check("responses with different exact values are in their order", ordered);
}

fn main() -> ExitCode {
    let mut words = std::env::args().skip(1).map(|word| word.parse().expect("a number"));
    let count = words.next().unwrap_or(2000);
    let seed = words.next().unwrap_or(1);
    let mut tally = Tally::default();
    let rng = |subject, case| Rng::of_case(seed, subject, case);
    frames(&mut tally, "random", count, |case| frame(&mut rng(201, case), Shape::Small));
    frames(&mut tally, "faint noise", count, |case| Road::EqualFifths.frame(seed * 1_000_000 + case));
    frames(&mut tally, "few grey levels", count, |case| tied(&mut rng(202, case)));
    frames(&mut tally, "tipped", count, |case| tipped::frame(&mut rng(203, case)));
    responses(&mut tally);
    tally.finish()
}
