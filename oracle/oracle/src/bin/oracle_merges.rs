//! oracle_merges [N [SEED]]: the original's two merges (RULES 8, 31). Its private `merge_corners_naive` against the rule, on N random lists; both merges
//! on N lists at multiples of 1/64 with radii that are powers of two, where they must leave the same; how often they do not on the others; and
//! the cases of RULES 31.5.
use oracle::buffers::same_list;
use oracle::generate::Rng;
use oracle::merge::merged;
use oracle::naive::{as_original, original};
use oracle::tally::Tally;
use oracle::Corner;
use std::process::ExitCode;

/// Up to 23 corners of a few strengths.
fn corners(rng: &mut Rng, coordinate: impl Fn(&mut Rng) -> f32) -> Vec<Corner> {
    let length = rng.below(24);
    let corner = |rng: &mut Rng| {
        let strength = rng.pick(&[0.0, 1.0, 2.0, 3.0, f32::NAN, f32::INFINITY]);
        Corner::new(coordinate(rng), coordinate(rng), strength)
    };
    (0..length).map(|_| corner(rng)).collect()
}

/// A multiple of the radius, or a float beside it: rounding puts some of these two cells from another that is no further than the radius.
fn at_a_border(rng: &mut Rng, radius: f32) -> f32 {
    let v = rng.below(8) as f32 * radius;
    f32::from_bits((v.to_bits() + rng.below(3) as u32).saturating_sub(1))
}

fn random_lists(tally: &mut Tally, count: u64, seed: u64) {
    let mut differ = 0;
    for case in 0..count {
        let mut rng = Rng::of_case(seed, 121, case);
        let radius = rng.pick(&[1.0, 3.0, 0.5, 0.7, 1.0 / 3.0, 4.1, 41.0 / 64.0]);
        let list = if case % 2 == 0 {
            let (step, span) = (rng.pick(&[1.0f32, 0.5, 0.1, 0.37, 1.0 / 64.0]), rng.pick(&[8, 40, 200]));
            corners(&mut rng, |rng| rng.below(span) as f32 * step)
        } else {
            corners(&mut rng, |rng| at_a_border(rng, radius))
        };
        tally.check("the rule as the original", as_original(&list, radius));
        differ += u64::from(!same_list(&original(&list, radius), &merged(&list, radius)));
    }
    println!("{differ} of {count} random lists are left differently by the two merges");
    tally.check("some lists tell the merges apart", count < 1000 || differ > 0);
}

fn multiples_of_a_64th(tally: &mut Tally, count: u64, seed: u64) {
    for case in 0..count {
        let mut rng = Rng::of_case(seed, 122, case);
        let radius = 2f32.powi(rng.below(19) as i32 - 6);
        let span = rng.pick(&[16, 200, 5000, 262_145]);
        let list =
            corners(&mut rng, |rng| if rng.once_in(20) { -0.0 } else { rng.below(span) as f32 / 64.0 });
        let name = format!("multiples {seed}-{case}, radius {radius}");
        tally.check(&name, same_list(&original(&list, radius), &merged(&list, radius)));
    }
}

fn cases(tally: &mut Tally) {
    let below_one = 1.0 - f32::EPSILON / 2.0;
    for (places, radius) in [
        ([(below_one, 0.0), (2.0, 0.0), (0.0, 100.0)], 1.0),
        ([(82.0 / 64.0, 0.0), (123.0 / 64.0, 0.0), (0.0, 0.0)], 41.0 / 64.0),
    ] {
        let list = places.map(|(x, y)| Corner::new(x, y, 1.0));
        tally.same("by distance alone", original(&list, radius).len(), 2);
        tally.same("by cells", merged(&list, radius).len(), 3);
    }
}

fn main() -> ExitCode {
    let mut words = std::env::args().skip(1);
    let mut number =
        |default| words.next().map_or(default, |word| word.parse().expect("usage: oracle_merges [N [SEED]]"));
    let (count, seed) = (number(60_000), number(1));
    let mut tally = Tally::default();
    cases(&mut tally);
    random_lists(&mut tally, count, seed);
    multiples_of_a_64th(&mut tally, count, seed);
    tally.finish()
}
