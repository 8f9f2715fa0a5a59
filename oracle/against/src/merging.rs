//! Corners merged by distance alone: the library against the original's own function, in slices of any lengths, and refused calls too.
use oracle::buffers::CornerBuffer;
use oracle::generate::Rng;
use oracle::naive;
use oracle::numbers::bits;
use oracle::refusal::{number_of, Refusal};
use oracle::sample::merges;
use oracle::tally::Tally;
use zakdomp::raw::zakdomp_merge_naive;

/// The number and the count, 77 where it is refused, that the library leaves.
#[rustfmt::skip]
fn merge(b: &mut CornerBuffer, count: usize, radius: f32) -> (Refusal, usize) {
    let mut kept = 77;
    // SAFETY: every slice is whole, none overlaps another, and the call keeps none.
    let number = unsafe {
        zakdomp_merge_naive(
            b.x.as_mut_ptr(), b.x.len(), b.y.as_mut_ptr(), b.y.len(), b.strength.as_mut_ptr(), b.strength.len(),
            b.neighbours.as_mut_ptr(), b.neighbours.len(), count, radius, &mut kept,
        )
    };
    (number.into(), kept)
}

/// The four slices, the floats by their bits.
fn slices(b: &CornerBuffer) -> [Vec<u32>; 4] {
    let floats = |s: &[f32]| s.iter().map(|&v| bits(v)).collect();
    [floats(&b.x), floats(&b.y), floats(&b.strength), b.neighbours.clone()]
}

fn agrees(case: &merges::Case) -> bool {
    let (mut due, mut left) = (case.buffer.clone(), case.buffer.clone());
    let answer = naive::merge(&mut due, case.count, case.radius);
    let told = merge(&mut left, case.count, case.radius);
    told == (number_of(&answer), answer.unwrap_or(77)) && slices(&left) == slices(&due)
}

/// Lists of the sample with other seeds, about `count` of them, half of which are moved to multiples of 1/64.
pub fn run(count: u64, seed: u64) -> Tally {
    let mut tally = Tally::default();
    for round in 0..count.div_ceil(1000) {
        let mut rng = Rng::of_case(seed, 12, round);
        for (number, mut case) in merges::random_cases(rng.word()).enumerate() {
            if rng.once_in(2) {
                for v in case.buffer.x.iter_mut().chain(&mut case.buffer.y) {
                    *v = (*v * 64.0).round() / 64.0;
                }
            }
            tally.check(&format!("naive merge {seed}-{round}-{number}"), agrees(&case));
        }
    }
    tally
}
