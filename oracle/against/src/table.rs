//! Corners merged in place with a table: the library against the original's merge, with tables of every length that hold anything.
use crate::apart::{long, slices};
use oracle::buffers::CornerBuffer;
use oracle::generate::Rng;
use oracle::merge::merge;
use oracle::numbers::bits;
use oracle::refusal::{number_of, Refusal};
use oracle::sample::merges::{random_case, Case};
use oracle::tally::Tally;
use zakdomp::raw::zakdomp_merge_by_table;

#[rustfmt::skip]
fn ours(case: &Case, b: &mut CornerBuffer, table: &mut [f32], kept: &mut usize) -> Refusal {
    // SAFETY: every slice is whole, none overlaps another, and the call keeps none.
    let number = unsafe {
        zakdomp_merge_by_table(
            b.x.as_mut_ptr(), b.x.len(), b.y.as_mut_ptr(), b.y.len(), b.strength.as_mut_ptr(), b.strength.len(),
            b.neighbours.as_mut_ptr(), b.neighbours.len(), case.count, case.radius, table.as_mut_ptr(), table.len(), kept,
        )
    };
    number.into()
}

/// One list and one table, a short one, or one about as long as the list can use.
fn one(seed: u64, at: u64) -> bool {
    let mut rng = Rng::of_case(seed, 35, at);
    let case = if at % 64 == 63 { long(&mut rng) } else { random_case(seed, at) };
    let most = if rng.once_in(4) { 6 } else { 6 * case.count.min(2000) + 8 };
    let before: Vec<f32> = (0..rng.below(most)).map(|_| f32::from_bits(rng.word() as u32)).collect();
    let (mut due, mut left) = (case.buffer.clone(), case.buffer.clone());
    let (mut table, mut kept) = (before.clone(), 77);
    let answer = merge(&mut due, case.count, case.radius);
    let number = ours(&case, &mut left, &mut table, &mut kept);
    let expected = if answer.is_ok() { vec![0.0; before.len()] } else { before };
    number == number_of(&answer)
        && kept == answer.unwrap_or(77)
        && slices(&left, bits) == slices(&due, bits)
        && table.iter().map(|v| v.to_bits()).eq(expected.iter().map(|v| v.to_bits()))
}

/// `count` lists.
pub fn run(count: u64, seed: u64) -> Tally {
    let mut tally = Tally::default();
    for at in 0..count {
        tally.check(&format!("list merged by a table {seed}-{at}"), one(seed, at));
    }
    tally
}
