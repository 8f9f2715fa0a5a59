//! The list that a merge would leave, in a separate buffer: the library against the original's merge of a clone, in buffers of every size.
use oracle::buffers::CornerBuffer;
use oracle::generate::Rng;
use oracle::merge::merge;
use oracle::numbers::bits;
use oracle::refusal::{number_of, refuse_if, Refusal, LIST_SHORT};
use oracle::sample::merges::{random_case, Case};
use oracle::tally::Tally;
use zakdomp::raw::zakdomp_merge_apart;

/// The four slices, by the bits of their floats.
pub(crate) fn slices(b: &CornerBuffer, bits: fn(f32) -> u32) -> [Vec<u32>; 4] {
    let floats = |slice: &[f32]| slice.iter().map(|&v| bits(v)).collect();
    [floats(&b.x), floats(&b.y), floats(&b.strength), b.neighbours.clone()]
}

/// What is due (RULES 25): the answer of a merge of a clone, 10 where the count does not fit the separate buffer, and the list in it.
fn due(case: &Case, separate: &mut CornerBuffer) -> Result<usize, Refusal> {
    let mut own = case.buffer.clone();
    let kept = merge(&mut own, case.count, case.radius)?;
    refuse_if(case.count > separate.places(), LIST_SHORT)?;
    separate.put(0, &own.list(kept), &own.neighbours[..kept]);
    Ok(kept)
}

#[rustfmt::skip]
fn ours(case: &Case, separate: &mut CornerBuffer, kept: &mut usize) -> Refusal {
    let (b, m) = (&case.buffer, separate);
    // SAFETY: every slice is whole, none overlaps another, and the call keeps none.
    let number = unsafe {
        zakdomp_merge_apart(
            b.x.as_ptr(), b.x.len(), b.y.as_ptr(), b.y.len(), b.strength.as_ptr(), b.strength.len(), b.neighbours.as_ptr(), b.neighbours.len(),
            case.count, case.radius, m.x.as_mut_ptr(), m.x.len(), m.y.as_mut_ptr(), m.y.len(), m.strength.as_mut_ptr(), m.strength.len(),
            m.neighbours.as_mut_ptr(), m.neighbours.len(), kept,
        )
    };
    number.into()
}

/// A list that outgrows the smallest table of the index.
pub(crate) fn long(rng: &mut Rng) -> Case {
    let count = rng.from_to(400, 1600);
    let mut floats = |most: f64| (0..count).map(|_| (rng.unit() * most) as f32).collect();
    let (x, y, strength) = (floats(250.0), floats(250.0), floats(9.0));
    let neighbours = (0..count as u32).collect();
    Case { buffer: CornerBuffer { x, y, strength, neighbours }, count, radius: rng.pick(&[0.5, 3.0, 7.0]) }
}

/// One list and one separate buffer, whose slices are a little shorter or longer than the list, or have any length.
fn one(seed: u64, at: u64) -> bool {
    let mut rng = Rng::of_case(seed, 6, at);
    let case = if at % 64 == 63 { long(&mut rng) } else { random_case(seed, at) };
    let near = case.count.min(2000);
    let lengths = [0; 4].map(|_| if rng.once_in(9) { rng.below(near + 2) } else { near + rng.below(3) });
    let before = CornerBuffer::before(lengths);
    let (mut expected, mut separate, mut kept) = (before.clone(), before, 77);
    let untouched = slices(&case.buffer, f32::to_bits);
    let answer = due(&case, &mut expected);
    let number = ours(&case, &mut separate, &mut kept);
    number == number_of(&answer)
        && kept == answer.unwrap_or(77)
        && slices(&separate, bits) == slices(&expected, bits)
        && slices(&case.buffer, f32::to_bits) == untouched
}

/// `count` lists.
pub fn run(count: u64, seed: u64) -> Tally {
    let mut tally = Tally::default();
    for at in 0..count {
        tally.check(&format!("list merged apart {seed}-{at}"), one(seed, at));
    }
    tally
}
