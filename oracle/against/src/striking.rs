//! Corners struck from a list in two steps: the library against `Vec::remove`, in slices of any lengths.
use oracle::generate::{floats, Rng};
use oracle::numbers::bits;
use oracle::refusal::{number_of, refuse_if, Refusal, BEYOND, CHANGED, LARGEST, LIST_SHORT};
use oracle::tally::Tally;
use zakdomp::raw::{zakdomp_show_corner, zakdomp_strike_corner};

/// A list as the library has it: columns, rows and strengths; neighbours; count and change number.
#[derive(Clone)]
struct List {
    floats: [Vec<f32>; 3],
    neighbours: Vec<u32>,
    count: usize,
    change: u32,
}

/// The same by the rules: the four slices as bits.
#[derive(Clone, Debug, PartialEq)]
struct Model {
    slices: [Vec<u32>; 4],
    count: usize,
    change: u32,
}

impl List {
    fn random(rng: &mut Rng) -> Self {
        let floats = [0; 3].map(|_| (0..rng.below(8)).map(|_| floats::odd(rng)).collect());
        let neighbours = (0..rng.below(8)).map(|_| rng.below(1 << 20) as u32).collect();
        let change = rng.pick(&[0, 7, u32::MAX - 2, u32::MAX]);
        let places = floats.iter().map(Vec::len).fold(Vec::len(&neighbours), usize::min);
        let most = places + usize::from(rng.once_in(8));
        Self { floats, neighbours, count: rng.from_to(0, most), change }
    }

    fn model(&self) -> Model {
        let [x, y, strength] = self.floats.each_ref().map(|slice| slice.iter().map(|&v| bits(v)).collect());
        Model { slices: [x, y, strength, self.neighbours.clone()], count: self.count, change: self.change }
    }

    #[rustfmt::skip]
    fn show(&self, place: usize) -> Result<([u32; 4], u32), Refusal> {
        let ([xs, ys, ss], ns) = (&self.floats, &self.neighbours);
        let (mut x, mut y, mut strength, mut neighbours, mut shown) = (0.0, 0.0, 0.0, 0, 0);
        // SAFETY: every slice is whole, and the results are the function's own.
        let number = unsafe {
            zakdomp_show_corner(
                xs.as_ptr(), xs.len(), ys.as_ptr(), ys.len(), ss.as_ptr(), ss.len(), ns.as_ptr(), ns.len(), self.count, self.change, place,
                &mut x, &mut y, &mut strength, &mut neighbours, &mut shown,
            )
        };
        refuse_if(number != 0, number.into())?;
        Ok(([bits(x), bits(y), bits(strength), neighbours], shown))
    }

    #[rustfmt::skip]
    fn strike(&mut self, place: usize, shown: u32) -> Refusal {
        let ([xs, ys, ss], ns) = (&mut self.floats, &mut self.neighbours);
        // SAFETY: every slice is whole, none overlaps another, and the call keeps none.
        let number = unsafe {
            zakdomp_strike_corner(
                xs.as_mut_ptr(), xs.len(), ys.as_mut_ptr(), ys.len(), ss.as_mut_ptr(), ss.len(), ns.as_mut_ptr(), ns.len(),
                &mut self.count, &mut self.change, place, shown,
            )
        };
        number.into()
    }
}

impl Model {
    fn is_short(&self) -> bool {
        self.slices.iter().any(|slice| slice.len() < self.count)
    }

    fn show(&self, place: usize) -> Result<([u32; 4], u32), Refusal> {
        refuse_if(self.is_short(), LIST_SHORT)?;
        refuse_if(place >= self.count, BEYOND)?;
        Ok((self.slices.each_ref().map(|slice| slice[place]), self.change))
    }

    fn strike(&mut self, place: usize, shown: u32) -> Result<(), Refusal> {
        refuse_if(self.is_short(), LIST_SHORT)?;
        refuse_if(shown != self.change, CHANGED)?;
        refuse_if(place >= self.count, BEYOND)?;
        refuse_if(self.change == u32::MAX, LARGEST)?;
        for slice in &mut self.slices {
            slice.remove(place);
            slice.insert(self.count - 1, 0);
        }
        self.count -= 1;
        self.change += 1;
        Ok(())
    }
}

/// A list and twenty strikes, by change numbers near the list's and by those that were shown: a corner that was shown for a place and a number is the
/// one that they strike.
fn one(rng: &mut Rng) -> bool {
    let mut list = List::random(rng);
    let mut model = list.model();
    let mut seen = vec![];
    for _ in 0..20 {
        let at = rng.below(9);
        let shown = list.show(at);
        if shown != model.show(at) {
            return false;
        }
        seen.extend(shown.map(|(corner, change)| ((at, change), corner)));
        let near = (rng.below(9), model.change.wrapping_add(rng.pick(&[0, 0, 0, 1, u32::MAX])));
        let named = if seen.is_empty() || rng.once_in(3) { near } else { rng.pick(&seen).0 };
        let there = model.show(named.0).map(|(corner, _)| corner);
        let number = number_of(&model.strike(named.0, named.1));
        let as_shown = seen.iter().all(|&(before, corner)| before != named || there == Ok(corner));
        if list.strike(named.0, named.1) != number || list.model() != model || (number == 0 && !as_shown) {
            return false;
        }
    }
    true
}

/// `count` lists.
pub fn run(count: u64, seed: u64) -> Tally {
    let mut tally = Tally::default();
    for case in 0..count {
        tally.check(&format!("edited list {seed}-{case}"), one(&mut Rng::of_case(seed, 10, case)));
    }
    tally
}
