//! Times of several ways to do one thing, taken in turn.
use oracle::timing::cpu_seconds;
use std::hint::black_box;

/// How often each way has its turn, and for how many seconds of a row there are new rounds.
#[derive(Clone, Copy)]
pub struct Effort {
    pub rounds: usize,
    pub seconds: f64,
}

/// A turn lasts so many milliseconds or more, since reading the clock takes time too.
const TURN: f64 = 0.5;

/// However long they last, there are so many rounds, or as many as are asked for.
const FEWEST: usize = 3;

type Call<'a> = Box<dyn FnMut() -> usize + 'a>;

/// Ways to do one thing, each with a name. Of two with one name the faster counts.
#[derive(Default)]
pub struct Turns<'a> {
    ways: Vec<(&'static str, Call<'a>)>,
}

impl<'a> Turns<'a> {
    /// Adds a way. It returns a number, so that the compiler leaves nothing out.
    pub fn way(mut self, name: &'static str, call: impl FnMut() -> usize + 'a) -> Self {
        self.ways.push((name, Box::new(call)));
        self
    }

    /// The least thread CPU time of each.
    pub fn best(mut self, effort: Effort) -> Times {
        let calls = |call: &mut Call| (TURN / time(call, 1)).ceil().clamp(1.0, 1e4) as usize;
        let counts: Vec<usize> = self.ways.iter_mut().map(|(_, call)| calls(call)).collect();
        let mut least: Vec<_> = self.ways.iter().map(|&(name, _)| (name, f64::INFINITY)).collect();
        let end = cpu_seconds() + effort.seconds;
        for round in 0..effort.rounds {
            if round >= FEWEST && cpu_seconds() > end {
                break;
            }
            for (((_, call), count), (_, best)) in self.ways.iter_mut().zip(&counts).zip(&mut least) {
                *best = best.min(time(call, *count));
            }
        }
        Times(least)
    }
}

/// Milliseconds of one call, from so many.
fn time(call: &mut Call, count: usize) -> f64 {
    let start = cpu_seconds();
    for _ in 0..count {
        black_box(call());
    }
    (cpu_seconds() - start) * 1e3 / count as f64
}

/// The least time of each way in milliseconds.
#[derive(Clone, Default)]
pub struct Times(pub Vec<(&'static str, f64)>);

impl Times {
    /// The time of a way, if it was there.
    pub fn of(&self, name: &str) -> Option<f64> {
        self.0.iter().filter(|(its, _)| *its == name).map(|(_, time)| *time).reduce(f64::min)
    }

    pub fn ratio(&self, over: &str, under: &str) -> Option<f64> {
        Some(self.of(over)? / self.of(under)?)
    }
}
