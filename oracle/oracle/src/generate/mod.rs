//! Everything that the oracle is run on, fixed by a seed: no clock, no library of random numbers, and only float
//! operations that give the same bits everywhere.

pub mod damage;
pub mod floats;
pub mod frames;
pub mod hunted;
pub mod images;
pub mod refused_frames;
pub mod refused_streams;
pub mod rng;
pub mod tipped;

pub use rng::Rng;
