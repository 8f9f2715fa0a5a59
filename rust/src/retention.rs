//! What may be deleted.
use crate::{library, Refusal};

/// What is said of an item at a time.
#[derive(Clone, Copy, Debug, Eq, Hash, PartialEq)]
pub enum Holding {
    NotYet,
    Held,
    Gone,
}

/// Whether an item of a kind (1 a corner file, 2 a photograph, 3 a token), received or issued at the second `start`, is
/// held at the second `time`.
pub fn holding(kind: u8, start: u64, time: u64) -> Result<Holding, Refusal> {
    library::holding(kind, start, time).map(|letter| match letter {
        b'N' => Holding::NotYet,
        b'H' => Holding::Held,
        _ => Holding::Gone,
    })
}

/// What the program `retained` prints for a stream of items: a letter and a newline for each, and a refusal where one
/// is faulty.
#[must_use]
pub fn holdings(stream: &[u8]) -> String {
    library::holdings(stream).into_iter().map(char::from).collect()
}
