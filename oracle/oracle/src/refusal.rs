//! The numbered refusals (RULES 2.2).

pub type Refusal = u32;

/// A side above 4,096; in `corners`, above 96.
pub const SIDE: Refusal = 1;
/// A slice's length is not width times height.
pub const LENGTH: Refusal = 2;
/// A parameter outside its range, or a level that is not built.
pub const PARAMETER: Refusal = 3;
/// A coordinate that is not finite or outside its range.
pub const COORDINATE: Refusal = 4;
/// A merge radius that is finite and positive, and outside 1/64..4,096.
pub const MERGE_RADIUS: Refusal = 5;
/// A record of a kind that does not exist.
pub const UNKNOWN_KIND: Refusal = 6;
/// A stream cut short, or padding that is not 0.
pub const STREAM_CUT: Refusal = 7;
/// The map buffer is too short.
pub const MAP_SHORT: Refusal = 8;
/// The level buffer is too short.
pub const LEVELS_SHORT: Refusal = 9;
/// A list does not fit its buffer.
pub const LIST_SHORT: Refusal = 10;
/// A record of a known kind out of its order.
pub const OUT_OF_ORDER: Refusal = 11;
/// A photograph whose header is not of the form P5, or with fewer bytes than pixels (RULES 20), which has no counterpart in the original.
pub const PGM: Refusal = 12;
/// A photograph whose maxval is not 255: likewise.
pub const MAXVAL: Refusal = 13;
/// A place outside the image (RULES 27), which has no counterpart in the original.
pub const OUTSIDE: Refusal = 14;
/// A pixel whose low value is above its high one (RULES 28): likewise.
pub const CROSSED: Refusal = 15;
/// A change number that differs from the list's (RULES 29), which has no counterpart in the original.
pub const CHANGED: Refusal = 16;
/// A place beyond the list: likewise.
pub const BEYOND: Refusal = 17;
/// A change number that is the largest: likewise.
pub const LARGEST: Refusal = 18;
/// The buffer for a frame stream is too short (RULES 30), which has no counterpart in the original.
pub const STREAM_SHORT: Refusal = 19;
/// The start of an item, or the time asked about, above 2^40 (RULES 32.3), which has no counterpart in the original.
pub const LATE: Refusal = 20;

/// The largest side of a library call.
pub const LARGEST_SIDE: usize = 4096;

/// One row of a table of refusals: the rows stand by rising number, so the lowest comes first.
pub fn refuse_if(condition: bool, number: Refusal) -> Result<(), Refusal> {
    if condition {
        Err(number)
    } else {
        Ok(())
    }
}

/// 0 for an answer, else the refusal's number.
pub fn number_of<T>(answer: &Result<T, Refusal>) -> Refusal {
    match answer {
        Ok(_) => 0,
        Err(number) => *number,
    }
}
