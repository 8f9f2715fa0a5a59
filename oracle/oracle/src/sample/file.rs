//! Writes records: a byte of kind, the body's length, the body.
use crate::buffers::{byte_front, float_front, word_front, CornerBuffer};
use crate::numbers::bits;
use std::collections::BTreeMap;

/// The kinds of records.
pub mod kind {
    pub const END: u8 = 0;
    pub const FRAME: u8 = 1;
    pub const LIBRARY_FRAME: u8 = 2;
    pub const RESPONSE: u8 = 3;
    pub const PEAKS: u8 = 4;
    pub const CENTROID: u8 = 5;
    pub const BOX: u8 = 6;
    pub const LEVELS: u8 = 7;
    pub const LEVEL: u8 = 8;
    pub const MERGE: u8 = 9;
    pub const STREAM: u8 = 10;
    pub const LISTING: u8 = 11;
    pub const NUMBER: u8 = 12;
    pub const RING: u8 = 13;
}

/// A record's body, field by field, little-endian.
#[derive(Default)]
pub struct Body(Vec<u8>);

impl Body {
    pub fn byte(&mut self, v: u8) -> &mut Self {
        self.0.push(v);
        self
    }

    /// A u32.
    pub fn word(&mut self, v: usize) -> &mut Self {
        let v = u32::try_from(v).expect("a number of 32 bits");
        self.0.extend(v.to_le_bytes());
        self
    }

    pub fn words(&mut self, all: &[usize]) -> &mut Self {
        all.iter().fold(self, |body, &v| body.word(v))
    }

    /// A u64, or an i64 by its two's complement.
    pub fn long(&mut self, v: u64) -> &mut Self {
        self.0.extend(v.to_le_bytes());
        self
    }

    /// A float by its bits; a NaN as 0x7fc00000.
    pub fn float(&mut self, v: f32) -> &mut Self {
        self.word(bits(v) as usize)
    }

    /// A count, then bytes.
    pub fn bytes(&mut self, all: &[u8]) -> &mut Self {
        self.word(all.len());
        self.0.extend(all);
        self
    }

    /// A count, then floats.
    pub fn floats(&mut self, all: &[f32]) -> &mut Self {
        self.word(all.len());
        all.iter().fold(self, |body, &v| body.float(v))
    }

    /// A count, then numbers.
    pub fn numbers(&mut self, all: &[u32]) -> &mut Self {
        self.word(all.len());
        all.iter().fold(self, |body, &v| body.word(v as usize))
    }

    /// What a float buffer holds after a call: the rule for the rest, then a count and that many first places.
    pub fn float_buffer(&mut self, before: &[f32], after: &[f32]) -> &mut Self {
        let (front, rest) = float_front(before, after);
        self.byte(rest as u8).floats(front)
    }

    /// What the four slices of a corner buffer hold after a call.
    pub fn corner_buffer(&mut self, before: &CornerBuffer, after: &CornerBuffer) -> &mut Self {
        self.float_buffer(&before.x, &after.x).float_buffer(&before.y, &after.y);
        self.float_buffer(&before.strength, &after.strength);
        let (front, rest) = word_front(&before.neighbours, &after.neighbours);
        self.byte(rest as u8).numbers(front)
    }

    /// What a byte buffer holds after a call.
    pub fn byte_buffer(&mut self, before: &[u8], after: &[u8]) -> &mut Self {
        let (front, rest) = byte_front(before, after);
        self.byte(rest as u8).bytes(front)
    }
}

/// A file of records.
pub struct File {
    pub name: &'static str,
    bytes: Vec<u8>,
    pub records: usize,
    pub largest_body: usize,
    /// How often each refusal is due; 0 stands for none.
    pub refusals: BTreeMap<u32, usize>,
}

impl File {
    pub fn new(name: &'static str) -> Self {
        Self { name, bytes: Vec::new(), records: 0, largest_body: 0, refusals: BTreeMap::new() }
    }

    /// Adds a record, counting it by the refusal that is due.
    pub fn record(&mut self, kind: u8, refusal: u32, body: &Body) {
        self.bytes.push(kind);
        self.bytes.extend((body.0.len() as u32).to_le_bytes());
        self.bytes.extend(&body.0);
        self.records += 1;
        self.largest_body = self.largest_body.max(body.0.len());
        *self.refusals.entry(refusal).or_default() += 1;
    }

    /// The bytes, closed by the end record, which holds the number of records before it.
    pub fn finished(&self) -> Vec<u8> {
        let mut bytes = self.bytes.clone();
        bytes.push(kind::END);
        bytes.extend(4u32.to_le_bytes());
        bytes.extend((self.records as u32).to_le_bytes());
        bytes
    }
}

#[cfg(test)]
mod tests {
    use super::*;

    #[test]
    fn a_buffer_is_written_by_its_front() {
        let before = [1, 2, 3, 4, 5];
        let written = |after: &[u8]| {
            let mut body = Body::default();
            body.byte_buffer(&before, after);
            body.0
        };
        assert_eq!(written(&[9, 2, 3, 4, 5]), [1, 1, 0, 0, 0, 9]);
        assert_eq!(written(&[9, 8, 0, 0, 0]), [0, 2, 0, 0, 0, 9, 8]);
        assert_eq!(written(&before), [1, 0, 0, 0, 0]);
        assert_eq!(written(&[0; 5]), [0, 0, 0, 0, 0]);
    }
}
