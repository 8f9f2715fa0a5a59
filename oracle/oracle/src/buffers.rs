//! The buffers that a call borrows (RULES 1.6).
use crate::numbers::bits;
use crate::Corner;

/// A corner buffer: four slices, the shortest counting. The original's corners have no neighbours, so these stand beside its lists everywhere.
#[derive(Clone, Debug, Default)]
pub struct CornerBuffer {
    pub x: Vec<f32>,
    pub y: Vec<f32>,
    pub strength: Vec<f32>,
    pub neighbours: Vec<u32>,
}

/// Everything that a frame borrows.
#[derive(Clone, Debug, Default)]
pub struct Buffers {
    pub map: Vec<f32>,
    pub levels: Vec<u8>,
    pub seeds: CornerBuffer,
    pub corners: CornerBuffer,
}

/// The lengths of a frame's buffers.
#[derive(Clone, Copy, Debug, Default, PartialEq)]
pub struct Sizes {
    pub map: usize,
    pub levels: usize,
    pub seeds: [usize; 4],
    pub corners: [usize; 4],
}

/// What place `i` of a float buffer holds before a call: never 0, so that clearing shows.
pub fn float_before(i: usize) -> f32 {
    (1 + i % 100) as f32
}

/// What place `i` of a buffer of counts holds before a call.
pub fn word_before(i: usize) -> u32 {
    (1 + i % 100) as u32
}

/// What place `i` of a byte buffer holds before a call.
pub fn byte_before(i: usize) -> u8 {
    (1 + i % 200) as u8
}

pub fn floats_before(length: usize) -> Vec<f32> {
    (0..length).map(float_before).collect()
}

pub fn words_before(length: usize) -> Vec<u32> {
    (0..length).map(word_before).collect()
}

pub fn bytes_before(length: usize) -> Vec<u8> {
    (0..length).map(byte_before).collect()
}

impl CornerBuffer {
    pub fn before(lengths: [usize; 4]) -> Self {
        Self {
            x: floats_before(lengths[0]),
            y: floats_before(lengths[1]),
            strength: floats_before(lengths[2]),
            neighbours: words_before(lengths[3]),
        }
    }

    /// How many corners it has places for.
    pub fn places(&self) -> usize {
        self.x.len().min(self.y.len()).min(self.strength.len()).min(self.neighbours.len())
    }

    /// The first `count` corners.
    pub fn list(&self, count: usize) -> Vec<Corner> {
        (0..count).map(|i| Corner::new(self.x[i], self.y[i], self.strength[i])).collect()
    }

    /// Writes a list, with the neighbours of each, behind the first `held` corners and nothing else.
    pub fn put(&mut self, held: usize, list: &[Corner], neighbours: &[u32]) {
        assert_eq!(list.len(), neighbours.len());
        for (i, c) in list.iter().enumerate() {
            self.x[held + i] = c.x;
            self.y[held + i] = c.y;
            self.strength[held + i] = c.strength;
            self.neighbours[held + i] = neighbours[i];
        }
    }

    /// The list first, and 0 in every place behind it, also where a slice is longer than the others.
    pub fn hold_only(&mut self, list: &[Corner], neighbours: &[u32]) {
        self.x.fill(0.0);
        self.y.fill(0.0);
        self.strength.fill(0.0);
        self.neighbours.fill(0);
        self.put(0, list, neighbours);
    }
}

impl Buffers {
    pub fn before(sizes: &Sizes) -> Self {
        Self {
            map: floats_before(sizes.map),
            levels: bytes_before(sizes.levels),
            seeds: CornerBuffer::before(sizes.seeds),
            corners: CornerBuffer::before(sizes.corners),
        }
    }

    /// Refusal 10 in a frame: everything is zero.
    pub fn clear(&mut self) {
        self.map.fill(0.0);
        self.levels.fill(0);
        self.seeds.hold_only(&[], &[]);
        self.corners.hold_only(&[], &[]);
    }
}

/// What stands behind the written front of a buffer after a call.
#[derive(Clone, Copy, Debug, PartialEq, Eq)]
pub enum Rest {
    Zero = 0,
    AsBefore = 1,
}

/// The written front of a buffer and what stands behind it, by the rule that leaves the shorter front.
fn front<'a, T>(before: &[T], after: &'a [T], zero: &T, same: fn(&T, &T) -> bool) -> (&'a [T], Rest) {
    assert_eq!(before.len(), after.len());
    let front = |rest: &dyn Fn(usize) -> bool| {
        let last = (0..after.len()).rev().find(|&i| !rest(i));
        last.map_or(0, |i| i + 1)
    };
    let cleared = front(&|i| same(&after[i], zero));
    let kept = front(&|i| same(&after[i], &before[i]));
    if cleared < kept {
        (&after[..cleared], Rest::Zero)
    } else {
        (&after[..kept], Rest::AsBefore)
    }
}

pub fn float_front<'a>(before: &[f32], after: &'a [f32]) -> (&'a [f32], Rest) {
    front(before, after, &0.0, |a, b| bits(*a) == bits(*b))
}

pub fn word_front<'a>(before: &[u32], after: &'a [u32]) -> (&'a [u32], Rest) {
    front(before, after, &0, |a, b| a == b)
}

pub fn byte_front<'a>(before: &[u8], after: &'a [u8]) -> (&'a [u8], Rest) {
    front(before, after, &0, |a, b| a == b)
}

/// Whether two lists are the same, bit for bit.
pub fn same_list(a: &[Corner], b: &[Corner]) -> bool {
    let key = |c: &Corner| (bits(c.x), bits(c.y), bits(c.strength));
    a.len() == b.len() && a.iter().map(key).eq(b.iter().map(key))
}
