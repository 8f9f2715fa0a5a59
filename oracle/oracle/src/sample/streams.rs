//! The stream reader alone: what it hands on, the parameters' float bits as they came.
use super::file::{kind, Body, File};
use crate::generate::frames::{damaged_stream, frame, Shape};
use crate::generate::{refused_streams, Rng};
use crate::program::CORNERS;
use crate::refusal::number_of;
use crate::stream::{bits_at, read, write};

const SUBJECT: u64 = 109;
const RANDOM: u64 = 60;
const DAMAGED: u64 = 140;
/// Streams longer than this stay in frames.bin alone.
const LONGEST: usize = 700;

fn put(file: &mut File, stream: &[u8]) {
    let answer = read(stream, CORNERS.largest_side);
    let mut body = Body::default();
    body.bytes(stream).word(number_of(&answer) as usize);
    match &answer {
        Ok(upload) => {
            let p = &upload.params;
            let parameters = &stream[6..];
            let (threshold, merge) = (bits_at(parameters, 1), bits_at(parameters, 8));
            body.words(&[upload.width, upload.height, p.ring as usize, threshold as usize]);
            body.words(&[p.window as usize, p.least as usize, p.centroid as usize, merge as usize]);
            body.words(&[p.levels as usize, p.minimum as usize, p.search as usize]);
            body.bytes(&upload.pixels)
        }
        Err(_) => body.words(&[0; 11]).bytes(&[]),
    };
    file.record(kind::STREAM, number_of(&answer), &body);
}

pub fn file(seed: u64) -> File {
    let mut file = File::new("streams.bin");
    for case in refused_streams::cases() {
        put(&mut file, &case.stream);
    }
    let random = (0..RANDOM).map(|case| {
        let mut rng = Rng::of_case(seed, SUBJECT, case);
        write(&frame(&mut rng, Shape::Thin))
    });
    let damaged = (0..DAMAGED).map(|case| damaged_stream(seed ^ SUBJECT, case));
    for stream in random.chain(damaged).filter(|stream| stream.len() <= LONGEST) {
        put(&mut file, &stream);
    }
    file
}
