//! Pyramid levels, and where level k lies.
use super::file::{kind, Body, File};
use crate::buffers::bytes_before;
use crate::generate::{images, Rng};
use crate::image::Image;
use crate::params::PLAIN;
use crate::pyramid::{build, locate};
use crate::refusal::{number_of, LARGEST_SIDE};

const SUBJECT: u64 = 107;
const BUILT: usize = 160;
const LOCATED: usize = 240;

/// A base with its claimed sides, count, minimum and the level buffer's length.
struct Case {
    pixels: Vec<u8>,
    width: usize,
    height: usize,
    count: u32,
    minimum: u32,
    buffer: usize,
}

fn put(file: &mut File, case: &Case) {
    let before = bytes_before(case.buffer);
    let mut after = before.clone();
    let base = Image { pixels: &case.pixels, width: case.width, height: case.height };
    let answer = build(base, case.count, case.minimum, &mut after);
    let mut body = Body::default();
    body.words(&[case.width, case.height, case.count as usize, case.minimum as usize]);
    body.bytes(&case.pixels).word(case.buffer);
    body.words(&[number_of(&answer) as usize, answer.unwrap_or(0)]);
    body.byte_buffer(&before, &after);
    file.record(kind::LEVELS, number_of(&answer), &body);
}

/// The number of levels of some sides and the pixels of those above the base; none for a side above 4,096.
fn shape(width: usize, height: usize, count: u32, minimum: u32) -> (usize, usize) {
    if width > LARGEST_SIDE || height > LARGEST_SIDE {
        return (0, 0);
    }
    let base = Image { pixels: &vec![0; width * height], width, height };
    let located = locate(base, count, minimum, 0, usize::MAX);
    located.map_or((0, 0), |found| (found.built, found.above))
}

/// A question for level k of a base and a level buffer of these lengths.
struct Question {
    width: usize,
    height: usize,
    count: u32,
    minimum: u32,
    k: usize,
    base: usize,
    buffer: usize,
}

fn ask(file: &mut File, q: &Question) {
    let pixels = bytes_before(q.base);
    let base = Image { pixels: &pixels, width: q.width, height: q.height };
    let answer = locate(base, q.count, q.minimum, q.k, q.buffer);
    let (built, _) = shape(q.width, q.height, q.count, q.minimum);
    let mut body = Body::default();
    body.words(&[q.width, q.height, q.count as usize, q.minimum as usize, q.k, q.base, q.buffer]);
    body.words(&[built, number_of(&answer) as usize]);
    match answer {
        Ok(found) => {
            let place = found.place;
            body.byte((!place.in_base).into()).words(&[place.from, place.width, place.height])
        }
        Err(_) => body.byte(0).words(&[0; 3]),
    };
    file.record(kind::LEVEL, number_of(&answer), &body);
}

fn random(rng: &mut Rng) -> Case {
    let (width, height) = (rng.below(26), rng.below(26));
    let count = rng.pick(&[0, 1, 2, 2, 3, 3, 4, 255]);
    let minimum = rng.pick(&[0, 0, 0, 1, 2, 3, 5, 12, u32::MAX]);
    let (_, above) = shape(width, height, count, minimum);
    let buffer = match rng.below(4) {
        0 => above.saturating_sub(1),
        1 => above + rng.below(9),
        _ => above,
    };
    let pixels = images::random(rng, width, height, &PLAIN);
    Case { pixels, width, height, count, minimum, buffer }
}

/// A random question. Where the buffer is too short, it is too short for level k itself.
fn random_question(rng: &mut Rng) -> Question {
    let (width, height) = (rng.below(200), rng.below(200));
    let count = rng.pick(&[0, 1, 2, 3, 4, 5, 9, 255]);
    let minimum = rng.pick(&[0, 0, 1, 4, 16, 40]);
    let (built, above) = shape(width, height, count, minimum);
    let k = rng.below(built + 2);
    let up_to = |k: usize| (1..=k).map(|i| (width >> i) * (height >> i)).sum::<usize>();
    let buffer = if k > 0 && k < built && rng.once_in(4) { up_to(k) - 1 } else { above + rng.below(3) };
    let base = if rng.once_in(12) { width * height + 1 } else { width * height };
    Question { width, height, count, minimum, k, base, buffer }
}

/// The P cases and each refusal.
fn put_named(file: &mut File) {
    let square = |pixels: [u8; 4]| Case {
        pixels: pixels.to_vec(),
        width: 2,
        height: 2,
        count: 2,
        minimum: 0,
        buffer: 1,
    };
    let none = |width, height| Case { pixels: vec![], width, height, ..square([0; 4]) };
    let cases = [
        square([0, 0, 0, 1]),
        square([0, 0, 1, 1]),
        square([255; 4]),
        Case { pixels: (0..15).map(|v| v * 17).collect(), width: 5, height: 3, buffer: 2, ..square([0; 4]) },
        Case { count: 1, buffer: 0, ..none(0, 0) },
        Case { count: 0, buffer: 0, ..none(0, 0) },
        Case { count: 1, minimum: 1, ..none(0, 0) },
        none(0, 7),
        none(4096, 0),
        none(4097, 0),
        none(0, 4097),
        Case { width: 4097, buffer: 0, ..square([0; 4]) },
        Case { pixels: vec![1; 3], buffer: 0, ..square([0; 4]) },
        Case { pixels: vec![1; 5], ..square([0; 4]) },
        Case { buffer: 0, ..square([9; 4]) },
        Case { buffer: 0, count: 1, ..square([9; 4]) },
        Case { pixels: bytes_before(4096 * 2), width: 4096, height: 2, buffer: 2048, ..square([0; 4]) },
    ];
    for case in cases {
        put(file, &case);
    }
}

fn ask_named(file: &mut File) {
    let sound = || Question { width: 16, height: 12, count: 3, minimum: 2, k: 2, base: 192, buffer: 60 };
    let questions = [
        sound(),
        Question { k: 0, ..sound() },
        Question { k: 1, ..sound() },
        Question { k: 3, ..sound() },
        Question { k: u32::MAX as usize, ..sound() },
        Question { minimum: 4, ..sound() },
        Question { count: 0, k: 0, ..sound() },
        Question { width: 4097, height: 0, base: 0, k: 9, ..sound() },
        Question { base: 191, k: 9, ..sound() },
        Question { base: 193, buffer: 0, ..sound() },
        Question { k: 3, buffer: 0, ..sound() },
        Question { buffer: 59, ..sound() },
        Question { k: 1, buffer: 47, ..sound() },
        Question { width: 4096, height: 4, count: 13, minimum: 0, base: 4096 * 4, buffer: 5120, ..sound() },
    ];
    for question in questions {
        ask(file, &question);
    }
}

pub fn file(seed: u64) -> File {
    let mut file = File::new("levels.bin");
    let mut rng = Rng::of_case(seed, SUBJECT, 0);
    put_named(&mut file);
    ask_named(&mut file);
    for _ in 0..BUILT {
        let case = random(&mut rng);
        put(&mut file, &case);
    }
    for _ in 0..LOCATED {
        ask(&mut file, &random_question(&mut rng));
    }
    file
}
