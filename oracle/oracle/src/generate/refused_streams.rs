//! Faulty streams with the number that RULES 11.4 gives them, written by hand.
use crate::params::{Params, PLAIN};
use crate::refusal::Refusal;
use crate::stream::{write, Upload};

/// A stream and the number due; 0 where it is not refused.
pub struct Case {
    pub name: &'static str,
    pub number: Refusal,
    pub stream: Vec<u8>,
}

fn case(name: &'static str, number: Refusal, stream: Vec<u8>) -> Case {
    Case { name, number, stream }
}

/// Where each record of the sound stream starts: sides, parameters, pixels, pixels, end; and where the stream ends.
const STARTS: [usize; 6] = [0, 5, 22, 55, 88, 89];
const WIDTH: usize = 1;
const HEIGHT: usize = 3;
const RING: usize = 6;
const WINDOW: usize = 11;
const CENTROID: usize = 13;
const MERGE: usize = 14;
const PADDING: usize = 59;

/// The sound stream: 7 by 5 pixels, so that the second record of kind 3 has 3 pixels and 29 bytes of padding.
fn sound() -> Vec<u8> {
    let params = Params { merge: 3.0, ..PLAIN };
    write(&Upload { width: 7, height: 5, params, pixels: (1..36).collect() })
}

/// The sound stream with some bytes set.
fn with(changes: &[(usize, u8)]) -> Vec<u8> {
    let mut stream = sound();
    changes.iter().for_each(|&(at, value)| stream[at] = value);
    stream
}

/// The same, cut to a length.
fn cut(length: usize, changes: &[(usize, u8)]) -> Vec<u8> {
    with(changes)[..length].to_vec()
}

/// The sound stream with a merge radius of these bits.
fn with_radius(bits: u32) -> Vec<u8> {
    let mut stream = sound();
    stream[MERGE..MERGE + 4].copy_from_slice(&bits.to_le_bytes());
    stream
}

/// Records of the sound stream in another order.
fn ordered(order: &[usize]) -> Vec<u8> {
    let stream = sound();
    let record = |&k: &usize| stream[STARTS[k]..STARTS[k + 1]].to_vec();
    order.iter().flat_map(record).collect()
}

/// A stream of 0 by 9 pixels: no record of kind 3.
fn without_pixels() -> Vec<u8> {
    write(&Upload { width: 0, height: 9, params: PLAIN, pixels: Vec::new() })
}

fn accepted() -> Vec<Case> {
    vec![
        case("sound", 0, sound()),
        case("a side of 0", 0, without_pixels()),
        case("bytes after the end", 0, [sound(), vec![4, 1, 0, 77]].concat()),
        case("window 16", 0, with(&[(WINDOW, 16)])),
        case("centroid radius 16", 0, with(&[(CENTROID, 16)])),
        case("merge radius 1/64", 0, with_radius(0x3c80_0000)),
        case("merge radius 4,096", 0, with_radius(0x4580_0000)),
        case("merge radius infinite", 0, with_radius(0x7f80_0000)),
        case("merge radius NaN", 0, with_radius(0xffc0_0001)),
        case("merge radius negative subnormal", 0, with_radius(0x8000_0001)),
    ]
}

/// Faults of the sides and the parameters: 1, 3 and 5.
fn bodies() -> Vec<Case> {
    let mut ring_and_radius = with_radius(1);
    ring_and_radius[RING] = 6;
    vec![
        case("width 97", 1, with(&[(WIDTH, 97)])),
        case("height 97", 1, with(&[(HEIGHT, 97)])),
        case("width 256", 1, with(&[(WIDTH, 0), (WIDTH + 1, 1)])),
        case("height 65,535", 1, with(&[(HEIGHT, 255), (HEIGHT + 1, 255)])),
        case("width 97 before an unknown kind", 1, with(&[(WIDTH, 97), (5, 9)])),
        case("ring 6", 3, with(&[(RING, 6)])),
        case("ring 0", 3, with(&[(RING, 0)])),
        case("ring 255", 3, with(&[(RING, 255)])),
        case("window 17", 3, with(&[(WINDOW, 17)])),
        case("centroid radius 17", 3, with(&[(CENTROID, 17)])),
        case("ring 6 and merge radius subnormal", 3, ring_and_radius),
        case("merge radius just below 1/64", 5, with_radius(0x3c7f_ffff)),
        case("merge radius just above 4,096", 5, with_radius(0x4580_0001)),
        case("merge radius subnormal", 5, with_radius(1)),
        case("merge radius the largest float", 5, with_radius(0x7f7f_ffff)),
    ]
}

/// Unknown kinds: 6.
fn kinds() -> Vec<Case> {
    vec![
        case("first kind 0", 6, with(&[(0, 0)])),
        case("first kind 5", 6, with(&[(0, 5)])),
        case("second kind 255", 6, with(&[(5, 255)])),
        case("kind 9 among pixels", 6, with(&[(55, 9)])),
        case("kind 0 at the end", 6, with(&[(88, 0)])),
        case("an unknown kind before a ring of 6", 6, with(&[(0, 9), (RING, 6)])),
        case("an unknown kind with nothing behind it", 6, cut(6, &[(5, 7)])),
    ]
}

/// Streams cut short, and padding: 7.
fn cuts() -> Vec<Case> {
    vec![
        case("nothing", 7, cut(0, &[])),
        case("a kind alone", 7, cut(1, &[])),
        case("sides cut", 7, cut(4, &[])),
        case("width 97, sides cut", 7, cut(4, &[(WIDTH, 97)])),
        case("nothing behind the sides", 7, cut(5, &[])),
        case("parameters cut", 7, cut(21, &[])),
        case("ring 6, parameters cut", 7, cut(21, &[(RING, 6)])),
        case("nothing behind the parameters", 7, cut(22, &[])),
        case("pixels cut", 7, cut(54, &[])),
        case("last pixels cut within their padding", 7, cut(87, &[])),
        case("no end", 7, cut(88, &[])),
        case("first byte of padding not 0", 7, with(&[(PADDING, 1)])),
        case("last byte of padding not 0", 7, with(&[(87, 255)])),
        case("padding not 0, no end", 7, cut(88, &[(87, 1)])),
        case("padding not 0, then an unknown kind", 7, with(&[(87, 1), (88, 9)])),
    ]
}

/// Known kinds out of their order: 11, before the body is looked at.
fn orders() -> Vec<Case> {
    let mut second_sides = ordered(&[0, 0, 1, 2, 3, 4]);
    second_sides[5 + WIDTH] = 97;
    let mut pixels_of_none = without_pixels();
    pixels_of_none[22] = 3;
    vec![
        case("parameters first", 11, ordered(&[1, 0, 2, 3, 4])),
        case("parameters first, cut", 11, vec![2, 5]),
        case("pixels first", 11, ordered(&[2, 0, 1, 3, 4])),
        case("end first", 11, vec![4]),
        case("sides twice", 11, ordered(&[0, 0, 1, 2, 3, 4])),
        case("sides twice, then of 97", 11, second_sides),
        case("parameters twice", 11, ordered(&[0, 1, 1, 2, 3, 4])),
        case("pixels before parameters", 11, ordered(&[0, 2, 1, 3, 4])),
        case("end before parameters", 11, ordered(&[0, 4])),
        case("end before pixels", 11, ordered(&[0, 1, 4])),
        case("end too early", 11, ordered(&[0, 1, 2, 4])),
        case("pixels when none is left", 11, ordered(&[0, 1, 2, 3, 3, 4])),
        case("pixels when none is left, cut", 11, with(&[(88, 3)])),
        case("pixels for a side of 0", 11, pixels_of_none),
    ]
}

/// Each fault of a stream that RULES 11.4 names, and the order among them.
pub fn cases() -> Vec<Case> {
    [accepted(), bodies(), kinds(), cuts(), orders()].into_iter().flatten().collect()
}
