//! The frame stream, over the linked library.
mod common;

use common::{board, PLAIN};
use zakdomp::{raw, write_stream, Params, Refusal};

/// What the program `corners` prints for a stream.
fn listing(stream: &[u8]) -> String {
    let mut output = vec![0; raw::LONGEST];
    // SAFETY: the slice is whole, the output has its length, and the two do not overlap.
    let length = unsafe { raw::zakdomp_corners(stream.as_ptr(), stream.len(), output.as_mut_ptr()) };
    String::from_utf8(output[..length].to_vec()).unwrap()
}

#[test]
fn one_pixel_bit_for_bit() {
    let params = Params {
        threshold: f32::from_bits(0x7fc0_0001),
        merge_radius: f32::from_bits(0xffc1_2345),
        levels: 255,
        minimum_side: 65_535,
        search_radius: 255,
        ..PLAIN
    };
    let head =
        [1, 1, 0, 1, 0, 2, 5, 1, 0, 0xc0, 0x7f, 0, 0, 0, 0x45, 0x23, 0xc1, 0xff, 255, 255, 255, 255, 3, 9];
    let stream = [&head[..], &[0; 31], &[4]].concat();
    assert_eq!(write_stream(&[9], 1, 1, &params), Ok(stream));
    assert_eq!(write_stream(&[], 0, 7, &params).unwrap().len(), 23);
}

#[test]
fn lengths_about_a_record() {
    for (pixels, length) in [(31, 56), (32, 56), (33, 89), (64, 89), (65, 122)] {
        let stream = write_stream(&vec![7; pixels], pixels, 1, &Params::default()).unwrap();
        assert_eq!((stream.len(), stream[length - 1]), (length, 4));
    }
    let image = vec![200; 96 * 96];
    assert_eq!(write_stream(&image, 96, 96, &Params::default()).unwrap().len(), raw::LONGEST_STREAM);
}

#[test]
fn corners_reads_it() {
    let image = board(96, 96, 16);
    let stream = write_stream(&image, 96, 96, &Params { threshold: 100.0, ..Params::default() }).unwrap();
    let text = listing(&stream);
    assert!(text.starts_with("corners 25\n"), "{text}");
    assert_eq!(listing(&[&stream[..], b"what follows"].concat()), text);
    assert_eq!(listing(&stream[..stream.len() - 1]), "refused 7\n");
}

#[test]
fn refusals() {
    let plain = Params::default();
    let wide = |change: fn(&mut Params)| {
        let mut params = plain;
        change(&mut params);
        write_stream(&[9], 1, 1, &params)
    };
    assert_eq!(write_stream(&[9; 97], 97, 1, &Params { ring: 6, ..plain }), Err(Refusal::Side));
    assert_eq!(write_stream(&[9], 1, 2, &Params { ring: 6, ..plain }), Err(Refusal::Length));
    assert_eq!(wide(|p| p.ring = 6), Err(Refusal::Parameter));
    assert_eq!(wide(|p| p.window = 17), Err(Refusal::Parameter));
    assert_eq!(wide(|p| p.least_neighbours = 256), Err(Refusal::Parameter));
    assert_eq!(wide(|p| p.centroid_radius = 17), Err(Refusal::Parameter));
    assert_eq!(wide(|p| p.levels = 256), Err(Refusal::Parameter));
    assert_eq!(wide(|p| p.minimum_side = 65_536), Err(Refusal::Parameter));
    assert_eq!(wide(|p| p.search_radius = 256), Err(Refusal::Parameter));
    assert_eq!(wide(|p| p.merge_radius = 5000.0), Err(Refusal::MergeRadius));
    assert_eq!(wide(|p| (p.merge_radius, p.ring) = (5000.0, 6)), Err(Refusal::Parameter));
    for radius in [0.0, -1.0, f32::INFINITY, f32::NAN, 1.0 / 64.0, 4096.0] {
        assert!(write_stream(&[9], 1, 1, &Params { merge_radius: radius, levels: 0, ..plain }).is_ok());
    }
    assert_eq!(wide(|p| p.levels = 256).unwrap_err().number(), 3);
}
