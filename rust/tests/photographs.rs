//! Photographs, over the linked library.
mod common;

use common::{corners, photograph, whole_case, PLAIN, SIDE};
use zakdomp::{read_pgm, Corner, Finder, Params, Refusal};

/// The whole case under a header, with bytes after it.
fn upload(header: &str) -> Vec<u8> {
    [photograph(header, &whole_case()), b"#more".to_vec()].concat()
}

#[test]
fn the_whole_case_by_any_header() {
    let mut finder = Finder::new();
    let headers = ["P5\n11 11\n255\n", "P5 # GIMP\n11\t1#c\r1\x0b\x0c0255\r", "P5\r\n11 11\r\n255#\n "];
    for header in headers {
        let found = corners(finder.find_pgm(&upload(header), &PLAIN));
        assert_eq!(found, Ok(vec![Corner { x: 5.0, y: 5.0, strength: 2032.0, neighbours: 0 }]), "{header:?}");
    }
}

#[test]
fn as_of_the_pixels() {
    let upload = upload("P5 11 11 255\n");
    let photo = read_pgm(&upload).unwrap();
    assert_eq!((photo.width, photo.height, photo.pixels), (SIDE, SIDE, &upload[13..13 + SIDE * SIDE]));
    let mut finder = Finder::new();
    let found = finder.find(photo.pixels, photo.width, photo.height, &PLAIN);
    assert_eq!(finder.find_pgm(&upload, &PLAIN), found);
}

#[test]
fn refusals() {
    let mut finder = Finder::new();
    let wrong_ring = Params { ring: 6, ..PLAIN };
    let mut refused = |upload: &[u8], params: &Params| finder.find_pgm(upload, params).unwrap_err();
    assert_eq!(refused(b"P5 4097 1", &wrong_ring), Refusal::Side);
    assert_eq!(refused(b"P5 1 1 255\n", &wrong_ring), Refusal::Pgm);
    assert_eq!(refused(b"P5 1 1 254\nA", &wrong_ring), Refusal::Maxval);
    assert_eq!(refused(b"P5 1 1 255\nA", &wrong_ring), Refusal::Parameter);
    let upload = upload("P5 11 11 255\n");
    assert_eq!(refused(&upload, &Params { merge_radius: 5000.0, ..PLAIN }), Refusal::MergeRadius);
    assert_eq!(Finder::with_most(0).find_pgm(&upload, &PLAIN), Err(Refusal::ListShort));
    assert_eq!(read_pgm(b"P5"), Err(Refusal::Pgm));
    assert_eq!(Refusal::Pgm.to_string(), "the photograph is no whole binary PGM (number 12)");
    assert_eq!(Refusal::Maxval.to_string(), "the maxval of the photograph is not 255 (number 13)");
}

#[test]
fn sides_of_0() {
    let photo = read_pgm(b"P5 0 4096 255\n").unwrap();
    assert_eq!((photo.width, photo.height, photo.pixels), (0, 4096, &[][..]));
    assert_eq!(corners(Finder::new().find_pgm(b"P5 0 0 255\n", &PLAIN)), Ok(vec![]));
}
