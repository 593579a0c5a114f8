//! Calls the probe's functions through the crate of rust/, with good and bad input.

use knotpasture::{self as knot, Fault, Format, Refused};

/// Mode 11: red is 0x7BFF in pixel 15 and 0 in every other.
const LAST_RED: [u8; 16] = [0x03, 0, 0, 0, 0xF8, 0x1F, 0, 0, 0, 0, 0, 0, 0, 0, 0, 0xF0];

fn record(face: u8, column: u8, row: u8, block: [u8; 16]) -> Vec<u8> {
    [&[0, 0, 0, 0, 0, face, column, 0, row, 0][..], &[0; 6], &block].concat()
}

/// A probe of two blocks an edge, the last face first; the block of face 2, column 1, row 0 alone is not black.
fn store() -> Vec<u8> {
    let places = (0..24).rev().map(|k| (k / 4, k % 2, k / 2 % 2));
    places.flat_map(|(face, column, row)| record(face, column, row, if (face, column, row) == (2, 1, 0) { LAST_RED } else { [0; 16] })).collect()
}

/// A probe of two blocks an edge, made of blocks; that of face 2, column 1, row 0 alone is not black.
fn built() {
    let mut blocks = vec![0; 16 * 24];
    blocks[16 * 9..16 * 10].copy_from_slice(&LAST_RED);
    let mut out = vec![0x5A; 32 * 24 + 1];
    assert_eq!(knot::probe_build(&blocks, 2u8, 17, 7, &mut out), Err(Refused::BAD_EDGE));
    assert_eq!(knot::probe_build(&blocks, 2u8, 2, 7, &mut out), Err(Refused::BAD_FORMAT));
    assert_eq!(knot::probe_build(&blocks, Format::Unsigned, 1, 7, &mut out), Err(Refused::BAD_BLOCKS));
    assert_eq!(knot::probe_build(&blocks, Format::Unsigned, 2, 7, &mut out[..767]), Err(Refused::SHORT_OUTPUT));
    assert!(out.iter().all(|&byte| byte == 0x5A));
    assert_eq!(knot::probe_build(&blocks, Format::Unsigned, 2, 7, &mut out), Ok(24));
    assert_eq!((out[768], knot::probe_edge(&out), knot::probe_edge(&out[..768])), (0x5A, None, Some(2)));
    let made = &out[..768];
    assert_eq!(knot::probe_check(made, 2), Ok(()));
    assert_eq!(knot::placed_record_at(made, 9).map(|record| record.tile), Ok(16));
    assert_eq!((knot::probe_pixel(made, 2, 2, 7, 3), knot::probe_pixel(made, 2, 2, 3, 7)), (Ok([0x7BFF, 0, 0]), Ok([0, 0, 0])));
}

/// The table of a probe, and its pixels by it.
fn opened(store: &[u8]) {
    let mut table = [0xA55A; knot::PROBE_TABLE + 1];
    assert_eq!(knot::probe_open(store, 1, &mut table), Err(Fault { refused: Refused::PAST_EDGE, record: Some(0) }));
    assert_eq!(knot::probe_open(store, 2, &mut table[..1535]), Err(Fault { refused: Refused::SHORT_OUTPUT, record: None }));
    assert!(table.iter().all(|&value| value == 0xA55A));
    assert_eq!(knot::probe_open(store, 2, &mut table), Ok(()));
    assert_eq!((table[0], table[2 * 256 + 1], table[5 * 256 + 17], table[1536]), (24, 15, 1, 0xA55A));
    for (face, x, y) in (0..384).map(|k| (k / 64, k % 8, k / 8 % 8)) {
        assert_eq!(knot::probe_pixel_in(store, &table, 2, face, x, y), knot::probe_pixel(store, 2, face, x, y).map_err(|fault| fault.refused));
    }
    assert_eq!(knot::probe_pixel_in(store, &[], 17, 6, 0, 0), Err(Refused::BAD_EDGE));
    assert_eq!(knot::probe_pixel_in(store, &[], 2, 6, 0, 0), Err(Refused::NO_PIXEL));
    assert_eq!(knot::probe_pixel_in(store, &table[..1535], 2, 0, 0, 0), Err(Refused::SHORT_OUTPUT));
    assert_eq!(knot::probe_pixel_in(store, &table, 3, 0, 8, 0), Err(Refused::EMPTY_PLACE));
    assert_eq!(knot::probe_pixel_in(&store[..32], &table, 2, 0, 0, 0), Err(Refused::NO_RECORD));
}

fn main() {
    let store = store();
    assert_eq!(knot::probe_check(&store, 2), Ok(()));
    assert_eq!(knot::probe_check(&store, 17), Err(Fault { refused: Refused::BAD_EDGE, record: None }));
    assert_eq!(knot::probe_check(&store, 1), Err(Fault { refused: Refused::PAST_EDGE, record: Some(0) }));
    assert_eq!(knot::probe_check(&store[..32 * 23], 2), Err(Fault { refused: Refused::EMPTY_PLACE, record: None }));
    assert_eq!(knot::probe_check(&[&store[..], &store[..32]].concat(), 2), Err(Fault { refused: Refused::TAKEN_PLACE, record: Some(24) }));
    for (x, y) in (0..64).map(|k| (k % 8, k / 8)) {
        let red = if (x, y) == (7, 3) { 0x7BFF } else { 0 };
        assert_eq!(knot::probe_pixel(&store, 2, 2, x, y), Ok([red, 0, 0]));
    }
    assert_eq!(knot::probe_pixel(&store, 2, 2, 8, 0), Err(Fault { refused: Refused::NO_PIXEL, record: None }));
    assert_eq!(knot::probe_pixel(&[&store[..], &store[..32]].concat(), 2, 6, 0, 0), Err(Fault { refused: Refused::TAKEN_PLACE, record: Some(24) }));
    let mut face = [0xA55A; 200];
    assert_eq!(knot::probe_face(&store, 2, 2, &mut face[..191]), Err(Refused::SHORT_OUTPUT));
    assert_eq!(knot::probe_face(&store, 2, 6, &mut face), Err(Refused::NO_PIXEL));
    assert!(face.iter().all(|&value| value == 0xA55A));
    assert_eq!(knot::probe_face(&store, 2, 2, &mut face), Ok(()));
    assert!((0..192).all(|k| face[k] == if k == 3 * (8 * 3 + 7) { 0x7BFF } else { 0 }) && face[192..].iter().all(|&value| value == 0xA55A));
    built();
    opened(&store);
    println!("Rust, the probe: every check holds");
}
