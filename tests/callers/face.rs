//! Calls the functions over a face of blocks, and those over the twins of a store, through the crate of rust/, with good and bad input.

use knotpasture::Format::Signed;
use knotpasture::{self as knot, Refused, OPAQUE};

/// Either layout: with a fourth value a pixel, or without.
fn face(alpha: bool, blocks: &[u8], width: usize, height: usize, format: impl Into<u8>, out: &mut [u16], pitch: usize) -> Result<usize, Refused> {
    if alpha {
        knot::face_rgba(blocks, width, height, format, out, pitch)
    } else {
        knot::face_pixels(blocks, width, height, format, out, pitch)
    }
}

const UNTOUCHED: u16 = 0xA55A;

/// As signed, minus infinity everywhere in red; and a block whose two lower rows have 0x85D0 in red.
const LOWEST: [u8; 16] = [0x0F, 0, 0, 0, 0x80, 0, 0, 0, 0, 0, 0, 0, 0, 0, 0, 0];
const BELOW: [u8; 16] = [0x1E, 0, 0, 0, 0, 0, 0, 0, 0x7E, 0xA0, 0x01, 0, 0, 0, 0, 0];

fn main() {
    // two by two: the first and the last block are the one, the others the other
    let blocks = [LOWEST, BELOW, BELOW, LOWEST].concat();
    for (alpha, lanes) in [(false, 3), (true, 4)] {
        let (row, pitch) = (8 * lanes, 8 * lanes + 5);
        let room = 7 * pitch + row;
        let mut out = vec![UNTOUCHED; room + 3];
        assert_eq!(face(alpha, &blocks, 2, 2, 2u8, &mut out, 0), Err(Refused::BAD_FORMAT));
        assert_eq!(face(alpha, &blocks[1..], 2, 2, Signed, &mut out, 0), Err(Refused::BAD_BLOCKS));
        assert_eq!(face(alpha, &blocks, usize::MAX, 2, Signed, &mut out, 0), Err(Refused::BAD_BLOCKS));
        assert_eq!(face(alpha, &blocks, 2, 2, Signed, &mut out, row - 1), Err(Refused::SHORT_OUTPUT));
        assert_eq!(face(alpha, &blocks, 2, 2, Signed, &mut out[..room - 1], pitch), Err(Refused::SHORT_OUTPUT));
        assert_eq!(face(alpha, &blocks, 2, 2, Signed, &mut out, usize::MAX), Err(Refused::SHORT_OUTPUT));
        assert_eq!(face(alpha, &[], 0, 5, Signed, &mut [], 0), Ok(0));
        assert!(out.iter().all(|value| *value == UNTOUCHED));

        assert_eq!(face(alpha, &blocks, 2, 2, Signed, &mut out[..room], pitch), Ok(32));
        for (k, value) in out.iter().enumerate() {
            let (x, y, c) = (k % pitch / lanes, k / pitch, k % pitch % lanes);
            let red = if (x < 4) == (y < 4) { 0xFC00 } else if y % 4 < 2 { 0 } else { 0x85D0 };
            let expected = if x >= 8 || y >= 8 { UNTOUCHED } else { [red, 0, 0, OPAQUE][c] };
            assert_eq!(*value, expected, "value {k}");
        }
    }

    let record = |tile: u8, format: u8, block: [u8; 16]| [&[tile, 0, 0, 0, format, 0, 0, 0], &block[..]].concat();
    let trusted = [0x03, 0, 0, 0, 0xF8, 0x1F, 0, 0, 0, 0, 0, 0, 0, 0, 0, 0xF0];
    let store = [record(1, 0, trusted), record(2, 1, LOWEST), record(3, 0, trusted), record(4, 1, LOWEST), record(5, 2, trusted)].concat();
    assert_eq!([0, 1, 2, 3, 4, 5, usize::MAX].map(|n| knot::first_twin(&store, n)), [0, 1, 0, 1, 4, 5, usize::MAX]);
    assert_eq!(knot::first_twin(&store[1..], 2), 2);
    assert!(knot::is_covered(&store, 2, 0) && knot::is_covered(&store, 0, 2) && !knot::is_covered(&store, 3, 1));
    assert!(!knot::is_covered(&store, 4, 0) && !knot::is_covered(&store, 5, 0) && !knot::is_covered(&store, usize::MAX, 0) && !knot::is_covered(&store[1..], 2, 0));
    println!("Rust, faces and twins: done");
}
