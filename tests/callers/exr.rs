//! Calls the functions over OpenEXR files through the crate of rust/, with good and bad input.

use knotpasture::Format::Signed;
use knotpasture::{self as knot, Refused};

/// As signed, minus infinity everywhere in red; and a block whose two lower rows have 0x85D0 in red.
const LOWEST: [u8; 16] = [0x0F, 0, 0, 0, 0x80, 0, 0, 0, 0, 0, 0, 0, 0, 0, 0, 0];
const BELOW: [u8; 16] = [0x1E, 0, 0, 0, 0, 0, 0, 0, 0x7E, 0xA0, 0x01, 0, 0, 0, 0, 0];

fn main() {
    let blocks = [LOWEST, BELOW].concat();
    let length = knot::exr_length(8, 4).expect("8 by 4 is a size");
    assert_eq!(length, 313 + 4 * 8 + 4 * (8 + 48));
    for (width, height) in [(0, 4), (2, 4), (5, 4), (4100, 4), (4, u32::MAX - 3)] {
        assert_eq!(knot::exr_length(width, height), None);
    }

    let mut out = vec![0xA5; length + 8];
    assert_eq!(knot::exr_write(&blocks, 2u8, 5, 4, &mut []), Err(Refused::BAD_FORMAT));
    assert_eq!(knot::exr_write(&blocks, Signed, 5, 4, &mut []), Err(Refused::UNEVEN_SIZE));
    assert_eq!(knot::exr_write(&blocks[1..], Signed, 8, 4, &mut []), Err(Refused::BAD_BLOCKS));
    assert_eq!(knot::exr_write(&blocks, Signed, 8, 4, &mut out[..length - 1]), Err(Refused::SHORT_OUTPUT));
    assert!(out.iter().all(|byte| *byte == 0xA5));

    assert_eq!(knot::exr_write(&blocks, Signed, 8, 4, &mut out), Ok(length));
    assert!(out[length..].iter().all(|byte| *byte == 0xA5));
    let half = |at: usize| u16::from_le_bytes([out[at], out[at + 1]]);
    for (x, y) in (0..32).map(|k| (k % 8, k / 8)) {
        let line = 345 + 56 * y + 8 + 2 * x;
        let red = if x < 4 { 0xFC00 } else if y < 2 { 0 } else { 0x85D0 };
        assert_eq!([half(line + 32), half(line + 16), half(line)], [red, 0, 0]);
    }
    println!("Rust, OpenEXR files: every check holds");
}
