//! Calls the functions over Portable Float Maps through the crate of rust/, with good and bad input.

use knotpasture::Format::Signed;
use knotpasture::{self as knot, Refused};

/// As signed, minus infinity everywhere in red; and a block whose two lower rows have 0x85D0 in red.
const LOWEST: [u8; 16] = [0x0F, 0, 0, 0, 0x80, 0, 0, 0, 0, 0, 0, 0, 0, 0, 0, 0];
const BELOW: [u8; 16] = [0x1E, 0, 0, 0, 0, 0, 0, 0, 0x7E, 0xA0, 0x01, 0, 0, 0, 0, 0];

fn main() {
    let blocks = [LOWEST, BELOW].concat();
    let length = knot::pfm_length(8, 4).expect("8 by 4 is a size");
    assert_eq!(length, 12 + 12 * 32);
    for (width, height) in [(0, 4), (2, 4), (5, 4), (4100, 4), (4, u32::MAX - 3)] {
        assert_eq!(knot::pfm_length(width, height), None);
    }

    let mut out = vec![0xA5; length + 8];
    assert_eq!(knot::pfm_write(&blocks, 2u8, 5, 4, &mut []), Err(Refused::BAD_FORMAT));
    assert_eq!(knot::pfm_write(&blocks, Signed, 5, 4, &mut []), Err(Refused::UNEVEN_SIZE));
    assert_eq!(knot::pfm_write(&blocks[1..], Signed, 8, 4, &mut []), Err(Refused::BAD_BLOCKS));
    assert_eq!(knot::pfm_write(&blocks, Signed, 8, 4, &mut out[..length - 1]), Err(Refused::SHORT_OUTPUT));
    assert!(out.iter().all(|byte| *byte == 0xA5));

    assert_eq!(knot::pfm_write(&blocks, Signed, 8, 4, &mut out), Ok(length));
    assert!(out[length..].iter().all(|byte| *byte == 0xA5));
    assert_eq!(&out[..12], b"PF\n8 4\n-1.0\n");
    for y in 0..4 {
        for x in 0..8 {
            let at = 12 + 12 * ((3 - y) * 8 + x);
            let pixel: Vec<f32> = out[at..at + 12].chunks(4).map(|four| f32::from_le_bytes(four.try_into().unwrap())).collect();
            let red = if x < 4 { f32::NEG_INFINITY } else if y < 2 { 0.0 } else { -1488.0 / 16777216.0 };
            assert_eq!(pixel, [red, 0.0, 0.0]);
        }
    }
    println!("Rust, Portable Float Maps: done");
}
