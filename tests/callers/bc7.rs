//! Calls the functions for BC7 through the crate of rust/, with good and bad input.

use knotpasture::{self as knot, Refused};

const C1: [u8; 16] = [0, 255, 255, 255, 255, 255, 255, 255, 255, 255, 255, 255, 255, 255, 255, 255];
const C9: [u8; 16] = [0x40, 0xC0, 0x1F, 0, 0x04, 0, 0, 0, 0x11, 0x32, 0x54, 0x76, 0x98, 0xBA, 0xDC, 0xFE];

fn pixels() {
    let mut out = [0xA5; 66];
    for size in [0, 15, 17] {
        assert_eq!(knot::bc7_pixels(&[C9, C9].concat()[..size], &mut out[..63]), Err(Refused::BAD_BLOCK));
    }
    assert_eq!(knot::bc7_pixels(&C9, &mut out[..63]), Err(Refused::SHORT_OUTPUT));
    assert_eq!(knot::bc7_pixels(&C9, &mut []), Err(Refused::SHORT_OUTPUT));
    assert_eq!(out, [0xA5; 66]);
    assert_eq!(knot::bc7_pixels(&C9, &mut out[..65]), Ok(6));
    assert_eq!((&out[..4], &out[60..66]), (&[0, 0, 0, 0][..], &[0xFF, 0x81, 1, 1, 0xA5, 0xA5][..]));
    assert_eq!(knot::bc7_pixels(&C1, &mut out[..64]), Ok(8));
    assert_eq!((&out[..64], out[64]), (&[0; 64][..], 0xA5));
}

fn runs() {
    let blocks = [C1, C9].concat();
    let mut out = [0xA5; 130];
    assert_eq!(knot::bc7_blocks_pixels(&blocks[1..], &mut out), Err(Refused::UNEVEN_BLOCKS));
    assert_eq!(knot::bc7_blocks_pixels(&blocks, &mut out[..127]), Err(Refused::SHORT_OUTPUT));
    assert_eq!(knot::bc7_blocks_pixels(&[], &mut []), Ok(0));
    assert_eq!(out, [0xA5; 130]);
    assert_eq!(knot::bc7_blocks_pixels(&blocks, &mut out[..129]), Ok(2));
    assert_eq!((&out[..64], &out[124..130]), (&[0; 64][..], &[0xFF, 0x81, 1, 1, 0xA5, 0xA5][..]));
}

fn main() {
    pixels();
    runs();
    println!("Rust, BC7: every check holds");
}
