//! Calls fields_pixels through the crate of rust/, with good and bad input.

use knotpasture::Format::Signed;
use knotpasture::{self as knot, Refused};

const B3: [u8; 16] = [0x03, 0, 0, 0, 0xF8, 0x1F, 0, 0, 0, 0, 0, 0, 0, 0, 0, 0xF0];
const B6: [u8; 16] = [0x0F, 0, 0, 0, 0x80, 0, 0, 0, 0, 0, 0, 0, 0, 0, 0, 0];

fn refusals() {
    let mut out = [7; 50];
    let mut numbers = knot::block_fields(&B3, Signed).unwrap();
    assert_eq!(knot::fields_pixels(&numbers, &mut out[..47]), Err(Refused::SHORT_OUTPUT));
    assert_eq!(knot::fields_pixels(&numbers[..31], &mut out), Err(Refused::INVALID_RECORD));
    assert_eq!(knot::fields_pixels(&[], &mut []), Err(Refused::INVALID_RECORD));
    numbers[1] = 0;
    assert_eq!(knot::fields_pixels(&numbers, &mut out[..47]), Err(Refused::INVALID_RECORD));
    numbers[0] = 2;
    assert_eq!(knot::fields_pixels(&numbers, &mut out), Err(Refused::BAD_FORMAT));
    assert_eq!(out, [7; 50]);
}

fn shown() {
    let mut out = [7; 50];
    let mut numbers = knot::block_fields(&B6, Signed).unwrap();
    assert_eq!(knot::fields_pixels(&numbers, &mut out), Ok(()));
    assert!(out[..48].chunks(3).all(|pixel| pixel == [0xFC00, 0, 0]) && out[48..] == [7, 7]);
    numbers[2] += 1;
    assert_eq!(knot::fields_pixels(&numbers, &mut out), Ok(()));
    assert!(out[..48].chunks(3).all(|pixel| pixel == [0xFBFF, 0, 0]));
}

fn main() {
    refusals();
    shown();
    println!("Rust, fields shown: every check holds");
}
