//! Calls the functions over DDS files through the crate of rust/, with good and bad input.

use knotpasture::Format::Signed;
use knotpasture::{self as knot, Dds, Refused};

const LENGTH: usize = 148 + 32;

fn writing() -> Vec<u8> {
    let blocks: Vec<u8> = (0..32).map(|k| 7 * k + 3).collect();
    let mut out = [0xA5; LENGTH + 8];
    assert_eq!(knot::dds_write(&[], 2u8, 0, 0, &mut []), Err(Refused::BAD_FORMAT));
    assert_eq!(knot::dds_write(&[], Signed, 0, 3, &mut []), Err(Refused::BAD_SIZE));
    assert_eq!(knot::dds_write(&blocks, Signed, 4097, 3, &mut out), Err(Refused::BAD_SIZE));
    assert_eq!(knot::dds_write(&blocks[..31], Signed, 5, 3, &mut out), Err(Refused::BAD_BLOCKS));
    assert_eq!(knot::dds_write(&blocks, Signed, 5, 3, &mut out[..LENGTH - 1]), Err(Refused::SHORT_OUTPUT));
    assert_eq!(out, [0xA5; LENGTH + 8]);
    assert_eq!(knot::dds_write(&blocks, Signed, 5, 3, &mut out), Ok(LENGTH));
    assert_eq!(out[LENGTH..], [0xA5; 8]);
    assert_eq!(out[..8], *b"DDS \x7C\0\0\0");
    assert_eq!(knot::dds_blocks(&out[..LENGTH]), &blocks[..]);
    out[..LENGTH].to_vec()
}

fn reading(mut file: Vec<u8>) {
    assert_eq!(knot::dds_read(&file), Ok(Dds { width: 5, height: 3, format: 1 }));
    assert_eq!(knot::dds_head(&file[..148]), Ok(Dds { width: 5, height: 3, format: 1 }));
    assert_eq!(knot::dds_head(&file[..147]), Err(Refused::FOREIGN_HEADER));
    assert_eq!(knot::dds_read(&[]), Err(Refused::FOREIGN_HEADER));
    assert_eq!(knot::dds_read(&file[..LENGTH - 1]), Err(Refused::BAD_BLOCKS));
    assert!(knot::dds_blocks(&file[..LENGTH - 1]).is_empty());
    file[16] = 0;
    assert_eq!(knot::dds_read(&file), Err(Refused::BAD_SIZE));
    file[28] = 2;
    assert_eq!(knot::dds_read(&file), Err(Refused::FOREIGN_HEADER));
}

/// The file as one of BC7 blocks, and with mip levels of 2, 1 and 1 blocks.
fn levels(mut file: Vec<u8>) {
    let told = Ok(Dds { width: 5, height: 3, format: 1 });
    assert_eq!((knot::dds_first_level(&file), knot::dds_first_blocks(&file)), (told, &file[148..]));
    assert_eq!((knot::bc7_dds_read(&file), knot::bc7_dds_first_level(&file)), (Err(Refused::FOREIGN_HEADER), Err(Refused::FOREIGN_HEADER)));
    file[128] = 99;
    assert_eq!((knot::bc7_dds_read(&file), knot::bc7_dds_blocks(&file)), (told, &file[148..]));
    assert_eq!((knot::dds_read(&file), knot::dds_first_blocks(&file).len()), (Err(Refused::FOREIGN_HEADER), 0));
    file[28] = 3;
    assert_eq!((knot::bc7_dds_read(&file), knot::bc7_dds_first_level(&file)), (Err(Refused::FOREIGN_HEADER), Err(Refused::BAD_BLOCKS)));
    assert!(knot::bc7_dds_first_blocks(&file).is_empty() && knot::bc7_dds_blocks(&file).is_empty());
    file.extend([9; 32]);
    assert_eq!((knot::bc7_dds_first_level(&file), knot::bc7_dds_first_blocks(&file)), (told, &file[148..180]));
    file[128] = 96;
    assert_eq!((knot::dds_first_level(&file), knot::dds_first_blocks(&file)), (told, &file[148..180]));
    file[28] = knot::DDS_LEVELS as u8 + 1;
    assert_eq!(knot::dds_first_level(&file), Err(Refused::FOREIGN_HEADER));
}

fn main() {
    levels(writing());
    reading(writing());
    println!("Rust, DDS files: every check holds");
}
