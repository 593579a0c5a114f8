//! Calls the functions over blocks, fields and stores through the crate of rust/, with good and bad input.

use knotpasture::Format::{Signed, Unsigned};
use knotpasture::{self as knot, Cleaned, Record, Refused, Run, Shown, Twins};

const B1: [u8; 16] = [0; 16];
const B2: [u8; 16] = [0x13, 0, 0, 0, 0, 0, 0, 0, 0, 0, 0, 0, 0, 0, 0, 0];
const B3: [u8; 16] = [0x03, 0, 0, 0, 0xF8, 0x1F, 0, 0, 0, 0, 0, 0, 0, 0, 0, 0xF0];
const B4: [u8; 16] = [0x07, 0, 0, 0, 0xF8, 0x0F, 0, 0, 0, 0, 0, 0, 0, 0, 0, 0xF0];
const B6: [u8; 16] = [0x0F, 0, 0, 0, 0x80, 0, 0, 0, 0, 0, 0, 0, 0, 0, 0, 0];

fn record(tile: u32, format: u8, block: [u8; 16]) -> [u8; 24] {
    let mut record = [0; 24];
    record[..4].copy_from_slice(&tile.to_le_bytes());
    record[4] = format;
    record[8..].copy_from_slice(&block);
    record
}

fn pixels() {
    let mut out = [9; 50];
    assert_eq!(knot::block_pixels(&[], 2u8, &mut []), Err(Refused::BAD_FORMAT));
    assert_eq!(knot::block_pixels(&[], Signed, &mut []), Err(Refused::BAD_BLOCK));
    assert_eq!(knot::block_pixels(&B1[..15], Signed, &mut out), Err(Refused::BAD_BLOCK));
    assert_eq!(knot::block_pixels(&[0; 17], Signed, &mut out), Err(Refused::BAD_BLOCK));
    assert_eq!(knot::block_pixels(&B1, Unsigned, &mut out[..47]), Err(Refused::SHORT_OUTPUT));
    assert_eq!(out, [9; 50]);
    assert_eq!(knot::block_pixels(&B2, Unsigned, &mut out[..48]), Ok(Shown { mode: 0, infinities: 0 }));
    assert_eq!(out[..48], [0; 48]);
    assert_eq!(knot::block_pixels(&B3, Unsigned, &mut out), Ok(Shown { mode: 11, infinities: 0 }));
    assert_eq!((out[0], out[45], out[48], out[49]), (0, 0x7BFF, 9, 9));
    assert_eq!(knot::block_pixels(&B6, Signed, &mut out), Ok(Shown { mode: 14, infinities: 16 }));
    assert_eq!((out[0], out[1], out[45]), (0xFC00, 0, 0xFC00));
}

fn runs() {
    let blocks = [B3, B6, B4].concat();
    let mut out = [9; 145];
    assert_eq!(knot::blocks_pixels(&blocks[1..], 2u8, &mut out[..47]), Err(Refused::BAD_FORMAT));
    assert_eq!(knot::blocks_pixels(&blocks[1..], Signed, &mut out[..47]), Err(Refused::UNEVEN_BLOCKS));
    assert_eq!(knot::blocks_pixels(&blocks, Signed, &mut out[..143]), Err(Refused::SHORT_OUTPUT));
    assert_eq!(knot::blocks_pixels(&[], Signed, &mut out), Ok(Run { blocks: 0, infinities: 0 }));
    assert_eq!(out, [9; 145]);
    assert_eq!(knot::blocks_pixels(&blocks, Signed, &mut out), Ok(Run { blocks: 3, infinities: 16 }));
    assert_eq!(knot::blocks_pixels(&blocks, Unsigned, &mut out), Ok(Run { blocks: 3, infinities: 0 }));
    assert_eq!((out[45], out[46], out[93], out[96], out[141], out[144]), (0x7BFF, 0, 0x3E00, 0, 0x7BFF, 9));
}

fn fields() {
    assert_eq!(knot::block_fields(&[], 2u8), Err(Refused::BAD_FORMAT));
    assert_eq!(knot::block_fields(&[], Unsigned), Err(Refused::BAD_BLOCK));
    assert_eq!(knot::block_fields(&[0; 17], Signed), Err(Refused::BAD_BLOCK));
    assert_eq!(knot::block_fields(&B2, 2u8), Err(Refused::BAD_FORMAT));
    assert_eq!(knot::block_fields(&B2, Signed), Err(Refused::RESERVED_MODE));
    let numbers = knot::block_fields(&B3, Signed).unwrap();
    assert_eq!((numbers[0], numbers[1], numbers[5], numbers[31]), (1, 11, 0x3FF, 15));
    assert_eq!(numbers.iter().map(|&number| u32::from(number)).sum::<u32>(), 1 + 11 + 0x3FF + 15);
}

fn writing() {
    for block in [B1, B3, B4, B6] {
        let numbers = knot::block_fields(&block, Signed).unwrap();
        assert_eq!(knot::write_block(&numbers), Ok(block));
        let mut other = numbers;
        other[0] = 2;
        assert_eq!(knot::write_block(&other), Err(Refused::BAD_FORMAT));
        other[0] = 0;
        other[31] += 16;
        assert_eq!(knot::write_block(&other), Err(Refused::INVALID_RECORD));
        assert_eq!(knot::write_block(&numbers[1..]), Err(Refused::INVALID_RECORD));
    }
}

fn store() {
    let store = [record(7, 0, B3), record(8, 0, B4), record(9, 1, B6), record(10, 2, B1)].concat();
    let mut marks = [9; 5];
    assert_eq!(knot::twin_list(&store, &mut marks), Ok(Twins { kept: 2, twins: 1, bad: 1 }));
    assert_eq!(marks, [0, 1, 0, 2, 9]);
    let black = [record(7, 0, B1), record(8, 0, B2), record(9, 1, B1), record(10, 0, B1), record(11, 1, B2)].concat();
    assert_eq!(knot::twin_list(&black, &mut marks), Ok(Twins { kept: 4, twins: 1, bad: 0 }));
    assert_eq!(marks, [0, 0, 0, 1, 0]);
    assert_eq!(knot::twin_list(&store, &mut marks[..3]), Err(Refused::SHORT_OUTPUT));
    assert_eq!(knot::twin_list(&store[1..], &mut marks), Err(Refused::UNEVEN_STORE));
    assert_eq!(knot::twin_list(&[0; 48001], &mut marks), Err(Refused::LONG_STORE));
    assert_eq!(knot::twin_list(&[], &mut []), Ok(Twins { kept: 0, twins: 0, bad: 0 }));
    assert_eq!(knot::record_at(&store, 2), Ok(Record { tile: 9, format: 1 }));
    assert_eq!(knot::record_at(&store, 3), Err(Refused::BAD_FORMAT));
    assert_eq!(knot::record_at(&store, 4), Err(Refused::NO_RECORD));
    assert_eq!(knot::record_at(&store[1..], 0), Err(Refused::UNEVEN_STORE));
    assert_eq!(knot::record_at(&[0; 48001], 0), Err(Refused::LONG_STORE));
    assert_eq!(knot::record_at(&[1; 24], 0), Err(Refused::SPARE_BYTE));
    assert_eq!(knot::record_block(&store, 2), Some(B6.as_slice()));
    assert_eq!(knot::record_block(&store, 3), None);
    assert_eq!(knot::record_block(&[], 0), None);
    assert_eq!([3, 4].map(|n| knot::tile_at(&store, n)), [10, 0]);
}

fn strict() {
    let whole = [record(7, 0, B3), record(8, 0, B4), record(10, 2, B2)].concat();
    let damaged = [record(7, 0, B3), record(8, 0, B3), record(9, 1, B2)].concat();
    let mut marks = [9; 4];
    assert_eq!(knot::strict_twin_list(&damaged, &mut marks), Err(Refused::RESERVED_BLOCK));
    assert_eq!(knot::strict_twin_list(&damaged, &mut marks[..2]), Err(Refused::SHORT_OUTPUT));
    assert_eq!(knot::strict_twin_list(&damaged[1..], &mut marks), Err(Refused::UNEVEN_STORE));
    assert_eq!(knot::strict_twin_list(&[0x13; 48001], &mut marks), Err(Refused::LONG_STORE));
    assert_eq!([knot::first_damaged(&damaged), knot::first_damaged(&whole), knot::first_damaged(&damaged[1..])], [2, 3, 2]);
    assert_eq!(marks, [9; 4]);
    assert_eq!(knot::strict_twin_list(&whole, &mut marks), Ok(Twins { kept: 1, twins: 1, bad: 1 }));
    assert_eq!(marks, [0, 1, 2, 9]);
}

fn scratched() {
    let store = [record(7, 0, B3), record(8, 0, B4), record(10, 2, B3), record(11, 0, B2)].concat();
    let (mut marks, mut scratch) = ([9; 5], [7; 197]);
    assert_eq!(knot::twin_list_in(&store, &mut marks, &mut scratch[..195]), Err(Refused::SHORT_OUTPUT));
    assert_eq!(knot::twin_list_in(&store, &mut marks[..3], &mut scratch), Err(Refused::SHORT_OUTPUT));
    assert_eq!(knot::twin_list_in(&store[1..], &mut marks, &mut scratch), Err(Refused::UNEVEN_STORE));
    assert_eq!(knot::twin_list_in(&[0; 48001], &mut marks, &mut scratch), Err(Refused::LONG_STORE));
    assert_eq!((marks, scratch), ([9; 5], [7; 197]));
    assert_eq!(knot::twin_list_in(&store, &mut marks, &mut scratch), Ok(Twins { kept: 2, twins: 1, bad: 1 }));
    assert_eq!(marks, [0, 1, 2, 0, 9]);
    assert_eq!(scratch[4..52], scratch[52..100]);
    assert_eq!((scratch[2], &scratch[100..148], &scratch[148..196], scratch[196]), (7, &[7; 48][..], &[0; 48][..], 7));
    assert_eq!(knot::twin_list(&store, &mut marks), Ok(Twins { kept: 2, twins: 1, bad: 1 }));
}

fn cleaning() {
    let store = [record(7, 0, B3), record(8, 1, B3), record(9, 0, B3), record(10, 2, B3), record(11, 0, B4)].concat();
    let mut out = [9; 121];
    assert_eq!(knot::clean_store(&store, &mut out[..119]), Err(Refused::SHORT_OUTPUT));
    assert_eq!(knot::clean_store(&store[1..], &mut out), Err(Refused::UNEVEN_STORE));
    assert_eq!(knot::clean_store(&[0; 48001], &mut out), Err(Refused::LONG_STORE));
    assert_eq!(out, [9; 121]);
    assert_eq!(knot::clean_store(&store, &mut out), Ok(Cleaned { stay: 4, removed: 1 }));
    assert_eq!(out[..48], store[..48]);
    assert_eq!(out[48..96], store[72..]);
    assert_eq!(out[96..], [9; 25]);
    assert_eq!([1, 2, 5].map(|n| knot::first_of(&store, n)), [1, 0, 5]);
}

fn restoring() {
    let store = [record(7, 0, B3), record(8, 1, B3), record(9, 0, B3), record(10, 2, B3), record(11, 0, B3)].concat();
    let (mut out, mut receipt, mut back) = ([9; 121], [9; 41], [9; 121]);
    assert_eq!(knot::clean_with_receipt(&store, &mut out[..119], &mut receipt), Err(Refused::SHORT_OUTPUT));
    assert_eq!(knot::clean_with_receipt(&store, &mut out, &mut receipt[..39]), Err(Refused::SHORT_OUTPUT));
    assert_eq!(knot::clean_with_receipt(&store[1..], &mut out, &mut receipt), Err(Refused::UNEVEN_STORE));
    assert_eq!(knot::clean_with_receipt(&[0; 48001], &mut out, &mut receipt), Err(Refused::LONG_STORE));
    assert_eq!((out, receipt), ([9; 121], [9; 41]));
    assert_eq!(knot::clean_with_receipt(&store, &mut out, &mut receipt), Ok(Cleaned { stay: 3, removed: 2 }));
    assert_eq!(out[..48], store[..48]);
    assert_eq!(out[48..72], store[72..96]);
    assert_eq!(receipt[..16], [2, 0, 0, 0, 9, 0, 0, 0, 4, 0, 0, 0, 11, 0, 0, 0]);
    assert_eq!((&out[72..], &receipt[16..]), (&[9; 49][..], &[9; 25][..]));

    let (left, told) = (&out[..72], &receipt[..16]);
    assert_eq!(knot::restore_store(&[0; 48001], told, &mut back), Err(Refused::LONG_STORE));
    assert_eq!(knot::restore_store(&left[1..], told, &mut back), Err(Refused::UNEVEN_STORE));
    assert_eq!(knot::restore_store(left, &told[1..], &mut back), Err(Refused::BAD_RECEIPT));
    assert_eq!(knot::restore_store(left, &[&told[8..], &told[..8]].concat(), &mut back), Err(Refused::BAD_RECEIPT));
    assert_eq!(knot::restore_store(left, told, &mut back[..119]), Err(Refused::SHORT_OUTPUT));
    assert_eq!(back, [9; 121]);
    assert_eq!(knot::restore_store(left, told, &mut back), Ok(5));
    assert_eq!((&back[..120], back[120]), (&store[..], 9));
    assert_eq!(knot::restore_store(&[], &[], &mut []), Ok(0));
}

fn trusted() {
    assert!(knot::is_trusted(&B3, Unsigned) && knot::is_trusted(&B4, Unsigned) && !knot::is_trusted(&B3, 2u8));
    assert!(!knot::is_trusted(&B1, Unsigned) && !knot::is_trusted(&B6, Signed) && !knot::is_trusted(&B3[..15], Unsigned) && !knot::is_trusted(&[], Unsigned));
}

fn main() {
    pixels();
    runs();
    fields();
    writing();
    store();
    strict();
    scratched();
    cleaning();
    restoring();
    trusted();
    println!("Rust: every check holds");
}
