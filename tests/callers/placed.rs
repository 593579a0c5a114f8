//! Calls the functions over records with a place through the crate of rust/, with good and bad input.

use knotpasture::{self as knot, Fault, Place, PlacedRecord, Refused};

fn record(tile: u32, format: u8, first: u8) -> [u8; 24] {
    let mut record = [0; 24];
    record[..4].copy_from_slice(&tile.to_le_bytes());
    record[4] = format;
    record[8] = first;
    record
}

fn whole(refused: Refused) -> Result<usize, Fault> {
    Err(Fault { refused, record: None })
}

fn at(refused: Refused, record: usize) -> Result<usize, Fault> {
    Err(Fault { refused, record: Some(record) })
}

fn main() {
    let old = [record(7, 0, 3), record(4294967295, 1, 9)].concat();
    let mut new = [9; 65];
    assert_eq!(knot::place_store(&[0; 48001], &mut new), whole(Refused::LONG_STORE));
    assert_eq!(knot::place_store(&old[1..], &mut new), whole(Refused::UNEVEN_STORE));
    assert_eq!(knot::place_store(&old, &mut new[..63]), whole(Refused::SHORT_OUTPUT));
    assert_eq!(knot::place_store(&[record(7, 0, 3), record(7, 2, 3)].concat(), &mut new), at(Refused::BAD_FORMAT, 1));
    assert_eq!(knot::place_store(&[1; 24], &mut new), at(Refused::SPARE_BYTE, 0));
    assert_eq!(new, [9; 65]);
    assert_eq!(knot::place_store(&[], &mut []), Ok(0));
    assert_eq!(knot::place_store(&old, &mut new), Ok(2));
    assert_eq!((new[5], new[16], new[48], new[64]), (255, 3, 9, 9));

    let mut new = new[..64].to_vec();
    assert_eq!(knot::placed_record_at(&new, 1), Ok(PlacedRecord { tile: 4294967295, format: 1, place: None }));
    assert_eq!(knot::placed_record_block(&new, 1), Some(&old[32..]));
    assert_eq!(knot::placed_record_at(&new, 2), Err(Refused::NO_RECORD));
    assert_eq!(knot::placed_record_at(&new[1..], 0), Err(Refused::UNEVEN_STORE));
    assert_eq!(knot::placed_record_at(&[0; 64001], 0), Err(Refused::LONG_STORE));
    assert_eq!(knot::placed_record_block(&new, 2), None);

    let mut back = [9; 49];
    assert_eq!(knot::unplace_store(&new, &mut back[..47]), whole(Refused::SHORT_OUTPUT));
    assert_eq!(knot::unplace_store(&new, &mut back), Ok(2));
    assert_eq!((&back[..48], back[48]), (&old[..], 9));
    new[37..42].copy_from_slice(&[5, 0x34, 0x12, 1, 0]);
    assert_eq!(knot::placed_record_at(&new, 1), Ok(PlacedRecord { tile: 4294967295, format: 1, place: Some(Place { face: 5, column: 0x1234, row: 1 }) }));
    assert_eq!(knot::unplace_store(&new, &mut back), at(Refused::PLACED_RECORD, 1));
    new[37] = 255;
    assert_eq!(knot::unplace_store(&new, &mut back), at(Refused::BAD_PLACE, 1));
    assert_eq!(knot::placed_record_at(&new, 1), Err(Refused::BAD_PLACE));
    new[47] = 1;
    assert_eq!(knot::unplace_store(&new, &mut back), at(Refused::SPARE_BYTE, 1));

    let mut put = [9; 65];
    let there = Some(Place { face: 5, column: 0x1234, row: 1 });
    assert_eq!(knot::put_place(&new, 1, there, &mut put), at(Refused::SPARE_BYTE, 1));
    assert_eq!(knot::put_place(&new, 2, there, &mut put), whole(Refused::NO_RECORD));
    assert_eq!(knot::put_place(&new, 0, there, &mut put[..63]), whole(Refused::SHORT_OUTPUT));
    assert_eq!(knot::put_place(&new, 0, Some(Place { face: 6, column: 0, row: 0 }), &mut put), whole(Refused::BAD_PLACE));
    assert_eq!(put, [9; 65]);
    assert_eq!(knot::put_place(&new, 0, there, &mut put), Ok(2));
    assert_eq!((&put[..5], &put[5..10], &put[10..64], put[64]), (&new[..5], &[5, 0x34, 0x12, 1, 0][..], &new[10..], 9));
    assert_eq!(knot::put_place(&put[..32], 0, None, &mut new), Ok(1));
    assert_eq!(knot::placed_record_at(&new, 0), Ok(PlacedRecord { tile: 7, format: 0, place: None }));
    println!("Rust, records with a place: every check holds");
}
