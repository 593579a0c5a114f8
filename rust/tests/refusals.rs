//! What the crate adds to the calls: formats, the words of a refusal, fields by name. tests/callers tries the calls themselves.

use knotpasture::{block_fields, fields_pixels, probe_check, write_block, Fields, Format, Refused, VALUES};
use std::error::Error;

const BLOCK: [u8; 16] = [0x03, 0, 0, 0, 0xF8, 0x1F, 0, 0, 0, 0, 0, 0, 0, 0, 0, 0xF0];

#[test]
fn numbers_and_words() {
    for (number, refused) in (1..).zip(Refused::ALL) {
        assert_eq!(refused.number(), number);
        assert_eq!(refused.to_string(), format!("refused, {number}: {}", refused.words()));
        assert_eq!(format!("{refused:?}"), format!("Refused({number}: {})", refused.words()));
    }
    assert_eq!(Refused::ALL.len(), 28);
}

#[test]
fn as_an_error() {
    fn ask() -> Result<[u16; 32], Box<dyn Error + Send + Sync>> {
        Ok(block_fields(&BLOCK[1..], Format::Signed)?)
    }
    assert_eq!(ask().unwrap_err().to_string(), "refused, 2: the block is not 16 bytes long");
    let fault = probe_check(&[2; 32], 1).unwrap_err();
    assert_eq!(fault.to_string(), "refused, 1: the format is neither 0 (unsigned) nor 1 (signed): record 0");
    assert_eq!(probe_check(&[], 1).unwrap_err().to_string(), "refused, 23: a place is empty");
}

#[test]
fn formats() {
    for (number, format) in [(0, Format::Unsigned), (1, Format::Signed)] {
        assert_eq!(Format::try_from(number), Ok(format));
        assert_eq!(u8::from(format), number);
        assert_eq!(block_fields(&BLOCK, format), block_fields(&BLOCK, number));
    }
    assert_eq!(Format::try_from(2), Err(Refused::BAD_FORMAT));
    assert_eq!(block_fields(&BLOCK, 255u8), Err(Refused::BAD_FORMAT));
}

#[test]
fn fields_by_name() {
    let numbers: [u16; 32] = std::array::from_fn(|at| 100 + at as u16);
    let fields = Fields::from(numbers);
    assert_eq!(fields.numbers(), numbers);
    assert_eq!((fields.format, fields.mode, fields.endpoints[1][0], fields.endpoints[3]), (100, 101, 105, [111, 112, 113]));
    assert_eq!((fields.partition, fields.in_region_1, fields.indices[0], fields.indices[15]), (114, 115, 116, 131));
    let mut fields = Fields::from(block_fields(&BLOCK, Format::Unsigned).unwrap());
    assert_eq!(write_block(&fields.numbers()), Ok(BLOCK));
    fields.endpoints[0] = [1023, 1023, 1023];
    let mut values = [0; VALUES];
    assert_eq!(fields_pixels(&fields.numbers(), &mut values), Ok(()));
    assert_eq!(values[..3], [0x7BFF; 3]);
}
