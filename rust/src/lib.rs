//! Safe calls of the Knotpasture library: BC6H and BC7 blocks, stores of tiles, records with a place, probes, DDS files, Portable Float
//! Maps and OpenEXR files. Each function is one call of `knotpasture.h`, which says what is proved of it; what is here is not proved: it hands on slices
//! with their lengths, and takes answers apart.
//!
//! Every call ends for every input and checks all of it. A refusal is a [`Refused`], one number with its words, and changes nothing that was
//! lent. The calls keep nothing and may run on any number of threads at once.
//!
//! ```
//! use knotpasture::{block_pixels, Format, Refused, VALUES};
//!
//! let block = [0x03, 0, 0, 0, 0xF8, 0x1F, 0, 0, 0, 0, 0, 0, 0, 0, 0, 0xF0];
//! let mut values = [0; VALUES];
//! let shown = block_pixels(&block, Format::Unsigned, &mut values)?;
//! assert_eq!((shown.mode, shown.infinities), (11, 0));
//! assert_eq!(values[45..], [0x7BFF, 0, 0]); // red, green and blue of pixel 15
//!
//! let refused = block_pixels(&block[1..], Format::Unsigned, &mut values).unwrap_err();
//! assert_eq!(refused, Refused::BAD_BLOCK);
//! assert_eq!(refused.to_string(), "refused, 2: the block is not 16 bytes long");
//! # Ok::<(), Refused>(())
//! ```
//!
//! A format is a [`Format`] or a number: one of a file that is neither 0 nor 1 is refused by the library, and not here.

#![deny(missing_docs)]

use std::fmt;

// Every call stays within the lengths that it is given and keeps no pointer: the SAFETY comments say whose lengths those are.
mod c;

/// Bytes of a block.
pub const BLOCK_SIZE: usize = 16;
/// Values that a block shows: sixteen pixels of red, green and blue.
pub const VALUES: usize = 48;
/// Numbers of a field record.
pub const FIELDS: usize = 32;
/// Bytes of a record of a store.
pub const RECORD_SIZE: usize = 24;
/// Bytes of a store of such records, at most.
pub const STORE_LIMIT: usize = 48_000;
/// Values of scratch space for each record of a store, for [`twin_list_in`].
pub const SCRATCH_VALUES: usize = 49;
/// Bytes of a receipt for each record of a store, for [`clean_with_receipt`].
pub const RECEIPT_ENTRY: usize = 8;
/// Bytes of a record with a place.
pub const PLACED_SIZE: usize = 32;
/// Bytes of a store of records with a place, at most.
pub const PLACED_STORE_LIMIT: usize = 64_000;
/// Faces are 0 to 5.
pub const FACES: u8 = 6;
/// The face of a record that is not placed.
const NO_FACE: u8 = 255;
/// Blocks on an edge of a probe, at most.
pub const EDGE_LIMIT: u32 = 16;
/// Values of the table that [`probe_open`] fills.
pub const PROBE_TABLE: usize = 1536;
/// The alpha of every pixel of [`face_rgba`], 1.0.
pub const OPAQUE: u16 = 0x3C00;
/// Bytes that a BC7 block shows: sixteen pixels of red, green, blue and alpha.
pub const BC7_BYTES: usize = 64;
/// The mode that [`bc7_pixels`] answers for a reserved block.
pub const BC7_RESERVED: u8 = 8;
/// Bytes of a DDS file before its blocks.
pub const DDS_HEADER: usize = 148;
/// Pixels of a side of a DDS file, at most.
pub const DDS_LIMIT: u32 = 4096;
/// Mip levels of a DDS file, at most, for [`dds_first_level`].
pub const DDS_LEVELS: u32 = 13;
/// Pixels of a side of a Portable Float Map, at most.
pub const PFM_LIMIT: u32 = 4096;
/// Pixels of a side of an OpenEXR file, at most.
pub const EXR_LIMIT: u32 = 4096;

/// How the endpoints of a BC6H block are read.
#[derive(Debug, Clone, Copy, PartialEq, Eq, Hash)]
pub enum Format {
    /// 0: no value is below zero.
    Unsigned = 0,
    /// 1: values may be below zero.
    Signed = 1,
}

impl From<Format> for u8 {
    fn from(format: Format) -> u8 {
        format as u8
    }
}

impl TryFrom<u8> for Format {
    type Error = Refused;

    fn try_from(number: u8) -> Result<Format, Refused> {
        match number {
            0 => Ok(Format::Unsigned),
            1 => Ok(Format::Signed),
            _ => Err(Refused::BAD_FORMAT),
        }
    }
}

/// Why a call did nothing: one of the numbers of `knotpasture.h`, with its words.
#[derive(Clone, Copy, PartialEq, Eq, Hash)]
pub struct Refused(u8);

macro_rules! refusals {
    ($($number:literal $name:ident $words:literal)*) => {
        impl Refused {
            $(#[doc = concat!(stringify!($number), ": ", $words, ".")] pub const $name: Refused = Refused($number);)*

            /// Every refusal, by its number.
            pub const ALL: &'static [Refused] = &[$(Refused::$name),*];

            /// What the number means, in one line.
            pub fn words(self) -> &'static str {
                match self.0 {
                    $($number => $words,)*
                    _ => "a number that this version does not know",
                }
            }
        }
    };
}

refusals! {
    1 BAD_FORMAT "the format is neither 0 (unsigned) nor 1 (signed)"
    2 BAD_BLOCK "the block is not 16 bytes long"
    3 SHORT_OUTPUT "the room for the result is too small"
    4 RESERVED_MODE "the mode is reserved"
    5 LONG_STORE "the store has more than 2,000 records"
    6 UNEVEN_STORE "the store's length is not a whole number of records"
    7 SPARE_BYTE "a spare byte of a record is not zero"
    8 NO_RECORD "there is no record of that number"
    9 UNEVEN_BLOCKS "the blocks' length is not a multiple of 16"
    10 INVALID_RECORD "no block has these fields"
    11 BAD_BUFFER "the block's buffer is not 16 bytes long"
    12 RESERVED_BLOCK "a record that is not refused has a reserved mode: the capture is damaged"
    13 FOREIGN_HEADER "the header is not that of a DDS texture that the call reads"
    14 BAD_SIZE "the width or height is out of range"
    15 BAD_BLOCKS "the block bytes are short or left over for the size"
    16 UNEVEN_SIZE "the width or height is zero, not a multiple of 4 or above 4,096"
    17 BAD_PLACE "the face is bad, or a record that is not placed has a position"
    18 PLACED_RECORD "a placed record does not move back"
    19 BAD_EDGE "the edge is not 1 to 16"
    20 UNPLACED_RECORD "a record is not placed"
    21 PAST_EDGE "a position is at or past the edge"
    22 TAKEN_PLACE "a place is taken twice"
    23 EMPTY_PLACE "a place is empty"
    24 NO_PIXEL "the face, x or y is out of range"
    25 BAD_RECEIPT "the receipt does not fit the store"
    26 OTHER_STORE "the store is not the one that was signed"
    27 OTHER_RECEIPT "the receipt is of another store"
    28 OTHER_FILE "the file looks like something else"
}

impl Refused {
    /// The number, which is not 0.
    pub fn number(self) -> u8 {
        self.0
    }
}

impl fmt::Display for Refused {
    fn fmt(&self, to: &mut fmt::Formatter<'_>) -> fmt::Result {
        write!(to, "refused, {}: {}", self.0, self.words())
    }
}

impl fmt::Debug for Refused {
    fn fmt(&self, to: &mut fmt::Formatter<'_>) -> fmt::Result {
        write!(to, "Refused({}: {})", self.0, self.words())
    }
}

impl std::error::Error for Refused {}

/// The word of an answer, where its low byte is 0; else the refusal.
fn done(word: u64) -> Result<u64, Refused> {
    match word as u8 {
        0 => Ok(word),
        number => Err(Refused(number)),
    }
}

/// What [`block_pixels`] tells of a block.
#[derive(Debug, Clone, Copy, PartialEq, Eq)]
pub struct Shown {
    /// The mode, 1 to 14; 0 for a reserved one, which shows 48 zeros.
    pub mode: u8,
    /// How many of the 48 values are minus infinity, 0xFC00.
    pub infinities: u8,
}

/// The 48 half-float patterns of a block become the first of `out`: pixel 0 red, green, blue, then pixel 1, the top row first.
///
/// Refusals: 1, 2, 3.
pub fn block_pixels(block: &[u8], format: impl Into<u8>, out: &mut [u16]) -> Result<Shown, Refused> {
    // SAFETY: `block` is borrowed to read, `out` to write, each with its own length.
    let word = unsafe { c::knot_block_pixels(block.as_ptr(), block.len(), format.into(), out.as_mut_ptr(), out.len()) };
    done(word.into()).map(|word| Shown { mode: (word >> 8) as u8, infinities: (word >> 16) as u8 })
}

/// What [`blocks_pixels`] tells of a run of blocks.
#[derive(Debug, Clone, Copy, PartialEq, Eq)]
pub struct Run {
    /// How many blocks there are.
    pub blocks: usize,
    /// How many of the values are minus infinity, 0xFC00.
    pub infinities: usize,
}

/// The values of a run of blocks become the first of `out`, 48 a block.
///
/// Refusals: 1, 9, 3.
///
/// ```
/// use knotpasture::{blocks_pixels, Format, Refused, Run};
///
/// let black = [0; 32];
/// let mut values = vec![1; 96];
/// assert_eq!(blocks_pixels(&black, Format::Signed, &mut values)?, Run { blocks: 2, infinities: 0 });
/// assert_eq!(values, [0; 96]);
/// # Ok::<(), Refused>(())
/// ```
pub fn blocks_pixels(blocks: &[u8], format: impl Into<u8>, out: &mut [u16]) -> Result<Run, Refused> {
    let (mut run, room) = (Run { blocks: 0, infinities: 0 }, out.len());
    let (lent, format) = (out.as_mut_ptr(), format.into());
    // SAFETY: `blocks` is borrowed to read, `out` to write, each with its own length; `run.blocks` and `run.infinities` are locals.
    let word = unsafe { c::knot_blocks_pixels(blocks.as_ptr(), blocks.len(), format, lent, room, &mut run.blocks, &mut run.infinities) };
    done(word.into()).map(|_| run)
}

/// The fields of a block, as stored: format, mode, twelve endpoint values, partition, how many pixels lie in region 1, sixteen indices.
/// [`Fields`] gives them names.
///
/// Refusals: 1, 2, 4.
pub fn block_fields(block: &[u8], format: impl Into<u8>) -> Result<[u16; FIELDS], Refused> {
    let mut numbers = [0; FIELDS];
    // SAFETY: `block` is borrowed to read, `numbers` to write, each with its own length.
    let word = unsafe { c::knot_block_fields(block.as_ptr(), block.len(), format.into(), numbers.as_mut_ptr(), numbers.len()) };
    done(word.into()).map(|_| numbers)
}

/// The block of a field record: the way back of [`block_fields`].
///
/// Refusals: 1, 10 (also for another count of numbers than 32).
///
/// ```
/// use knotpasture::{block_fields, write_block, Fields, Format, Refused};
///
/// let block = [0x03, 0, 0, 0, 0xF8, 0x1F, 0, 0, 0, 0, 0, 0, 0, 0, 0, 0xF0];
/// let mut fields = Fields::from(block_fields(&block, Format::Unsigned)?);
/// assert_eq!(write_block(&fields.numbers())?, block);
/// fields.endpoints[1][0] = 4000;
/// assert_eq!(write_block(&fields.numbers()), Err(Refused::INVALID_RECORD));
/// # Ok::<(), Refused>(())
/// ```
pub fn write_block(numbers: &[u16]) -> Result<[u8; BLOCK_SIZE], Refused> {
    let mut block = [0; BLOCK_SIZE];
    // SAFETY: `numbers` is borrowed to read, `block` to write, each with its own length.
    let word = unsafe { c::knot_write_block(numbers.as_ptr(), numbers.len(), block.as_mut_ptr(), block.len()) };
    done(word.into()).map(|_| block)
}

/// What a field record shows, without a block written first: its 48 values become the first of `out`.
///
/// Refusals: 1, 10 (also for another count of numbers than 32), 3.
pub fn fields_pixels(numbers: &[u16], out: &mut [u16]) -> Result<(), Refused> {
    // SAFETY: `numbers` is borrowed to read, `out` to write, each with its own length.
    let word = unsafe { c::knot_fields_pixels(numbers.as_ptr(), numbers.len(), out.as_mut_ptr(), out.len()) };
    done(word.into()).map(|_| ())
}

/// The numbers of a field record by name.
#[derive(Debug, Clone, Copy, PartialEq, Eq)]
pub struct Fields {
    /// 0 or 1.
    pub format: u16,
    /// 1 to 14.
    pub mode: u16,
    /// Red, green and blue of each endpoint; modes 11 to 14 have two, and zeros for the others.
    pub endpoints: [[u16; 3]; 4],
    /// 0 to 31; 0 in modes 11 to 14.
    pub partition: u16,
    /// How many pixels lie in region 1.
    pub in_region_1: u16,
    /// The sixteen pixels' indices.
    pub indices: [u16; 16],
}

impl From<[u16; FIELDS]> for Fields {
    fn from(numbers: [u16; FIELDS]) -> Fields {
        let (mut endpoints, mut indices) = ([[0; 3]; 4], [0; 16]);
        for (at, value) in numbers[2..14].iter().enumerate() {
            endpoints[at / 3][at % 3] = *value;
        }
        indices.copy_from_slice(&numbers[16..]);
        Fields { format: numbers[0], mode: numbers[1], endpoints, partition: numbers[14], in_region_1: numbers[15], indices }
    }
}

impl Fields {
    /// The numbers in the order of [`block_fields`].
    pub fn numbers(&self) -> [u16; FIELDS] {
        let mut numbers = [0; FIELDS];
        numbers[..2].copy_from_slice(&[self.format, self.mode]);
        for (at, value) in self.endpoints.iter().flatten().enumerate() {
            numbers[2 + at] = *value;
        }
        numbers[14..16].copy_from_slice(&[self.partition, self.in_region_1]);
        numbers[16..].copy_from_slice(&self.indices);
        numbers
    }
}

/// The pixels of a face of `width` by `height` blocks, in row order, become rows of pixels of three values, `pitch` values from the start of one
/// row to that of the next; what lies between the rows stays. Answers how many of the values are minus infinity.
///
/// Refusals: 1, 15, 3 (a pitch below 12 · width, or room for fewer rows).
///
/// ```
/// use knotpasture::{face_pixels, Format, Refused};
///
/// let blocks = [0; 6 * 16];
/// let mut picture = vec![9; 8 * 40]; // 3 by 2 blocks in rows of 40 values
/// face_pixels(&blocks, 3, 2, Format::Unsigned, &mut picture, 40)?;
/// assert_eq!((picture[35], picture[36], picture[40]), (0, 9, 0));
/// # Ok::<(), Refused>(())
/// ```
pub fn face_pixels(blocks: &[u8], width: usize, height: usize, format: impl Into<u8>, out: &mut [u16], pitch: usize) -> Result<usize, Refused> {
    let (mut infinite, format, lent, room) = (0, format.into(), out.as_mut_ptr(), out.len());
    // SAFETY: `blocks` is borrowed to read, `out` to write, each with its own length; `infinite` is a local.
    let word = unsafe { c::knot_face_pixels(blocks.as_ptr(), blocks.len(), width, height, format, lent, room, pitch, &mut infinite) };
    done(word.into()).map(|_| infinite)
}

/// [`face_pixels`] with four values a pixel, of which the fourth is [`OPAQUE`].
///
/// Refusals: 1, 15, 3 (a pitch below 16 · width, or room for fewer rows).
pub fn face_rgba(blocks: &[u8], width: usize, height: usize, format: impl Into<u8>, out: &mut [u16], pitch: usize) -> Result<usize, Refused> {
    let (mut infinite, format, lent, room) = (0, format.into(), out.as_mut_ptr(), out.len());
    // SAFETY: `blocks` is borrowed to read, `out` to write, each with its own length; `infinite` is a local.
    let word = unsafe { c::knot_face_rgba(blocks.as_ptr(), blocks.len(), width, height, format, lent, room, pitch, &mut infinite) };
    done(word.into()).map(|_| infinite)
}

/// Whether a block by itself meets the premises of the copies theorem: two such blocks of one format, mode and partition that show the
/// same values are the same bytes. False for any other length or format.
pub fn is_trusted(block: &[u8], format: impl Into<u8>) -> bool {
    // SAFETY: `block` is borrowed to read, with its own length.
    unsafe { c::knot_is_trusted(block.as_ptr(), block.len(), format.into()) }
}

/// A record of a store.
#[derive(Debug, Clone, Copy, PartialEq, Eq)]
pub struct Record {
    /// Its tile number.
    pub tile: u32,
    /// 0 or 1.
    pub format: u8,
}

/// Record n of a store of 24-byte records.
///
/// Refusals: 5, 6, 8, 1, 7.
pub fn record_at(store: &[u8], n: usize) -> Result<Record, Refused> {
    // SAFETY: `store` is borrowed to read, with its own length.
    let word = unsafe { c::knot_record_at(store.as_ptr(), store.len(), n) };
    done(word).map(|word| Record { tile: (word >> 32) as u32, format: (word >> 8) as u8 })
}

/// The block of record n as a part of the store; None where [`record_at`] refuses n.
pub fn record_block(store: &[u8], n: usize) -> Option<&[u8]> {
    // SAFETY: `store` is borrowed to read, with its own length.
    block_from(store, unsafe { c::knot_record_block(store.as_ptr(), store.len(), n) })
}

fn block_from(store: &[u8], start: usize) -> Option<&[u8]> {
    if start == 0 {
        None
    } else {
        store.get(start..start + BLOCK_SIZE)
    }
}

/// The tile number of record n, whatever else the record holds, and 0 where there is no such record.
pub fn tile_at(store: &[u8], n: usize) -> u32 {
    // SAFETY: `store` is borrowed to read, with its own length.
    unsafe { c::knot_tile_at(store.as_ptr(), store.len(), n) }
}

/// A mark of [`twin_list`]: neither of the other two.
pub const KEPT: u8 = 0;
/// A mark of [`twin_list`]: an earlier record that is not refused has the same format and shows the same, and neither is reserved.
pub const TWIN: u8 = 1;
/// A mark of [`twin_list`]: [`record_at`] refuses the record.
pub const BAD: u8 = 2;

/// How many records of a store are kept, are twins and are refused.
#[derive(Debug, Clone, Copy, PartialEq, Eq)]
pub struct Twins {
    /// Marked [`KEPT`].
    pub kept: usize,
    /// Marked [`TWIN`].
    pub twins: usize,
    /// Marked [`BAD`].
    pub bad: usize,
}

fn twins(word: u64) -> Result<Twins, Refused> {
    let [kept, twins, bad] = [16, 32, 48].map(|shift| usize::from((word >> shift) as u16));
    done(word).map(|_| Twins { kept, twins, bad })
}

/// Marks each record of a store. It takes 200,000 bytes of stack: [`twin_list_in`] does the same with less.
///
/// Refusals: 5, 6, 3.
pub fn twin_list(store: &[u8], marks: &mut [u8]) -> Result<Twins, Refused> {
    // SAFETY: `store` is borrowed to read, `marks` to write, each with its own length.
    twins(unsafe { c::knot_twin_list(store.as_ptr(), store.len(), marks.as_mut_ptr(), marks.len()) })
}

/// The same over lent scratch space, [`SCRATCH_VALUES`] for each record.
///
/// Refusals: 5, 6, 3.
pub fn twin_list_in(store: &[u8], marks: &mut [u8], scratch: &mut [u16]) -> Result<Twins, Refused> {
    let (lent, room) = (scratch.as_mut_ptr(), scratch.len());
    // SAFETY: `store` is borrowed to read, `marks` and `scratch` to write, each with its own length.
    twins(unsafe { c::knot_twin_list_in(store.as_ptr(), store.len(), marks.as_mut_ptr(), marks.len(), lent, room) })
}

/// The twin list of a store in which no record is damaged: not refused, and of a reserved mode. It takes 200,000 bytes of stack.
///
/// Refusals: 5, 6, 3, 12.
pub fn strict_twin_list(store: &[u8], marks: &mut [u8]) -> Result<Twins, Refused> {
    // SAFETY: `store` is borrowed to read, `marks` to write, each with its own length.
    twins(unsafe { c::knot_strict_twin_list(store.as_ptr(), store.len(), marks.as_mut_ptr(), marks.len()) })
}

/// The number of the first damaged record; the number of records where none is.
pub fn first_damaged(store: &[u8]) -> usize {
    // SAFETY: `store` is borrowed to read, with its own length.
    unsafe { c::knot_first_damaged(store.as_ptr(), store.len()) }
}

/// What [`clean_store`] and [`clean_with_receipt`] tell.
#[derive(Debug, Clone, Copy, PartialEq, Eq)]
pub struct Cleaned {
    /// How many records stay: the first of `out`, 24 bytes each.
    pub stay: usize,
    /// How many are removed.
    pub removed: usize,
}

/// Writes the records of a store that stay, in order: those of which no earlier record that stays is a copy, of the same format and bytes.
///
/// Refusals: 5, 6, 3.
pub fn clean_store(store: &[u8], out: &mut [u8]) -> Result<Cleaned, Refused> {
    // SAFETY: `store` is borrowed to read, `out` to write, each with its own length.
    cleaned(unsafe { c::knot_clean_store(store.as_ptr(), store.len(), out.as_mut_ptr(), out.len()) })
}

fn cleaned(word: u64) -> Result<Cleaned, Refused> {
    let [stay, removed] = [16, 32].map(|shift| usize::from((word >> shift) as u16));
    done(word).map(|_| Cleaned { stay, removed })
}

/// [`clean_store`], and a receipt of what was removed, by which [`restore_store`] undoes it: the first [`RECEIPT_ENTRY`] bytes of `receipt` for
/// each removed record, its number and that of the record that stays, 2 bytes each, and its tile, 4 bytes, low byte first.
///
/// Refusals: 5, 6, 3 (also receipt space for fewer records than the store has).
///
/// ```
/// use knotpasture::{clean_with_receipt, restore_store, Refused, RECEIPT_ENTRY};
///
/// let store = [0; 3 * 24]; // three times the same record
/// let (mut out, mut receipt, mut back) = ([9; 72], [9; 3 * RECEIPT_ENTRY], [9; 72]);
/// let cleaned = clean_with_receipt(&store, &mut out, &mut receipt)?;
/// assert_eq!((cleaned.stay, cleaned.removed), (1, 2));
/// assert_eq!(restore_store(&out[..24], &receipt[..2 * RECEIPT_ENTRY], &mut back)?, 3);
/// assert_eq!(back, store);
/// # Ok::<(), Refused>(())
/// ```
pub fn clean_with_receipt(store: &[u8], out: &mut [u8], receipt: &mut [u8]) -> Result<Cleaned, Refused> {
    let (lent, room) = (receipt.as_mut_ptr(), receipt.len());
    // SAFETY: `store` is borrowed to read, `out` and `receipt` to write, each with its own length.
    cleaned(unsafe { c::knot_clean_with_receipt(store.as_ptr(), store.len(), out.as_mut_ptr(), out.len(), lent, room) })
}

/// Writes the store as it was before [`clean_with_receipt`] wrote these two, 24 bytes a record, and answers how many records it has.
///
/// Refusals: 5, 6, 25, 3.
pub fn restore_store(cleaned: &[u8], receipt: &[u8], out: &mut [u8]) -> Result<usize, Refused> {
    let (lent, room) = (out.as_mut_ptr(), out.len());
    // SAFETY: `cleaned` and `receipt` are borrowed to read, `out` to write, each with its own length.
    let word = unsafe { c::knot_restore_store(cleaned.as_ptr(), cleaned.len(), receipt.as_ptr(), receipt.len(), lent, room) };
    done(word).map(|word| usize::from((word >> 16) as u16))
}

/// The record that stays for record n where [`clean_store`] removes that; n where it stays, and where there is no such record.
pub fn first_of(store: &[u8], n: usize) -> usize {
    // SAFETY: `store` is borrowed to read, with its own length.
    unsafe { c::knot_first_of(store.as_ptr(), store.len(), n) }
}

/// The first earlier record that record n is a twin of; n itself where it is no twin, is refused, or is not there.
pub fn first_twin(store: &[u8], n: usize) -> usize {
    // SAFETY: `store` is borrowed to read, with its own length.
    unsafe { c::knot_first_twin(store.as_ptr(), store.len(), n) }
}

/// Whether the copies theorem covers two records of a store: twins that are covered are copies of each other, byte for byte.
pub fn is_covered(store: &[u8], n: usize, earlier: usize) -> bool {
    // SAFETY: `store` is borrowed to read, with its own length.
    unsafe { c::knot_is_covered(store.as_ptr(), store.len(), n, earlier) }
}

/// Where a tile lies on a probe.
#[derive(Debug, Clone, Copy, PartialEq, Eq)]
pub struct Place {
    /// 0 to 5.
    pub face: u8,
    /// In blocks.
    pub column: u16,
    /// In blocks, row 0 on top.
    pub row: u16,
}

/// A record with a place.
#[derive(Debug, Clone, Copy, PartialEq, Eq)]
pub struct PlacedRecord {
    /// Its tile number.
    pub tile: u32,
    /// 0 or 1.
    pub format: u8,
    /// None where the record is not placed.
    pub place: Option<Place>,
}

/// Record n of a store of records with a place, 32 bytes each.
///
/// Refusals: 5, 6, 8, 1, 7, 17.
pub fn placed_record_at(store: &[u8], n: usize) -> Result<PlacedRecord, Refused> {
    let (mut column, mut row) = (0, 0);
    // SAFETY: `store` is borrowed to read, with its own length; `column` and `row` are locals.
    let word = done(unsafe { c::knot_placed_record_at(store.as_ptr(), store.len(), n, &mut column, &mut row) })?;
    let face = (word >> 16) as u8;
    let place = if face < FACES { Some(Place { face, column, row }) } else { None };
    Ok(PlacedRecord { tile: (word >> 32) as u32, format: (word >> 8) as u8, place })
}

/// The block of record n as a part of the store; None where [`placed_record_at`] refuses n.
pub fn placed_record_block(store: &[u8], n: usize) -> Option<&[u8]> {
    // SAFETY: `store` is borrowed to read, with its own length.
    block_from(store, unsafe { c::knot_placed_record_block(store.as_ptr(), store.len(), n) })
}

fn moved(word: u64) -> Result<usize, Fault> {
    done(word).map(|word| usize::from((word >> 16) as u16)).map_err(|refused| Fault::told(refused, usize::from((word >> 32) as u16)))
}

/// Moves a store of 24-byte records to one of records with a place, none of them placed; answers how many there are.
///
/// Refusals: 5, 6, 3; then the first record's that is refused, 1 or 7.
pub fn place_store(old: &[u8], out: &mut [u8]) -> Result<usize, Fault> {
    // SAFETY: `old` is borrowed to read, `out` to write, each with its own length.
    moved(unsafe { c::knot_place_store(old.as_ptr(), old.len(), out.as_mut_ptr(), out.len()) })
}

/// Moves a store of records with a place back, of which none may be placed.
///
/// Refusals: 5, 6, 3; then the first record's that is refused, 1, 7, 17 or 18.
pub fn unplace_store(store: &[u8], out: &mut [u8]) -> Result<usize, Fault> {
    // SAFETY: `store` is borrowed to read, `out` to write, each with its own length.
    moved(unsafe { c::knot_unplace_store(store.as_ptr(), store.len(), out.as_mut_ptr(), out.len()) })
}

/// The store of records with a place with that of record n set, or taken away, in the first bytes of `out`; every other byte is the store's.
/// Answers how many records there are.
///
/// Refusals: 5, 6, 3, 8; with record n, which is why, 1 or 7; 17, of the place that is given.
///
/// ```
/// use knotpasture::{place_store, placed_record_at, put_place, Fault, Place};
///
/// let (mut store, mut out) = ([0; 2 * 32], [0; 2 * 32]);
/// place_store(&[0; 2 * 24], &mut store)?;
/// let place = Some(Place { face: 2, column: 0, row: 3 });
/// assert_eq!(put_place(&store, 1, place, &mut out)?, 2);
/// assert_eq!(placed_record_at(&out, 1).unwrap().place, place);
/// # Ok::<(), Fault>(())
/// ```
pub fn put_place(store: &[u8], n: usize, place: Option<Place>, out: &mut [u8]) -> Result<usize, Fault> {
    let Place { face, column, row } = place.unwrap_or(Place { face: NO_FACE, column: 0, row: 0 });
    let (lent, room) = (out.as_mut_ptr(), out.len());
    // SAFETY: `store` is borrowed to read, `out` to write, each with its own length.
    let word = unsafe { c::knot_put_place(store.as_ptr(), store.len(), n, face, column, row, lent, room) };
    moved(word).map_err(|fault| Fault { record: fault.record.filter(|_| fault.refused != Refused::BAD_PLACE), ..fault })
}

/// Why a store does not move, or is no probe.
#[derive(Debug, Clone, Copy, PartialEq, Eq)]
pub struct Fault {
    /// The refusal.
    pub refused: Refused,
    /// The first faulty record, where a record is why.
    pub record: Option<usize>,
}

impl Fault {
    /// The refusal, with the record where it is a record's.
    fn told(refused: Refused, record: usize) -> Fault {
        Fault { refused, record: matches!(refused.0, 1 | 7 | 17 | 18 | 20 | 21 | 22).then_some(record) }
    }
}

impl fmt::Display for Fault {
    fn fmt(&self, to: &mut fmt::Formatter<'_>) -> fmt::Result {
        write!(to, "{}", self.refused)?;
        self.record.map_or(Ok(()), |record| write!(to, ": record {record}"))
    }
}

impl std::error::Error for Fault {}

/// Whether a store of records with a place is a probe of the edge: every face, column and row filled exactly once.
///
/// Refusals: 19, 5, 6; record by record 1, 7, 17, 20, 21, 22; 23.
pub fn probe_check(store: &[u8], edge: u32) -> Result<(), Fault> {
    // SAFETY: `store` is borrowed to read, with its own length.
    fault(unsafe { c::knot_probe_check(store.as_ptr(), store.len(), edge) })
}

fn fault(word: u64) -> Result<(), Fault> {
    done(word).map(|_| ()).map_err(|refused| Fault::told(refused, usize::from((word >> 16) as u16)))
}

/// Red, green and blue of a pixel of a probe. The store is checked at each call: for many pixels [`probe_open`] and [`probe_face`] are the calls.
///
/// Refusals: those of [`probe_check`], with its record, then 24.
pub fn probe_pixel(store: &[u8], edge: u32, face: u32, x: u32, y: u32) -> Result<[u16; 3], Fault> {
    let mut faulty = 0;
    // SAFETY: `store` is borrowed to read, with its own length; `faulty` is a local.
    let word = unsafe { c::knot_probe_pixel(store.as_ptr(), store.len(), edge, face, x, y, &mut faulty) };
    pixel(word).map_err(|refused| Fault::told(refused, faulty))
}

fn pixel(word: u64) -> Result<[u16; 3], Refused> {
    done(word).map(|word| [16, 32, 48].map(|shift| (word >> shift) as u16))
}

/// Opens a probe: checks the store once, and fills the first [`PROBE_TABLE`] values of `table`, by which [`probe_pixel_in`] asks for pixels.
///
/// Refusals: those of [`probe_check`], with its record, then 3.
pub fn probe_open(store: &[u8], edge: u32, table: &mut [u16]) -> Result<(), Fault> {
    // SAFETY: `store` is borrowed to read, `table` to write, each with its own length.
    fault(unsafe { c::knot_probe_open(store.as_ptr(), store.len(), edge, table.as_mut_ptr(), table.len()) })
}

/// What [`probe_pixel`] answers, by the table that [`probe_open`] of the same store and edge left: one record is looked at.
///
/// Refusals: 19, 24, 3, 23, 8, 1.
pub fn probe_pixel_in(store: &[u8], table: &[u16], edge: u32, face: u32, x: u32, y: u32) -> Result<[u16; 3], Refused> {
    // SAFETY: `store` and `table` are borrowed to read, each with its own length.
    pixel(unsafe { c::knot_probe_pixel_in(store.as_ptr(), store.len(), table.as_ptr(), table.len(), edge, face, x, y) })
}

/// A whole face of a probe becomes the first 48 edge · edge values of `out`, row by row from the top.
///
/// Refusals: those of [`probe_check`], then 24, then 3.
pub fn probe_face(store: &[u8], edge: u32, face: u32, out: &mut [u16]) -> Result<(), Refused> {
    // SAFETY: `store` is borrowed to read, `out` to write, each with its own length.
    let word = unsafe { c::knot_probe_face(store.as_ptr(), store.len(), edge, face, out.as_mut_ptr(), out.len()) };
    done(word.into()).map(|_| ())
}

/// The edge of a probe by its store's length; None where no edge has that length. [`probe_check`] says whether the store is a probe of it.
pub fn probe_edge(store: &[u8]) -> Option<u32> {
    // SAFETY: `store` is borrowed to read, with its own length.
    match unsafe { c::knot_probe_edge(store.as_ptr(), store.len()) } {
        0 => None,
        edge => Some(edge as u32),
    }
}

/// Writes a probe of the blocks of its six faces to the first 192 edge · edge bytes of `out`: face by face, row by row from the top. Record n has
/// the tile number `first_tile` + n, modulo 2^32. Answers how many records there are.
///
/// Refusals: 19, 1, 15, 3.
pub fn probe_build(blocks: &[u8], format: impl Into<u8>, edge: u32, first_tile: u32, out: &mut [u8]) -> Result<usize, Refused> {
    let (lent, room, mut records) = (out.as_mut_ptr(), out.len(), 0);
    // SAFETY: `blocks` is borrowed to read, `out` to write, each with its own length; `records` is a local.
    let word = unsafe { c::knot_probe_build(blocks.as_ptr(), blocks.len(), format.into(), edge, first_tile, lent, room, &mut records) };
    done(word.into()).map(|_| records)
}

/// The 64 bytes of a BC7 block become the first of `out`: red, green, blue and alpha of each pixel. Answers the mode, 0 to 7, or
/// [`BC7_RESERVED`], which shows 64 zeros.
///
/// Refusals: 2, 3.
pub fn bc7_pixels(block: &[u8], out: &mut [u8]) -> Result<u8, Refused> {
    // SAFETY: `block` is borrowed to read, `out` to write, each with its own length.
    let word = unsafe { c::knot_bc7_pixels(block.as_ptr(), block.len(), out.as_mut_ptr(), out.len()) };
    done(word.into()).map(|word| (word >> 8) as u8)
}

/// The bytes of a run of BC7 blocks become the first of `out`, 64 a block; answers how many blocks there are.
///
/// Refusals: 9, 3.
pub fn bc7_blocks_pixels(blocks: &[u8], out: &mut [u8]) -> Result<usize, Refused> {
    let mut count = 0;
    // SAFETY: `blocks` is borrowed to read, `out` to write, each with its own length; `count` is a local.
    let word = unsafe { c::knot_bc7_blocks_pixels(blocks.as_ptr(), blocks.len(), out.as_mut_ptr(), out.len(), &mut count) };
    done(word).map(|_| count)
}

/// Size and format of a DDS file.
#[derive(Debug, Clone, Copy, PartialEq, Eq)]
pub struct Dds {
    /// In pixels.
    pub width: u32,
    /// In pixels.
    pub height: u32,
    /// 0 or 1.
    pub format: u8,
}

fn dds(word: u64) -> Result<Dds, Refused> {
    let [width, height] = [16, 32].map(|shift| u32::from((word >> shift) as u16));
    done(word).map(|word| Dds { width, height, format: (word >> 8) as u8 })
}

/// Size and format from the first [`DDS_HEADER`] bytes of a file.
///
/// Refusals: 13, 14.
pub fn dds_head(file: &[u8]) -> Result<Dds, Refused> {
    // SAFETY: `file` is borrowed to read, with its own length.
    dds(unsafe { c::knot_dds_head(file.as_ptr(), file.len()) })
}

/// Size and format of a whole file.
///
/// Refusals: 13, 14, 15.
pub fn dds_read(file: &[u8]) -> Result<Dds, Refused> {
    // SAFETY: `file` is borrowed to read, with its own length.
    dds(unsafe { c::knot_dds_read(file.as_ptr(), file.len()) })
}

/// The blocks of a whole file as a part of it; empty where [`dds_read`] refuses.
pub fn dds_blocks(file: &[u8]) -> &[u8] {
    // SAFETY: `file` is borrowed to read, with its own length.
    blocks(file, dds_read(file), unsafe { c::knot_dds_blocks(file.as_ptr(), file.len()) })
}

/// The blocks of the largest level, from the start that a call answers.
fn blocks(file: &[u8], read: Result<Dds, Refused>, start: usize) -> &[u8] {
    read.map_or(&[], |dds| &file[start..][..BLOCK_SIZE * [dds.width, dds.height].map(|side| side.div_ceil(4) as usize).iter().product::<usize>()])
}

/// Size and format of a whole file of BC7 blocks: format 0 is DXGI's 98, 1 is 99, sRGB.
///
/// Refusals: 13, 14, 15.
pub fn bc7_dds_read(file: &[u8]) -> Result<Dds, Refused> {
    // SAFETY: `file` is borrowed to read, with its own length.
    dds(unsafe { c::knot_bc7_dds_read(file.as_ptr(), file.len()) })
}

/// The blocks of a whole file of BC7 blocks as a part of it; empty where [`bc7_dds_read`] refuses.
pub fn bc7_dds_blocks(file: &[u8]) -> &[u8] {
    // SAFETY: `file` is borrowed to read, with its own length.
    blocks(file, bc7_dds_read(file), unsafe { c::knot_bc7_dds_blocks(file.as_ptr(), file.len()) })
}

/// Size and format of a whole file with mip levels, at most [`DDS_LEVELS`]: of its largest level. It takes what [`dds_read`] takes, too.
///
/// Refusals: 13, 14, 15.
pub fn dds_first_level(file: &[u8]) -> Result<Dds, Refused> {
    // SAFETY: `file` is borrowed to read, with its own length.
    dds(unsafe { c::knot_dds_first_level(file.as_ptr(), file.len()) })
}

/// The blocks of the largest level as a part of the file; empty where [`dds_first_level`] refuses.
pub fn dds_first_blocks(file: &[u8]) -> &[u8] {
    // SAFETY: `file` is borrowed to read, with its own length.
    blocks(file, dds_first_level(file), unsafe { c::knot_dds_first_blocks(file.as_ptr(), file.len()) })
}

/// [`dds_first_level`] of BC7 blocks, with the formats of [`bc7_dds_read`].
///
/// Refusals: 13, 14, 15.
pub fn bc7_dds_first_level(file: &[u8]) -> Result<Dds, Refused> {
    // SAFETY: `file` is borrowed to read, with its own length.
    dds(unsafe { c::knot_bc7_dds_first_level(file.as_ptr(), file.len()) })
}

/// The BC7 blocks of the largest level as a part of the file; empty where [`bc7_dds_first_level`] refuses.
pub fn bc7_dds_first_blocks(file: &[u8]) -> &[u8] {
    // SAFETY: `file` is borrowed to read, with its own length.
    blocks(file, bc7_dds_first_level(file), unsafe { c::knot_bc7_dds_first_blocks(file.as_ptr(), file.len()) })
}

/// Writes a DDS file to the first bytes of `out`, and answers its length: [`DDS_HEADER`] and the blocks.
///
/// Refusals: 1, 14, 15, 3.
pub fn dds_write(blocks: &[u8], format: impl Into<u8>, width: u32, height: u32, out: &mut [u8]) -> Result<usize, Refused> {
    let (lent, room) = (out.as_mut_ptr(), out.len());
    // SAFETY: `blocks` is borrowed to read, `out` to write, each with its own length.
    done(unsafe { c::knot_dds_write(blocks.as_ptr(), blocks.len(), format.into(), width, height, lent, room) }).map(|word| (word >> 8) as usize)
}

/// Writes a picture of blocks as a Portable Float Map to the first bytes of `out`, and answers its length, [`pfm_length`].
///
/// Refusals: 1, 16, 15, 3.
pub fn pfm_write(blocks: &[u8], format: impl Into<u8>, width: u32, height: u32, out: &mut [u8]) -> Result<usize, Refused> {
    let (lent, room) = (out.as_mut_ptr(), out.len());
    // SAFETY: `blocks` is borrowed to read, `out` to write, each with its own length.
    done(unsafe { c::knot_pfm_write(blocks.as_ptr(), blocks.len(), format.into(), width, height, lent, room) }).map(|word| (word >> 8) as usize)
}

/// The length of the Portable Float Map of a picture; None for a size that is refused.
pub fn pfm_length(width: u32, height: u32) -> Option<usize> {
    // SAFETY: the call takes numbers alone, no pointer.
    Some(unsafe { c::knot_pfm_length(width, height) }).filter(|length| *length != 0)
}

/// Writes a picture of blocks as an OpenEXR file to the first bytes of `out`, and answers its length, [`exr_length`].
///
/// Refusals: 1, 16, 15, 3.
pub fn exr_write(blocks: &[u8], format: impl Into<u8>, width: u32, height: u32, out: &mut [u8]) -> Result<usize, Refused> {
    let (lent, room) = (out.as_mut_ptr(), out.len());
    // SAFETY: `blocks` is borrowed to read, `out` to write, each with its own length.
    done(unsafe { c::knot_exr_write(blocks.as_ptr(), blocks.len(), format.into(), width, height, lent, room) }).map(|word| (word >> 8) as usize)
}

/// The length of the OpenEXR file of a picture; None for a size that is refused.
pub fn exr_length(width: u32, height: u32) -> Option<usize> {
    // SAFETY: the call takes numbers alone, no pointer.
    Some(unsafe { c::knot_exr_length(width, height) }).filter(|length| *length != 0)
}
