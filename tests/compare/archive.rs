//! Our side as other programs call it: the archive's C functions. Every value, mode, count, field and refusal, both sides of the limits of blocks and
//! outputs. Holds S-1, S-26, S-30 to S-32, S-35 to S-38, S-80.
use crate::blocks::CODES;
use crate::{field_numbers, for_each_class, Extent, Tally};

extern "C" {
    fn knot_block_pixels(block: *const u8, block_length: usize, format: u8, out: *mut u16, out_length: usize) -> u32;
    fn knot_blocks_pixels(blocks: *const u8, blocks_length: usize, format: u8, out: *mut u16, out_length: usize, done: *mut usize, infinite: *mut usize) -> u32;
    fn knot_block_fields(block: *const u8, block_length: usize, format: u8, numbers: *mut u16, room: usize) -> u32;
    fn knot_write_block(numbers: *const u16, count: usize, out: *mut u8, room: usize) -> u32;
    fn knot_fields_pixels(numbers: *const u16, count: usize, out: *mut u16, out_length: usize) -> u32;
}

/// What stands in lent values before a call, to see which are written.
const UNTOUCHED: u16 = 0xA55A;

/// How many values stand on both sides of a lent room of any size, to see what is written beside it.
const BESIDE: usize = 64;

fn pixels(block: &[u8], format: u8, out: &mut [u16]) -> u32 {
    unsafe { knot_block_pixels(block.as_ptr(), block.len(), format, out.as_mut_ptr(), out.len()) }
}

/// The number that the call over a run answers, how many blocks it paints, and how many values are minus infinity.
fn run_pixels(blocks: &[u8], format: u8, out: &mut [u16]) -> (u32, usize, usize) {
    let (mut done, mut infinite) = (usize::MAX, usize::MAX);
    let (lent, room) = (out.as_mut_ptr(), out.len());
    let answer = unsafe { knot_blocks_pixels(blocks.as_ptr(), blocks.len(), format, lent, room, &mut done, &mut infinite) };
    (answer, done, infinite)
}

fn infinities(values: &[u16]) -> usize {
    values.iter().filter(|&&value| value == 0xFC00).count()
}

fn fields(block: &[u8], format: u8, numbers: &mut [u16]) -> u32 {
    unsafe { knot_block_fields(block.as_ptr(), block.len(), format, numbers.as_mut_ptr(), numbers.len()) }
}

fn compare_pixels(block: [u8; 16], format: u8, tally: &mut Tally) {
    let mut out = [UNTOUCHED; 50];
    let answer = pixels(&block, format, &mut out);
    let expected = oracle::pixels(block, format == 1);
    tally.compared += 1;
    if answer != u32::from(oracle::mode(block)) << 8 | (infinities(expected.as_flattened()) as u32) << 16 {
        tally.differs("mode, or count of minus infinities", format, &block);
    } else if out[..48] != *expected.as_flattened() {
        tally.differs("values", format, &block);
    } else if out[48..] != [UNTOUCHED; 2] {
        tally.differs("values past 48", format, &block);
    }
}

/// A run of blocks, with room for three values more.
fn compare_run(blocks: &[[u8; 16]], format: u8, tally: &mut Tally) {
    let mut out = vec![UNTOUCHED; 48 * blocks.len() + 3];
    let answer = run_pixels(blocks.as_flattened(), format, &mut out);
    tally.compared += 1;
    let mut expected: Vec<u16> = blocks.iter().flat_map(|&block| oracle::pixels(block, format == 1)).flatten().collect();
    let answered = (0, blocks.len(), infinities(&expected));
    expected.extend([UNTOUCHED; 3]);
    if answer != answered || out != expected {
        tally.differs("a run of blocks", format, blocks.as_flattened());
    }
}

fn compare_fields(block: [u8; 16], format: u8, tally: &mut Tally) {
    let mut numbers = [UNTOUCHED; 33];
    let answer = fields(&block, format, &mut numbers);
    let (number, expected) = field_numbers(block, format);
    tally.compared += 1;
    let written = if number == 0 { expected } else { [UNTOUCHED; 32] };
    if answer != u32::from(number) | u32::from(expected[1]) << 8 || numbers[..32] != written || numbers[32] != UNTOUCHED {
        tally.differs("fields", format, &block);
    }
}

/// The fields of a block, written: the block again, and where it has none a refusal that writes nothing.
fn compare_written(block: [u8; 16], format: u8, tally: &mut Tally) {
    let (mut numbers, mut again) = ([0; 32], [0xA5; 16]);
    let refused = fields(&block, format, &mut numbers) & 0xFF != 0;
    let answer = unsafe { knot_write_block(numbers.as_ptr(), 32, again.as_mut_ptr(), 16) };
    tally.compared += 1;
    if (answer, again) != if refused { (10, [0xA5; 16]) } else { (0, block) } {
        tally.differs("fields written", format, &block);
    }
}

/// The fields of a block, shown: what the block shows, and where it has none a refusal that writes nothing.
fn compare_shown(block: [u8; 16], format: u8, tally: &mut Tally) {
    let (mut numbers, mut out) = ([0; 32], [UNTOUCHED; 50]);
    let refused = fields(&block, format, &mut numbers) & 0xFF != 0;
    let answer = unsafe { knot_fields_pixels(numbers.as_ptr(), 32, out.as_mut_ptr(), 50) };
    let mut expected = [UNTOUCHED; 50];
    if !refused {
        expected[..48].copy_from_slice(oracle::pixels(block, format == 1).as_flattened());
    }
    tally.compared += 1;
    if (answer, out) != (if refused { 10 } else { 0 }, expected) {
        tally.differs("fields shown", format, &block);
    }
}

fn touched_beside(out: &[u16], written: std::ops::Range<usize>) -> bool {
    out.iter().enumerate().any(|(k, &value)| value != UNTOUCHED && !written.contains(&k))
}

/// Every length of block from 0 to 40 and of output from 0 to 100, every format: the number of S-30's table, first met
/// wins, and on a refusal no value changed.
fn compare_refusals(tally: &mut Tally) {
    let bytes: Vec<u8> = (0..40).map(|k| 37 * k + 11).collect();
    for format in 0..=255 {
        for length in 0..=40 {
            for room in (0..=100).filter(|room| length == 16 || room % 47 < 3) {
                let block = &bytes[..length];
                let mut out = vec![UNTOUCHED; room + 2 * BESIDE];
                let answer = pixels(block, format, &mut out[BESIDE..BESIDE + room]);
                let refusal = match (format, length, room) {
                    (2.., _, _) => 1,
                    _ if length != 16 => 2,
                    (_, _, ..48) => 3,
                    _ => 0,
                };
                tally.compared += 1;
                let written = BESIDE..BESIDE + if refusal == 0 { 48 } else { 0 };
                if answer & 0xFF != refusal || refusal != 0 && answer != refusal || touched_beside(&out, written) {
                    tally.differs(&format!("refusal {refusal} of {room} values"), format, block);
                }
            }
        }
    }
}

/// The same for runs of up to 67 bytes, with every room about the 48 values of each block.
fn compare_run_refusals(tally: &mut Tally) {
    let bytes: Vec<u8> = (0..67).map(|k| 29 * k + 3).collect();
    for format in 0..=255 {
        for length in 0..=67 {
            for room in (0..=193).filter(|room| (room + 1) % 48 < 3) {
                let mut out = vec![UNTOUCHED; room + 2 * BESIDE];
                let answer = run_pixels(&bytes[..length], format, &mut out[BESIDE..BESIDE + room]);
                let refusal = match (format, length % 16) {
                    (2.., _) => 1,
                    (_, 1..) => 9,
                    _ if room < 3 * length => 3,
                    _ => 0,
                };
                tally.compared += 1;
                let blocks = if refusal == 0 { length / 16 } else { 0 };
                let written = BESIDE..BESIDE + 48 * blocks;
                if answer != (refusal, blocks, infinities(&out)) || touched_beside(&out, written) {
                    tally.differs(&format!("refusal {refusal} of a run, {room} values"), format, &bytes[..length]);
                }
            }
        }
    }
}

/// Of the field call every format, length and room about 32 numbers, for a block with fields and for one without: 1, 2, 4, 3.
fn compare_field_refusals(tally: &mut Tally) {
    for first in [0x0B, 0x13] {
        let bytes: Vec<u8> = (0..40).map(|k| if k == 0 { first } else { 37 * k + 11 }).collect();
        for (format, length) in (0..=255).flat_map(|format| (0..=40).map(move |length| (format, length))) {
            for room in [0, 1, 31, 32, 33] {
                let mut numbers = vec![UNTOUCHED; room + 2 * BESIDE];
                let answer = fields(&bytes[..length], format, &mut numbers[BESIDE..BESIDE + room]);
                let refusal = match (format, length, first, room) {
                    (2.., _, _, _) => 1,
                    _ if length != 16 => 2,
                    (_, _, 0x13, _) => 4,
                    (_, _, _, ..32) => 3,
                    _ => 0,
                };
                tally.compared += 1;
                let written = BESIDE..BESIDE + if refusal == 0 { 32 } else { 0 };
                if answer & 0xFF != refusal || refusal != 0 && answer != refusal || touched_beside(&numbers, written) {
                    tally.differs(&format!("refusal {refusal} of {room} numbers"), format, &bytes[..length]);
                }
            }
        }
    }
}

/// A record that is written and shown, with rooms about sixteen bytes and 48 values: a refusal, or the block and what it shows.
fn compare_record(numbers: &[u16], refusal: u32, block: [u8; 16], format: u8, tally: &mut Tally) {
    for room in [0, 1, 15, 16, 17, 47, 48, 49] {
        let (mut bytes, mut values) = (vec![0xA5; room + 2 * BESIDE], vec![UNTOUCHED; room + 2 * BESIDE]);
        let (mut block_there, mut values_there) = (bytes.clone(), values.clone());
        let answers = unsafe {
            let written = knot_write_block(numbers.as_ptr(), numbers.len(), bytes[BESIDE..].as_mut_ptr(), room);
            (written, knot_fields_pixels(numbers.as_ptr(), numbers.len(), values[BESIDE..].as_mut_ptr(), room))
        };
        let expected = match (refusal, room) {
            (1.., _) => (refusal, refusal),
            (_, 16) => (0, 3),
            (_, 48..) => (11, 0),
            _ => (11, 3),
        };
        if expected.0 == 0 {
            block_there[BESIDE..BESIDE + 16].copy_from_slice(&block);
        }
        if expected.1 == 0 {
            values_there[BESIDE..BESIDE + 48].copy_from_slice(oracle::pixels(block, format == 1).as_flattened());
        }
        tally.compared += 2;
        if answers.0 != expected.0 || bytes != block_there {
            tally.differs(&format!("a record written into {room} bytes"), format, &block);
        }
        if answers.1 != expected.1 || values != values_there {
            tally.differs(&format!("a record shown in {room} values"), format, &block);
        }
    }
}

/// Of the writer and of what a record shows: the largest record of each mode as it is, with another count of numbers, in no format, in no mode,
/// and with each other number one higher, which none may be.
fn compare_record_refusals(tally: &mut Tally) {
    for (&(_, code, bits), format) in CODES.iter().filter(|code| code.0 != 0).flat_map(|code| [(code, 0), (code, 1)]) {
        let block = (u128::from(code) | u128::MAX << bits).to_le_bytes();
        let (_, numbers) = field_numbers(block, format);
        compare_record(&numbers, 0, block, format, tally);
        for count in [0, 1, 31, 33] {
            let other: Vec<u16> = numbers.iter().copied().chain([0]).take(count).collect();
            compare_record(&other, 10, block, format, tally);
        }
        for (place, number, refusal) in [(0, 2, 1), (0, 255, 1), (0, 256, 1), (1, 0, 10), (1, 15, 10), (1, 256, 10)] {
            let mut other = numbers;
            other[place] = number;
            compare_record(&other, refusal, block, format, tally);
        }
        for place in (2..32).filter(|&place| numbers[place] != u16::MAX) {
            let mut other = numbers;
            other[place] += 1;
            compare_record(&other, 10, block, format, tally);
        }
    }
}

pub fn compare(extent: &Extent, tally: &mut Tally) {
    println!("seed {}, {} random blocks a code and format, one in {} of the endpoint pairs", extent.seed, extent.random, extent.pair_step);
    compare_refusals(tally);
    compare_run_refusals(tally);
    compare_field_refusals(tally);
    compare_record_refusals(tally);
    println!("lengths, formats and rooms: {}", tally.compared);
    let mut runs = 0;
    for_each_class(extent, |name, walk| {
        let before = (tally.compared, runs);
        let mut run = Vec::new();
        walk(&mut |block| {
            compare_pixels(block, 0, tally);
            compare_pixels(block, 1, tally);
            compare_fields(block, block[15] % 2, tally);
            compare_written(block, block[15] % 2, tally);
            compare_shown(block, (u128::from_le_bytes(block).count_ones() % 2) as u8, tally);
            run.push(block);
            if run.len() > runs % 100 {
                compare_run(&run, (runs % 2) as u8, tally);
                run.clear();
                runs += 1;
            }
        });
        let runs = runs - before.1;
        let blocks = (tally.compared - before.0 - runs as u64) / 5;
        println!("{name}: {blocks} blocks, as unsigned, as signed, by fields, written back, shown from fields, and in {runs} runs");
    });
}
