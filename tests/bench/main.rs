//! Blocks per second, ours and the Rust's in one run, both built for release: for each format and group of modes, over 4,096
//! blocks that stay in cache and over 64 MiB of blocks; the call over a run of blocks against a call for each; a block written
//! from its fields, its fields read, and its fields shown, each against decoding it; and the twin list's two worst stores against
//! decoding their blocks.
//!
//!     bench                  the table
//!     bench fields|runs      the part of it on fields, or on runs of blocks
//!     bench ours|rust        decodes 100,000 mixed blocks with one side, in `counted`, for a count of instructions
#[allow(dead_code)]
#[path = "../compare/blocks.rs"]
mod blocks;

use blocks::{Mode, Random};
use std::hint::black_box;

#[repr(C)]
struct Time {
    seconds: i64,
    nanoseconds: i64,
}

extern "C" {
    fn clock_gettime(clock: i32, time: *mut Time) -> i32;
    fn knot_block_pixels(block: *const u8, block_length: usize, format: u8, out: *mut u16, out_length: usize) -> u32;
    fn knot_blocks_pixels(blocks: *const u8, blocks_length: usize, format: u8, out: *mut u16, out_length: usize, done: *mut usize, infinite: *mut usize) -> u32;
    fn knot_block_fields(block: *const u8, block_length: usize, format: u8, numbers: *mut u16, room: usize) -> u32;
    fn knot_write_block(numbers: *const u16, count: usize, out: *mut u8, room: usize) -> u32;
    fn knot_fields_pixels(numbers: *const u16, count: usize, out: *mut u16, room: usize) -> u32;
    fn knot_twin_list(store: *const u8, store_length: usize, marks: *mut u8, marks_length: usize) -> u64;
}

fn ours(block: &[u8; 16], format: u8, out: &mut [u16; 48]) {
    unsafe { knot_block_pixels(block.as_ptr(), 16, format, out.as_mut_ptr(), 48) };
}

fn rust(block: &[u8; 16], format: u8, out: &mut [u16; 48]) {
    out.copy_from_slice(oracle::pixels(*block, format == 1).as_flattened());
}

/// Random blocks whose modes come in a random order.
fn blocks_of(modes: &[&Mode], count: usize) -> Vec<[u8; 16]> {
    let mut random = Random(7);
    let mut blocks = Vec::with_capacity(count);
    while blocks.len() < count {
        let mode = modes[random.next() as usize % modes.len()];
        mode.random(1, random.next() >> 8, &mut |block| blocks.push(block));
    }
    blocks
}

/// The processor time of this thread, in seconds: what else the machine does counts little.
fn now() -> f64 {
    const CLOCK_THREAD_CPUTIME_ID: i32 = 3;
    let mut time = Time { seconds: 0, nanoseconds: 0 };
    unsafe { clock_gettime(CLOCK_THREAD_CPUTIME_ID, &mut time) };
    time.seconds as f64 + time.nanoseconds as f64 * 1e-9
}

fn seconds(run: &mut dyn FnMut()) -> f64 {
    let start = now();
    run();
    now() - start
}

/// The best times of two runs that take turns.
fn best(mut a: impl FnMut(), mut b: impl FnMut()) -> (f64, f64) {
    (0..11).fold((f64::INFINITY, f64::INFINITY), |(x, y), _| (x.min(seconds(&mut a)), y.min(seconds(&mut b))))
}

/// Decodes at least half a million blocks.
fn decode_all(blocks: &[[u8; 16]], rounds: usize, format: u8, decode: impl Fn(&[u8; 16], u8, &mut [u16; 48])) {
    let mut out = [0; 48];
    for _ in 0..rounds {
        for block in blocks {
            decode(black_box(block), black_box(format), &mut out);
            black_box(&out);
        }
    }
}

/// Blocks per second, ours and the Rust's.
fn rates(blocks: &[[u8; 16]], format: u8) -> (f64, f64) {
    let rounds = (500_000 / blocks.len()).max(1);
    let (a, b) = best(|| decode_all(blocks, rounds, format, ours), || decode_all(blocks, rounds, format, rust));
    let count = (rounds * blocks.len()) as f64;
    (count / a, count / b)
}

fn table() {
    let modes = Mode::all();
    let groups: [(&str, Vec<&Mode>); 3] = [
        ("mixed", modes.iter().filter(|mode| !mode.reserved()).collect()),
        ("two-region", modes.iter().filter(|mode| mode.two_regions()).collect()),
        ("one-region", modes.iter().filter(|mode| !mode.two_regions() && !mode.reserved()).collect()),
    ];
    println!("{:12} {:11} {:9} {:>14} {:>14} {:>6}", "blocks", "modes", "format", "ours/s", "Rust/s", "ratio");
    for (size, count) in [("4,096", 4096), ("64 MiB", 4 << 20)] {
        for (group, modes) in &groups {
            let blocks = blocks_of(modes, count);
            for (format, name) in ["unsigned", "signed"].into_iter().enumerate() {
                let (a, b) = rates(&blocks, format as u8);
                println!("{size:12} {group:11} {name:9} {:>14.0} {:>14.0} {:>6.2}", a, b, a / b);
            }
        }
    }
    runs(&groups[0].1);
    for (group, modes) in &groups {
        writing(group, modes);
        fields(group, modes);
    }
    twins(&groups[0].1);
}

/// Nanoseconds a block of mixed modes: the same million blocks in runs of one size, a call a run, and a call for each block, both into one run
/// of values.
fn runs(modes: &[&Mode]) {
    println!("{:12} {:9} {:>16} {:>16} {:>6}", "runs of", "format", "a call a run, ns", "a call each, ns", "ratio");
    let blocks = blocks_of(modes, 1_048_576);
    let (mut at_once, mut in_turn) = (vec![0u16; 48 * blocks.len()], vec![0u16; 48 * blocks.len()]);
    for count in [1, 64, 4096, blocks.len()] {
        for (format, name) in [(0, "unsigned"), (1, "signed")] {
            let run = || {
                for (part, values) in black_box(&blocks).chunks(count).zip(at_once.chunks_mut(48 * count)) {
                    let (bytes, mut done, mut infinite) = (part.as_flattened(), 0, 0);
                    unsafe { knot_blocks_pixels(bytes.as_ptr(), bytes.len(), black_box(format), values.as_mut_ptr(), values.len(), &mut done, &mut infinite) };
                    assert_eq!(black_box(done), count);
                }
            };
            let turns = || {
                for (block, values) in black_box(&blocks).iter().zip(in_turn.chunks_exact_mut(48)) {
                    unsafe { knot_block_pixels(block.as_ptr(), 16, black_box(format), values.as_mut_ptr(), 48) };
                }
                black_box(&in_turn);
            };
            let (whole, each) = best(run, turns);
            let cost = |seconds: f64| seconds * 1e9 / blocks.len() as f64;
            println!("{count:<12} {name:9} {:>16.1} {:>16.1} {:>6.2}", cost(whole), cost(each), each / whole);
        }
    }
}

/// Nanoseconds a block: written from its fields, and decoded.
fn writing(group: &str, modes: &[&Mode]) {
    let blocks = blocks_of(modes, 4096);
    let mut records = vec![[0u16; 32]; blocks.len()];
    for (block, numbers) in blocks.iter().zip(&mut records) {
        unsafe { knot_block_fields(block.as_ptr(), 16, 0, numbers.as_mut_ptr(), 32) };
    }
    let mut written = vec![[0u8; 16]; blocks.len()];
    let mut write_all = || {
        for (numbers, block) in black_box(&records).iter().zip(&mut written) {
            unsafe { knot_write_block(numbers.as_ptr(), 32, block.as_mut_ptr(), 16) };
        }
    };
    let (write, decode) = best(&mut write_all, || decode_all(&blocks, 1, 0, ours));
    assert!(written == blocks);
    let cost = |seconds: f64| seconds * 1e9 / blocks.len() as f64;
    println!("writing, {group}: {:.1} ns a block; decoding {:.1} ns; {:.1} times", cost(write), cost(decode), write / decode);
}

/// Nanoseconds a block: its fields read, the fields shown, and the block decoded.
fn fields(group: &str, modes: &[&Mode]) {
    let blocks = blocks_of(modes, 4096);
    let mut records = vec![[0u16; 32]; blocks.len()];
    let mut read_all = || {
        for (block, numbers) in black_box(&blocks).iter().zip(&mut records) {
            unsafe { knot_block_fields(block.as_ptr(), 16, 0, numbers.as_mut_ptr(), 32) };
        }
    };
    let (read, decode) = best(&mut read_all, || decode_all(&blocks, 1, 0, ours));
    let mut out = [0; 48];
    let mut show_all = || {
        for numbers in black_box(&records) {
            unsafe { knot_fields_pixels(numbers.as_ptr(), 32, out.as_mut_ptr(), 48) };
            black_box(&out);
        }
    };
    let (show, again) = best(&mut show_all, || decode_all(&blocks, 1, 0, ours));
    let cost = |seconds: f64| seconds * 1e9 / blocks.len() as f64;
    println!("fields, {group}: read in {:.1} ns, {:.1} times a decode; shown in {:.1} ns, {:.1} times", cost(read), read / decode, cost(show), show / again);
}

fn record(block: [u8; 16]) -> [u8; 24] {
    let mut record = [0; 24];
    record[8..].copy_from_slice(&block);
    record
}

fn twins(modes: &[&Mode]) {
    let different = blocks_of(modes, 2000);
    let equal = vec![different[0]; 2000];
    for (name, blocks) in [("2,000 different records", different), ("2,000 equal records", equal)] {
        let store: Vec<u8> = blocks.iter().flat_map(|&block| record(block)).collect();
        let mut marks = [0; 2000];
        let mut counts = 0;
        let mut marked = || counts = unsafe { knot_twin_list(store.as_ptr(), store.len(), marks.as_mut_ptr(), 2000) };
        let (list, decode) = best(&mut marked, || decode_all(&blocks, 1, 0, ours));
        println!(
            "twin list, {name} (kept {}): {:.3} ms; decoding them once {:.3} ms; {:.1} times",
            counts >> 16 & 0xFFFF,
            list * 1e3,
            decode * 1e3,
            list / decode
        );
    }
}

/// What is counted: one side alone, over mixed blocks of both formats.
#[inline(never)]
#[no_mangle]
fn counted(blocks: &[[u8; 16]], decode: fn(&[u8; 16], u8, &mut [u16; 48])) {
    decode_all(blocks, 50, 0, decode);
    decode_all(blocks, 50, 1, decode);
}

fn count(decode: fn(&[u8; 16], u8, &mut [u16; 48])) {
    let modes = Mode::all();
    let live: Vec<&Mode> = modes.iter().filter(|mode| !mode.reserved()).collect();
    counted(&blocks_of(&live, 1000), decode);
}

fn main() {
    match std::env::args().nth(1).as_deref() {
        None => table(),
        Some(part @ ("fields" | "runs")) => {
            let modes = Mode::all();
            let mixed: Vec<_> = modes.iter().filter(|mode| !mode.reserved()).collect();
            if part == "runs" { runs(&mixed) } else { fields("mixed", &mixed) }
        }
        Some("ours") => count(ours),
        Some("rust") => count(rust),
        Some(word) => eprintln!("bench takes fields, runs, ours, rust or nothing, and not {word}"),
    }
}
