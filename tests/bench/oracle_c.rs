//! The Rust decoder as a call for C over a run of blocks, to be timed beside others (tests/bench/decoders).
#[no_mangle]
pub extern "C" fn rust_blocks(blocks: *const [u8; 16], count: usize, signed: bool, out: *mut [u16; 48]) {
    // SAFETY: tests/bench/decoders.cpp lends `count` blocks, and room for 48 values a block.
    let (blocks, out) = unsafe { (std::slice::from_raw_parts(blocks, count), std::slice::from_raw_parts_mut(out, count)) };
    for (block, values) in blocks.iter().zip(out) {
        values.copy_from_slice(oracle::pixels(*block, signed).as_flattened());
    }
}
