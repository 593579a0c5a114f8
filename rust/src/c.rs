//! The calls as `knotpasture.h` declares them.

extern "C" {
    pub fn knot_block_pixels(block: *const u8, block_length: usize, format: u8, out: *mut u16, out_length: usize) -> u32;
    pub fn knot_blocks_pixels(
        blocks: *const u8,
        blocks_length: usize,
        format: u8,
        out: *mut u16,
        out_length: usize,
        done: *mut usize,
        infinite: *mut usize,
    ) -> u32;
    pub fn knot_block_fields(block: *const u8, block_length: usize, format: u8, numbers: *mut u16, numbers_length: usize) -> u32;
    pub fn knot_write_block(numbers: *const u16, numbers_length: usize, out: *mut u8, out_length: usize) -> u32;
    pub fn knot_fields_pixels(numbers: *const u16, numbers_length: usize, out: *mut u16, out_length: usize) -> u32;
    pub fn knot_is_trusted(block: *const u8, block_length: usize, format: u8) -> bool;

    pub fn knot_face_pixels(
        blocks: *const u8,
        blocks_length: usize,
        width: usize,
        height: usize,
        format: u8,
        out: *mut u16,
        out_length: usize,
        pitch: usize,
        infinite: *mut usize,
    ) -> u32;
    pub fn knot_face_rgba(
        blocks: *const u8,
        blocks_length: usize,
        width: usize,
        height: usize,
        format: u8,
        out: *mut u16,
        out_length: usize,
        pitch: usize,
        infinite: *mut usize,
    ) -> u32;

    pub fn knot_record_at(store: *const u8, store_length: usize, n: usize) -> u64;
    pub fn knot_record_block(store: *const u8, store_length: usize, n: usize) -> usize;
    pub fn knot_tile_at(store: *const u8, store_length: usize, n: usize) -> u32;
    pub fn knot_twin_list(store: *const u8, store_length: usize, marks: *mut u8, marks_length: usize) -> u64;
    pub fn knot_twin_list_in(
        store: *const u8,
        store_length: usize,
        marks: *mut u8,
        marks_length: usize,
        scratch: *mut u16,
        scratch_length: usize,
    ) -> u64;
    pub fn knot_strict_twin_list(store: *const u8, store_length: usize, marks: *mut u8, marks_length: usize) -> u64;
    pub fn knot_first_damaged(store: *const u8, store_length: usize) -> usize;
    pub fn knot_clean_store(store: *const u8, store_length: usize, out: *mut u8, out_length: usize) -> u64;
    pub fn knot_clean_with_receipt(
        store: *const u8,
        store_length: usize,
        out: *mut u8,
        out_length: usize,
        receipt: *mut u8,
        receipt_length: usize,
    ) -> u64;
    pub fn knot_restore_store(
        cleaned: *const u8,
        cleaned_length: usize,
        receipt: *const u8,
        receipt_length: usize,
        out: *mut u8,
        out_length: usize,
    ) -> u64;
    pub fn knot_first_of(store: *const u8, store_length: usize, n: usize) -> usize;
    pub fn knot_first_twin(store: *const u8, store_length: usize, n: usize) -> usize;
    pub fn knot_is_covered(store: *const u8, store_length: usize, n: usize, earlier: usize) -> bool;

    pub fn knot_placed_record_at(store: *const u8, store_length: usize, n: usize, column: *mut u16, row: *mut u16) -> u64;
    pub fn knot_placed_record_block(store: *const u8, store_length: usize, n: usize) -> usize;
    pub fn knot_place_store(old: *const u8, old_length: usize, out: *mut u8, out_length: usize) -> u64;
    pub fn knot_unplace_store(store: *const u8, store_length: usize, out: *mut u8, out_length: usize) -> u64;
    pub fn knot_put_place(store: *const u8, store_length: usize, n: usize, face: u8, column: u16, row: u16, out: *mut u8, out_length: usize) -> u64;
    pub fn knot_probe_pixel(store: *const u8, store_length: usize, edge: u32, face: u32, x: u32, y: u32, faulty: *mut usize) -> u64;
    pub fn knot_probe_check(store: *const u8, store_length: usize, edge: u32) -> u64;
    pub fn knot_probe_face(store: *const u8, store_length: usize, edge: u32, face: u32, out: *mut u16, out_length: usize) -> u32;
    pub fn knot_probe_open(store: *const u8, store_length: usize, edge: u32, table: *mut u16, table_length: usize) -> u64;
    pub fn knot_probe_pixel_in(
        store: *const u8,
        store_length: usize,
        table: *const u16,
        table_length: usize,
        edge: u32,
        face: u32,
        x: u32,
        y: u32,
    ) -> u64;
    pub fn knot_probe_edge(store: *const u8, store_length: usize) -> usize;
    pub fn knot_probe_build(
        blocks: *const u8,
        blocks_length: usize,
        format: u8,
        edge: u32,
        first_tile: u32,
        out: *mut u8,
        out_length: usize,
        records: *mut usize,
    ) -> u32;

    pub fn knot_bc7_pixels(block: *const u8, block_length: usize, out: *mut u8, out_length: usize) -> u32;
    pub fn knot_bc7_blocks_pixels(blocks: *const u8, blocks_length: usize, out: *mut u8, out_length: usize, done: *mut usize) -> u64;

    pub fn knot_dds_head(file: *const u8, file_length: usize) -> u64;
    pub fn knot_dds_read(file: *const u8, file_length: usize) -> u64;
    pub fn knot_dds_blocks(file: *const u8, file_length: usize) -> usize;
    pub fn knot_bc7_dds_read(file: *const u8, file_length: usize) -> u64;
    pub fn knot_bc7_dds_blocks(file: *const u8, file_length: usize) -> usize;
    pub fn knot_dds_first_level(file: *const u8, file_length: usize) -> u64;
    pub fn knot_dds_first_blocks(file: *const u8, file_length: usize) -> usize;
    pub fn knot_bc7_dds_first_level(file: *const u8, file_length: usize) -> u64;
    pub fn knot_bc7_dds_first_blocks(file: *const u8, file_length: usize) -> usize;
    pub fn knot_dds_write(blocks: *const u8, blocks_length: usize, format: u8, width: u32, height: u32, out: *mut u8, out_length: usize) -> u64;
    pub fn knot_pfm_write(blocks: *const u8, blocks_length: usize, format: u8, width: u32, height: u32, out: *mut u8, out_length: usize) -> u64;
    pub fn knot_pfm_length(width: u32, height: u32) -> usize;
    pub fn knot_exr_write(blocks: *const u8, blocks_length: usize, format: u8, width: u32, height: u32, out: *mut u8, out_length: usize) -> u64;
    pub fn knot_exr_length(width: u32, height: u32) -> usize;
}
