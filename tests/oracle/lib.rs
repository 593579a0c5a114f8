//! The Rust decoder as a library. tests/build links `bcn_data.rs` and `decode/` of the Rust's `src` beside this file,
//! unchanged; the one helper that they call and that is not among them does nothing.
#![allow(dead_code)]

mod bcn_data;
mod decode {
    pub mod bcn_util;
    pub mod bc6 {
        include!("decode/bc6.rs");

        use crate::Fields;

        /// The number (S-7) of the mode that the Rust reads, and 0 for a reserved one.
        fn number_of(mode: Mode) -> u8 {
            match mode {
                Mode::Two(mode) => match mode {
                    ModeTwo::M10_555 => 1,
                    ModeTwo::M7_666 => 2,
                    ModeTwo::M11_544 => 3,
                    ModeTwo::M11_454 => 4,
                    ModeTwo::M11_445 => 5,
                    ModeTwo::M9_555 => 6,
                    ModeTwo::M8_655 => 7,
                    ModeTwo::M8_565 => 8,
                    ModeTwo::M8_556 => 9,
                    ModeTwo::M6_666 => 10,
                },
                Mode::One(mode) => match mode {
                    ModeOne::M10_10 => 11,
                    ModeOne::M11_9 => 12,
                    ModeOne::M12_8 => 13,
                    ModeOne::M16_4 => 14,
                },
                Mode::Invalid => 0,
            }
        }

        pub fn mode(block: [u8; 16]) -> u8 {
            number_of(extract_mode(&mut BitStream::new(block)))
        }

        fn store(fields: &mut Fields, endpoint: usize, color: IntColor<i32>) {
            for (channel, value) in color.rgb().into_iter().enumerate() {
                fields.endpoints[3 * endpoint + channel] = value as u16;
            }
        }

        /// The pixels of region 1, pixel k as bit k, and their fix-up pixel.
        pub fn regions(partition: u8) -> (u16, u8) {
            let map = PARTITION_SET_2[partition as usize];
            (map.subset_indexes, map.fixup_index_2)
        }

        /// What the Rust reads from a block before it computes, field by field; all zero for a reserved mode.
        pub fn fields(block: [u8; 16]) -> Fields {
            let mut stream = BitStream::new(block);
            let mode = extract_mode(&mut stream);
            let mut fields = Fields { mode: number_of(mode), ..Fields::default() };
            let indexes = match mode {
                Mode::Invalid => return fields,
                Mode::One(mode) => {
                    let pair = extract_compressed_endpoints_one(mode, &mut stream);
                    store(&mut fields, 0, pair.a);
                    store(&mut fields, 1, pair.b);
                    Indexes::new_p1(4, &mut stream)
                }
                Mode::Two(mode) => {
                    let [first, second] = extract_compressed_endpoints_two(mode, &mut stream);
                    for (endpoint, color) in [first.a, first.b, second.a, second.b].into_iter().enumerate() {
                        store(&mut fields, endpoint, color);
                    }
                    fields.partition = stream.consume_bits(5);
                    let map = PARTITION_SET_2[fields.partition as usize];
                    fields.region1 = map.count_ones();
                    Indexes::new_p2(3, &mut stream, map.fixup_index_2)
                }
            };
            for pixel in 0..16 {
                fields.indices[pixel] = indexes.get_index(pixel as u8);
            }
            fields
        }
    }
}
mod util {
    pub fn unlikely_branch() {}
}

pub use decode::bc6::{fields, mode, regions};
use decode::bc6::{decode_bc6_block, BC6HFormat};

/// A block's fields as stored: endpoint e's channel c is `endpoints[3 * e + c]`.
#[derive(Clone, Copy, Debug, Default, PartialEq, Eq)]
pub struct Fields {
    pub mode: u8,
    pub endpoints: [u16; 12],
    pub partition: u8,
    pub region1: u8,
    pub indices: [u8; 16],
}

pub fn pixels(block: [u8; 16], signed: bool) -> [[u16; 3]; 16] {
    decode_bc6_block(block, if signed { BC6HFormat::SignedF16 } else { BC6HFormat::UnsignedF16 })
}
