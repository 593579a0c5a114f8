//! Blocks to decode, class by class, each handed to `visit`. All but the random ones are the same in every run.
use oracle::{fields, regions};

/// B1 to B11. Holds S-28.
pub const NAMED: [[u8; 16]; 11] = [
    [0; 16],
    [0x13, 0, 0, 0, 0, 0, 0, 0, 0, 0, 0, 0, 0, 0, 0, 0],
    [0x03, 0, 0, 0, 0xF8, 0x1F, 0, 0, 0, 0, 0, 0, 0, 0, 0, 0xF0],
    [0x07, 0, 0, 0, 0xF8, 0x0F, 0, 0, 0, 0, 0, 0, 0, 0, 0, 0xF0],
    [0x0B, 0, 0, 0, 0, 0x08, 0, 0, 0, 0, 0, 0, 0, 0, 0, 0],
    [0x0F, 0, 0, 0, 0x80, 0, 0, 0, 0, 0, 0, 0, 0, 0, 0, 0],
    [0x2F, 0, 0, 0, 0x80, 0, 0, 0, 0, 0, 0, 0, 0, 0, 0, 0],
    [0xEF, 0x7F, 0, 0, 0x80, 0x1F, 0, 0, 0, 0, 0, 0, 0, 0, 0, 0],
    [0x1E, 0, 0, 0, 0, 0, 0, 0, 0x7E, 0xA0, 0x01, 0, 0, 0, 0, 0],
    [0x03, 0, 0, 0, 0xF8, 0x1F, 0, 0, 0x10, 0, 0, 0, 0, 0, 0, 0xF0],
    [0x03, 0, 0, 0, 0xF8, 0x1F, 0, 0, 0x0E, 0, 0, 0, 0, 0, 0, 0],
];

/// Mode number, code and the code's bits; the last four are reserved.
pub const CODES: [(u8, u8, u32); 18] = [
    (1, 0b00, 2),
    (2, 0b01, 2),
    (3, 0b00010, 5),
    (4, 0b00110, 5),
    (5, 0b01010, 5),
    (6, 0b01110, 5),
    (7, 0b10010, 5),
    (8, 0b10110, 5),
    (9, 0b11010, 5),
    (10, 0b11110, 5),
    (11, 0b00011, 5),
    (12, 0b00111, 5),
    (13, 0b01011, 5),
    (14, 0b01111, 5),
    (0, 0b10011, 5),
    (0, 0b10111, 5),
    (0, 0b11011, 5),
    (0, 0b11111, 5),
];

/// A seeded run of numbers (splitmix64).
pub struct Random(pub u64);

impl Random {
    pub fn next(&mut self) -> u64 {
        self.0 = self.0.wrapping_add(0x9E37_79B9_7F4A_7C15);
        let x = (self.0 ^ (self.0 >> 30)).wrapping_mul(0xBF58_476D_1CE4_E5B9);
        let x = (x ^ (x >> 27)).wrapping_mul(0x94D0_49BB_1331_11EB);
        x ^ (x >> 31)
    }

    pub fn bits(&mut self) -> u128 {
        u128::from(self.next()) << 64 | u128::from(self.next())
    }
}

/// A code and what stands above it. `spread[place][value]` has the block bits that store `value` at one of the twelve
/// endpoint places. They are found by asking the oracle for the fields of blocks with a single bit set.
pub struct Mode {
    pub number: u8,
    pub code: u8,
    code_bits: u32,
    spread: Vec<Vec<u128>>,
}

impl Mode {
    pub fn all() -> Vec<Mode> {
        CODES.iter().map(|&(number, code, bits)| Mode::new(number, code, bits)).collect()
    }

    fn new(number: u8, code: u8, code_bits: u32) -> Mode {
        let mut spread = vec![vec![0]; 12];
        for (place, table) in spread.iter_mut().enumerate() {
            for value_bit in 0..16 {
                let feeds = |bit: &u32| {
                    let block = u128::from(code) | 1 << bit;
                    fields(block.to_le_bytes()).endpoints[place] == 1 << value_bit
                };
                if let Some(bit) = (code_bits..82).find(feeds) {
                    table.extend(table.clone().iter().map(|bits| bits | 1 << bit));
                }
            }
        }
        Mode { number, code, code_bits, spread }
    }

    pub fn two_regions(&self) -> bool {
        (1..=10).contains(&self.number)
    }

    pub fn reserved(&self) -> bool {
        self.number == 0
    }

    /// The code with the given bits above it.
    fn over_code(&self, bits: u128) -> [u8; 16] {
        (bits >> self.code_bits << self.code_bits | u128::from(self.code)).to_le_bytes()
    }

    fn first_index_bit(&self) -> u32 {
        if self.two_regions() { 82 } else { 65 }
    }

    fn width(&self, place: usize) -> u32 {
        self.spread[place].len().trailing_zeros()
    }

    /// The block bits of a value at a place, which keeps as many of its low bits as it has.
    fn stored(&self, place: usize, value: usize) -> u128 {
        self.spread[place][value & (self.spread[place].len() - 1)]
    }

    /// Partition and index bits with which each region shows as many indices as it has pixels for.
    fn every_index(&self, partition: u8) -> u128 {
        let (map, fixup) = regions(partition);
        let (bits, shift) = if self.two_regions() { (3, 82) } else { (4, 65) };
        let mut next = [1u128, 1];
        let mut word = 0;
        let mut at = shift;
        for pixel in 0..16 {
            if pixel == 0 || self.two_regions() && pixel == fixup {
                at += bits - 1;
                continue;
            }
            let region = if self.two_regions() { usize::from(map >> pixel & 1) } else { 0 };
            word |= (next[region] % (1 << bits)) << at;
            next[region] += 1;
            at += bits;
        }
        if self.two_regions() { word | u128::from(partition) << 77 } else { word }
    }

    /// Every block with none, one or two bits above the code set, and every one with none, one or two of them clear.
    pub fn few_bits(&self, visit: &mut impl FnMut([u8; 16])) {
        for flip in [0, u128::MAX] {
            visit(self.over_code(flip));
            for a in self.code_bits..128 {
                visit(self.over_code(flip ^ 1 << a));
                for b in self.code_bits..a {
                    visit(self.over_code(flip ^ (1 << a | 1 << b)));
                }
            }
        }
    }

    /// Two sets of endpoints whose palettes differ, each partition, and none, one or two index bits set or clear.
    pub fn index_bits(&self, visit: &mut impl FnMut([u8; 16])) {
        let first = self.first_index_bit();
        let indices = u128::MAX << first;
        let mut random = Random(u64::from(self.code));
        for _ in 0..2 {
            let endpoints = random.bits() & !(u128::MAX << if self.two_regions() { 77 } else { 65 });
            for partition in 0..if self.two_regions() { 32 } else { 1 } {
                for flip in [0, indices] {
                    let base = endpoints | partition << 77 ^ flip;
                    visit(self.over_code(base));
                    for a in first..128 {
                        visit(self.over_code(base ^ 1 << a));
                        for b in first..a {
                            visit(self.over_code(base ^ (1 << a | 1 << b)));
                        }
                    }
                }
            }
        }
    }

    /// Endpoints at 0, 1, 2^(w−1), −2^(w−1), 2^w − 1 and their neighbours, in every combination of the four endpoints,
    /// with another one in each channel, over every partition.
    pub fn extremes(&self, visit: &mut impl FnMut([u8; 16])) {
        let extreme = |place: usize, which: usize| {
            let half = 1usize << self.width(place) >> 1;
            let low = [0, 1, 2, half.wrapping_sub(2), half.wrapping_sub(1), half, half + 1];
            let high = [half.wrapping_mul(2).wrapping_sub(2), half.wrapping_mul(2).wrapping_sub(1)];
            self.stored(place, low.iter().chain(&high).copied().nth(which % 9).unwrap())
        };
        let combinations = if self.two_regions() { 9usize.pow(4) } else { 9 * 9 };
        for partition in 0..if self.two_regions() { 32 } else { 1 } {
            let shown = self.every_index(partition);
            for combination in 0..combinations {
                let mut bits = shown;
                for place in 0..12 {
                    bits |= extreme(place, combination / 9usize.pow(place as u32 / 3) + place % 3);
                }
                visit(self.over_code(bits));
            }
        }
    }

    /// Every pair of endpoints that can meet in a palette, in each channel, at all indices: every first endpoint with every
    /// second, and in two regions with every third and fourth. `step` above 1 takes each step-th of them.
    pub fn pairs(&self, step: usize, visit: &mut impl FnMut([u8; 16])) {
        let shown = self.every_index(0);
        let first = self.width(0);
        let other = (3..6).map(|place| self.width(place)).max().unwrap();
        let spans = if self.two_regions() { first + 2 * other } else { first + other };
        const TURN: [usize; 3] = [0, 0x5A5A, 0x3C3C];
        for n in (0..1usize << spans).step_by(step) {
            let (w, y, z) = (n, n >> first, n >> (first + other));
            let mut bits = shown;
            for channel in 0..3 {
                bits |= self.stored(channel, w ^ TURN[channel]) | self.stored(3 + channel, y ^ TURN[channel]);
                bits |= self.stored(6 + channel, y ^ TURN[channel] >> 1) | self.stored(9 + channel, z ^ TURN[channel]);
            }
            visit(self.over_code(bits));
        }
    }

    pub fn random(&self, count: u64, seed: u64, visit: &mut impl FnMut([u8; 16])) {
        let mut random = Random(seed << 8 | u64::from(self.code));
        for _ in 0..count {
            visit(self.over_code(random.bits()));
        }
    }
}
