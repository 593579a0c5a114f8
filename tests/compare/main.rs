//! Feeds our decoder and the Rust the same blocks and compares every value, mode, field and refusal. Holds S-2, S-6 to S-27, S-81.
//!
//!     compare short|long [SEED]                     through the archive (built with --cfg archive)
//!     compare first [SEED]                          the same as short, up to the first difference
//!     compare programs DECODE EXTRACT WRITE [SEED]  through the programs run_pixels, run_fields and run_write, or others
//!                                                   that answer as they do
//!     compare runs PROGRAM [SEED]                   through a program over the call for a run of blocks
//!     compare decode                                writes what run_pixels must write for its standard input
//!     compare entries SEED                          writes the list that the program check_replay reads
//!     compare emit COUNT FORMAT SEED                writes 17-byte records, COUNT of them random, for other drivers
mod blocks;
mod programs;
#[cfg(archive)]
mod archive;

use blocks::{Mode, NAMED};
use std::process::ExitCode;

/// How much of each class to run.
pub struct Extent {
    pub pair_step: usize,
    pub random: u64,
    pub seed: u64,
}

/// One side's answer to the field call in format 0 or 1, with our numbers in the order of the header.
pub fn field_numbers(block: [u8; 16], format: u8) -> (u8, [u16; 32]) {
    let f = oracle::fields(block);
    let mut numbers = [0; 32];
    if f.mode == 0 {
        return (4, numbers);
    }
    numbers[0] = format.into();
    numbers[1] = f.mode.into();
    numbers[2..14].copy_from_slice(&f.endpoints);
    numbers[14] = f.partition.into();
    numbers[15] = f.region1.into();
    for (number, index) in numbers[16..].iter_mut().zip(f.indices) {
        *number = index.into();
    }
    (0, numbers)
}

/// Counts what was compared, prints the first differences, and ends the run where they are many.
#[derive(Default)]
pub struct Tally {
    pub compared: u64,
    pub differing: u64,
    /// Whether the first difference ends the run.
    pub first: bool,
}

impl Tally {
    pub fn differs(&mut self, what: &str, format: u8, block: &[u8]) {
        self.differing += 1;
        if self.differing <= 10 {
            let hex: String = block.iter().map(|byte| format!("{byte:02X}")).collect();
            println!("DIFFERENT: {what}: format {format}, block {hex}");
        }
        if self.differing == 1000 || self.first {
            println!("{} comparisons, {} differ: stopped", self.compared, self.differing);
            std::process::exit(1);
        }
    }

    fn verdict(&self) -> ExitCode {
        println!("{} comparisons, {} differ", self.compared, self.differing);
        if self.compared > 0 && self.differing == 0 { ExitCode::SUCCESS } else { ExitCode::FAILURE }
    }
}

/// Every class of blocks, with its name.
pub fn for_each_class(extent: &Extent, mut class: impl FnMut(&str, &mut dyn FnMut(&mut dyn FnMut([u8; 16])))) {
    let modes = Mode::all();
    let live = || modes.iter().filter(|mode| !mode.reserved());
    class("B1 to B11", &mut |mut visit| NAMED.into_iter().for_each(&mut visit));
    class("one and two bits", &mut |mut visit| modes.iter().for_each(|mode| mode.few_bits(&mut visit)));
    class("index bits", &mut |mut visit| live().for_each(|mode| mode.index_bits(&mut visit)));
    class("extreme endpoints", &mut |mut visit| live().for_each(|mode| mode.extremes(&mut visit)));
    class("endpoint pairs", &mut |mut visit| live().for_each(|mode| mode.pairs(extent.pair_step, &mut visit)));
    class("random", &mut |mut visit| modes.iter().for_each(|mode| mode.random(extent.random, extent.seed, &mut visit)));
}

fn number(words: &[String], at: usize, default: u64) -> u64 {
    words.get(at).map_or(default, |word| word.parse().expect("a number"))
}

fn main() -> ExitCode {
    let words: Vec<String> = std::env::args().skip(1).collect();
    let mut tally = Tally::default();
    match words.first().map(String::as_str) {
        #[cfg(archive)]
        Some("first") => {
            tally.first = true;
            archive::compare(&Extent { pair_step: 7, random: 50_000, seed: number(&words, 1, 1) }, &mut tally)
        }
        #[cfg(archive)]
        Some("short") => archive::compare(&Extent { pair_step: 7, random: 50_000, seed: number(&words, 1, 1) }, &mut tally),
        #[cfg(archive)]
        Some("long") => archive::compare(&Extent { pair_step: 1, random: 5_000_000, seed: number(&words, 1, 1) }, &mut tally),
        Some("programs") if words.len() >= 4 => programs::compare(&words[1], &words[2], &words[3], number(&words, 4, 1), &mut tally),
        Some("runs") if words.len() >= 2 => programs::compare_runs(&words[1], number(&words, 2, 1), &mut tally),
        Some("decode") => return programs::decode(),
        Some("entries") => return programs::entries(number(&words, 1, 1)),
        Some("emit") => return programs::emit(number(&words, 1, 1), number(&words, 2, 0), number(&words, 3, 1)),
        _ => {
            eprintln!("usage: compare short|long|first [SEED] | programs DECODE EXTRACT WRITE [SEED] | runs PROGRAM [SEED] | decode | entries SEED | emit COUNT FORMAT SEED");
            return ExitCode::from(2);
        }
    }
    tally.verdict()
}
