//! Tells how another decoder's values differ from ours, class by class, with the block of fewest bits for each class.
//!
//!     tally RECORDS OURS THEIRS [CLASS]   17 bytes a record; 100 bytes an answer of ours; 96 bytes an answer of theirs
//!
//! Status 1 where they differ in another way than CLASS, a class's name.
use std::collections::BTreeMap;
use std::process::ExitCode;

struct Class {
    values: u64,
    blocks: u64,
    smallest: (u32, Vec<u8>, usize, u16, u16),
}

fn class_of(ours: u16, theirs: u16) -> &'static str {
    match (ours, theirs) {
        (0x0000, 0x8000) => "ours is 0x0000 and theirs 0x8000",
        (0x8000, _) => "ours is 0x8000",
        (0xFC00, _) => "ours is 0xFC00",
        (_, 0xFC00) => "theirs is 0xFC00",
        _ => "other",
    }
}

fn main() -> ExitCode {
    let words: Vec<String> = std::env::args().skip(1).collect();
    let known = words.get(3).map(String::as_str);
    let files: Vec<Vec<u8>> = words.iter().take(3).map(|path| std::fs::read(path).expect(path)).collect();
    let [records, ours, theirs] = files.as_slice() else {
        eprintln!("usage: tally RECORDS OURS THEIRS [CLASS]");
        return ExitCode::from(2);
    };
    let count = records.len() / 17;
    if count == 0 || ours.len() != 100 * count || theirs.len() != 96 * count {
        println!("{count} records, {} bytes of ours, {} bytes of theirs: they do not match", ours.len(), theirs.len());
        return ExitCode::FAILURE;
    }
    let mut classes: BTreeMap<&str, Class> = BTreeMap::new();
    for (n, record) in records.chunks(17).enumerate() {
        let mut seen = "";
        for k in 0..48 {
            let value = |bytes: &[u8], at: usize| u16::from_le_bytes([bytes[at], bytes[at + 1]]);
            let (a, b) = (value(ours, 100 * n + 4 + 2 * k), value(theirs, 96 * n + 2 * k));
            if a == b {
                continue;
            }
            let name = class_of(a, b);
            let weight = record[1..].iter().map(|byte| byte.count_ones()).sum();
            let this = (weight, record.to_vec(), k, a, b);
            let class = classes.entry(name).or_insert(Class { values: 0, blocks: 0, smallest: this.clone() });
            class.values += 1;
            if name != seen {
                class.blocks += 1;
                seen = name;
            }
            if this < class.smallest {
                class.smallest = this;
            }
        }
    }
    println!("{count} blocks, {} values", 48 * count);
    for (name, class) in &classes {
        let (_, record, k, a, b) = &class.smallest;
        let hex: String = record[1..].iter().map(|byte| format!("{byte:02X}")).collect();
        println!("{name}: {} values in {} blocks; smallest {hex}, pixel {} channel {}: ours {a:04X}, theirs {b:04X}", class.values, class.blocks, k / 3, k % 3);
    }
    if classes.is_empty() {
        println!("every value agrees");
    }
    if classes.keys().all(|&name| Some(name) == known) { ExitCode::SUCCESS } else { ExitCode::FAILURE }
}
