//! Our side as programs: run_pixels (17 bytes in, 100 out), run_fields (17 in, 45 out), and run_write (44 in, 17 out),
//! which is given what run_fields writes after its answers.
use crate::blocks::{Mode, NAMED};
use crate::{field_numbers, Tally};
use std::io::{BufWriter, Read, Write};
use std::process::{Command, ExitCode, Stdio};

/// What a program answers to an input, both as a whole.
fn answers(program: &str, input: &[u8]) -> Vec<u8> {
    let mut child = Command::new("sh").args(["-c", program]).stdin(Stdio::piped()).stdout(Stdio::piped()).spawn().expect(program);
    let mut to = child.stdin.take().unwrap();
    let mut from = child.stdout.take().unwrap();
    let mut output = Vec::new();
    std::thread::scope(|scope| {
        scope.spawn(move || to.write_all(input).expect("the program reads its input"));
        from.read_to_end(&mut output).expect("the program writes");
    });
    child.wait().unwrap();
    output
}

/// The 100 bytes for a record: answer, mode, count of minus infinities, 48 values; a format above 1 and a block that is not whole are
/// refused.
fn decoded(record: &[u8]) -> [u8; 100] {
    let mut answer = [0; 100];
    match (record[0], <[u8; 16]>::try_from(&record[1..])) {
        (2.., _) => answer[0] = 1,
        (_, Err(_)) => answer[0] = 2,
        (format, Ok(block)) => {
            let values = oracle::pixels(block, format == 1);
            answer[1] = oracle::mode(block);
            answer[2..4].copy_from_slice(&infinities(values.as_flattened()).to_le_bytes());
            for (value, bytes) in values.iter().flatten().zip(answer[4..].chunks_mut(2)) {
                bytes.copy_from_slice(&value.to_le_bytes());
            }
        }
    }
    answer
}

fn infinities(values: &[u16]) -> u16 {
    values.iter().filter(|&&value| value == 0xFC00).count() as u16
}

/// The 45 bytes for a record: answer, format, mode, twelve endpoints of two bytes, partition, region count, sixteen indices.
fn extracted(record: &[u8]) -> Vec<u8> {
    let (answer, numbers) = match (record[0], <[u8; 16]>::try_from(&record[1..])) {
        (2.., _) => (1, [0; 32]),
        (_, Err(_)) => (2, [0; 32]),
        (format, Ok(block)) => field_numbers(block, format),
    };
    let mut bytes = vec![answer, numbers[0] as u8, numbers[1] as u8];
    bytes.extend(numbers[2..14].iter().flat_map(|number| number.to_le_bytes()));
    bytes.extend(numbers[14..].iter().map(|&number| number as u8));
    bytes
}

/// What run_write writes of the fields of a record: the block again, or 10 and zeros where there are none.
fn written_back(record: &[u8]) -> [u8; 17] {
    let mut answer = [0; 17];
    match extracted(record)[0] {
        0 => answer[1..].copy_from_slice(&record[1..]),
        _ => answer[0] = 10,
    }
    answer
}

fn sample(seed: u64) -> Vec<[u8; 16]> {
    let mut blocks = NAMED.to_vec();
    for mode in Mode::all() {
        mode.few_bits(&mut |block| blocks.push(block));
        mode.random(5000, seed, &mut |block| blocks.push(block));
        if !mode.reserved() {
            mode.pairs(9973, &mut |block| blocks.push(block));
        }
    }
    blocks
}

fn compare_run(what: &str, records: &[u8], output: &[u8], expected: &[u8], each: usize, tally: &mut Tally) {
    if output.len() != expected.len() {
        tally.differs(&format!("{what} wrote {} bytes for {}", output.len(), expected.len()), 0, &[]);
    }
    for (n, (ours, theirs)) in output.chunks(each).zip(expected.chunks(each)).enumerate() {
        tally.compared += 1;
        if ours != theirs {
            let record = &records[n * 17..records.len().min((n + 1) * 17)];
            tally.differs(what, record[0], &record[1..]);
        }
    }
}

pub fn compare(decode: &str, extract: &str, write: &str, seed: u64, tally: &mut Tally) {
    let blocks = sample(seed);
    let mut records = Vec::new();
    for (n, block) in blocks.iter().enumerate() {
        for format in [0, 1, 2 + (n % 254) as u8].into_iter().take(if n % 50 == 0 { 3 } else { 2 }) {
            records.push(format);
            records.extend(block);
        }
    }
    records.extend([1, 0x0F, 0, 0]);
    let expected: Vec<u8> = records.chunks(17).flat_map(decoded).collect();
    compare_run("run_pixels", &records, &answers(decode, &records), &expected, 100, tally);
    let expected: Vec<u8> = records.chunks(17).flat_map(extracted).collect();
    let fields = answers(extract, &records);
    compare_run("run_fields", &records, &fields, &expected, 45, tally);
    let fields: Vec<u8> = fields.chunks(45).flat_map(|piece| &piece[1..]).copied().collect();
    let expected: Vec<u8> = records.chunks(17).flat_map(written_back).collect();
    compare_run("run_write", &records, &answers(write, &fields), &expected, 17, tally);
}

/// The same blocks in runs of one format, of 0 to 199 blocks, through the call over a run: a format, a count and the blocks in; the
/// number, the blocks done, the count of minus infinities and the values out.
pub fn compare_runs(program: &str, seed: u64, tally: &mut Tally) {
    let blocks = sample(seed);
    let (mut input, mut expected, mut runs) = (Vec::new(), Vec::new(), Vec::new());
    let (mut rest, mut n) = (blocks.as_slice(), 0usize);
    while !rest.is_empty() {
        let (run, left) = rest.split_at((n * 7 % 200).min(rest.len()));
        let format = (n % 3 % 2) as u8;
        let values: Vec<u16> = run.iter().flat_map(|&block| oracle::pixels(block, format == 1)).flatten().collect();
        input.push(format);
        input.extend((run.len() as u16).to_le_bytes());
        input.extend(run.as_flattened());
        let start = expected.len();
        for count in [0, run.len() as u32, values.iter().filter(|&&value| value == 0xFC00).count() as u32] {
            expected.extend(count.to_le_bytes());
        }
        expected.extend(values.iter().flat_map(|value| value.to_le_bytes()));
        runs.push((format, run, start..expected.len()));
        rest = left;
        n += 1;
    }
    let output = answers(program, &input);
    if output.len() != expected.len() {
        tally.differs(&format!("runs wrote {} bytes for {}", output.len(), expected.len()), 0, &[]);
    }
    for (format, run, place) in runs {
        tally.compared += 1;
        if output.get(place.clone()) != Some(&expected[place]) {
            tally.differs("a run of blocks", format, run.as_flattened());
        }
    }
}

/// B1 to B11, every block of at most two bits over each code or two short of all, and random ones.
pub fn emit(count: u64, format: u64, seed: u64) -> ExitCode {
    let mut output = BufWriter::new(std::io::stdout().lock());
    let mut put = |block: [u8; 16]| {
        output.write_all(&[format as u8]).and_then(|()| output.write_all(&block)).expect("standard output");
    };
    let modes = Mode::all();
    NAMED.into_iter().for_each(&mut put);
    for mode in &modes {
        mode.few_bits(&mut put);
        mode.random(count.div_ceil(modes.len() as u64), seed, &mut put);
    }
    output.flush().expect("standard output");
    ExitCode::SUCCESS
}

/// The list that the program check_replay reads: each entry is a record of 17 bytes and the Rust's 100 bytes for it. Both formats of
/// B1 to B11 and, for each code, no bit and every bit above it, random blocks and a run through the extreme endpoints.
pub fn entries(seed: u64) -> ExitCode {
    let mut blocks = NAMED.to_vec();
    for mode in Mode::all() {
        let first = blocks.len();
        mode.few_bits(&mut |block| blocks.push(block));
        let every_bit = blocks[first + (blocks.len() - first) / 2];
        blocks.truncate(first + 1);
        blocks.push(every_bit);
        mode.random(56, seed, &mut |block| blocks.push(block));
        if !mode.reserved() {
            let mut extremes = Vec::new();
            mode.extremes(&mut |block| extremes.push(block));
            blocks.extend(extremes.iter().step_by(extremes.len() / 24 - 1).take(24));
        }
    }
    let mut output = BufWriter::new(std::io::stdout().lock());
    for block in blocks {
        for format in [0, 1] {
            let record = [[format].as_slice(), &block].concat();
            output.write_all(&record).and_then(|()| output.write_all(&decoded(&record))).expect("standard output");
        }
    }
    output.flush().expect("standard output");
    ExitCode::SUCCESS
}

/// What run_pixels must write for the records of standard input.
pub fn decode() -> ExitCode {
    let mut records = Vec::new();
    std::io::stdin().read_to_end(&mut records).expect("standard input");
    let bytes: Vec<u8> = records.chunks(17).flat_map(decoded).collect();
    std::io::stdout().write_all(&bytes).expect("standard output");
    ExitCode::SUCCESS
}
