//! The Rust decoder in the manner of the program run_pixels: standard input is a run of 17-byte records, a format byte
//! and a block; for each, 100 bytes go out: answer, mode, count of minus infinities, 48 values, low byte
//! first. Formats are 0 or 1 here.
use std::io::{self, BufReader, BufWriter, ErrorKind, Read, Write};

fn main() -> io::Result<()> {
    let mut input = BufReader::with_capacity(1 << 16, io::stdin().lock());
    let mut output = BufWriter::with_capacity(1 << 16, io::stdout().lock());
    let mut record = [0; 17];
    loop {
        match input.read_exact(&mut record) {
            Err(e) if e.kind() == ErrorKind::UnexpectedEof => break,
            read => read?,
        }
        let block = record[1..].try_into().unwrap();
        let mut answer = [0; 100];
        let values = oracle::pixels(block, record[0] == 1);
        answer[1] = oracle::mode(block);
        answer[2] = values.iter().flatten().filter(|&&value| value == 0xFC00).count() as u8;
        for (value, bytes) in values.iter().flatten().zip(answer[4..].chunks_mut(2)) {
            bytes.copy_from_slice(&value.to_le_bytes());
        }
        output.write_all(&answer)?;
    }
    output.flush()
}
