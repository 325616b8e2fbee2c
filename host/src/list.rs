// What the program `listing` does, through the original: for `bench` to time beside it.
use crate::original::codec::{g722::G722Processor, CodecProcessor};
use std::io::{self, BufWriter, Read, Write};

const PIECE: usize = 1 << 15;

pub fn list() -> io::Result<()> {
    let mut out = BufWriter::with_capacity(2 * PIECE, io::stdout().lock());
    let mut original = G722Processor::new(16000);
    let mut input = vec![0; PIECE];
    let mut index = 0u64;
    writeln!(out, "sample\tvalue")?;
    loop {
        let count = io::stdin().lock().read(&mut input)?;
        if count == 0 {
            break;
        }
        for value in original.decode(&input[..count]) {
            writeln!(out, "{index}\t{value}")?;
            index += 1;
        }
    }
    writeln!(out, "end\t{index}")?;
    out.flush()
}
