//! The program of document 01: lines from standard input, answers to standard
//! output.

use std::io::{self, Read, Write};

fn main() -> io::Result<()> {
    let mut input = Vec::with_capacity(oracle::INPUT_LIMIT);
    io::stdin()
        .lock()
        .take(oracle::INPUT_LIMIT as u64)
        .read_to_end(&mut input)?;
    io::stdout().lock().write_all(&oracle::run(&input))
}
