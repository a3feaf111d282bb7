//! The lines of the program `calls`, answered by the independent
//! implementation: standard input to standard output.

#![forbid(unsafe_code)]

use std::io::{self, Read, Write};

fn main() -> io::Result<()> {
    let mut input = Vec::new();
    io::stdin().lock().read_to_end(&mut input)?;
    io::stdout().lock().write_all(&oracle::run_calls(&input))
}
