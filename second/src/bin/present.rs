//! Reads records from standard input, runs them over an empty table and writes the records of its
//! links and active sessions.

use std::io::{self, Read, Write};

use second::records::INPUT_BYTES;

fn main() -> io::Result<()> {
    let mut input = Vec::new();
    // One byte more than an input may have is enough to refuse it.
    let mut lent = io::stdin().lock().take(INPUT_BYTES as u64 + 1);
    lent.read_to_end(&mut input)?;
    io::stdout().write_all(&second::texts::present(&input))
}
