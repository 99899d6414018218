//! Reads records from standard input and prints the rates, like the program `shares`:
//! `cargo run --manifest-path rust/Cargo.toml --example rates < examples/p6.bin`.

use std::io::{self, Read};

fn main() -> io::Result<()> {
    let mut records = Vec::new();
    io::stdin().read_to_end(&mut records)?;
    match umbraconga::calculate(&records) {
        Ok(rates) => println!("{rates}"),
        Err(refused) => println!("{refused}: {}", refused.reason()),
    }
    Ok(())
}
