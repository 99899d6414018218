//! Times the proved library beside the second implementation, and beside SimGrid's max-min solver
//! where that is installed, in one run on the same inputs: the calculation on a small, a middle and a
//! full-size input, how it grows with sessions and links, and the machine by deliveries and by the
//! settled question; and counts the packets until a table is settled. It prints Markdown, which
//! docs/PERFORMANCE.md has; `--draw FILE` writes the growth as a picture too.

use std::env;
use std::fs;
use std::process::ExitCode;

use compare::timing::beside;
use compare::timing::growth::Growth;
use compare::timing::machine::Loads;
use compare::timing::peer::{Peer, Start};
use compare::timing::picture::svg;
use compare::timing::PASSES;

fn main() -> ExitCode {
    let arguments: Vec<String> = env::args().skip(1).collect();
    let arguments: Vec<&str> = arguments.iter().map(String::as_str).collect();
    let file = match arguments[..] {
        [] => None,
        ["--draw", file] => Some(file),
        _ => {
            eprintln!("usage: bench [--draw FILE]");
            return ExitCode::from(2);
        }
    };
    match bench(file) {
        Ok(()) => ExitCode::SUCCESS,
        Err(fault) => {
            eprintln!("bench: {fault}");
            ExitCode::FAILURE
        }
    }
}

fn bench(file: Option<&str>) -> Result<(), String> {
    let mut peer = match Peer::start()? {
        Start::Ready(peer) => Some(peer),
        Start::Skipped(missing) => {
            println!("SimGrid is skipped: {missing}\n");
            None
        }
    };
    let loads = Loads::make();
    let mut rows = beside::measure(&loads, &mut peer)?;
    let mut growth = Growth::measure(&mut peer)?;
    for _ in 1..PASSES {
        let pairs = rows.into_iter().zip(beside::measure(&loads, &mut peer)?);
        rows = pairs.map(|(row, other)| row.lower(other)).collect();
        growth = growth.lower(Growth::measure(&mut peer)?);
    }
    println!("{}", beside::tables(&rows, &peer));
    println!("{}", growth.tables());
    print!("{}", loads.packets());
    match file {
        Some(file) => fs::write(file, svg(&growth)).map_err(|fault| format!("{file}: {fault}")),
        None => Ok(()),
    }
}
