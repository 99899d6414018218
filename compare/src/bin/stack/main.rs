//! Prints the deepest stack of each of the library's calls, as Markdown, over inputs of `compare` and of
//! `bench`. In this program every calculation and every run of theirs comes to `calls`, which measures
//! it: the linker sees to that (build.rs). Ends with 1 where a step reaches the limit, where one of the
//! calls was not measured, or where the comparison finds a difference. It is for Linux on x86-64, as the
//! archive is.

#![deny(unsafe_code)]
#![warn(missing_docs)]

mod calls;
mod meter;
mod raw;

use std::process::ExitCode;

use calls::DEEPEST;
use compare::difference::Difference;
use compare::loads::{busy, grown, network, whole_rates, P6};
use compare::sorts::{FIXED, RANDOM};
use compare::stack::{Row, STEP_LIMIT};
use compare::tally::Tally;
use compare::timing::markdown::count;
use umbraconga::{calculate, Table};

// The seed that `compare` always has, and which part of its random cases are measured: one of so many.
const SEED: u64 = 1;
const PART: u64 = 10;

fn main() -> ExitCode {
    DEEPEST.note(Row::Nothing, meter::nothing());
    if let Err(difference) = of_compare() {
        println!("DIFFERENT: {difference}");
        return ExitCode::FAILURE;
    }
    of_bench();
    let (step, not_met) = (DEEPEST.step(), DEEPEST.not_met());
    println!("{}", DEEPEST.table());
    let [most, limit] = [step, STEP_LIMIT].map(|bytes| count(bytes as u64));
    println!("A step takes {most} bytes at most, and must take fewer than {limit}.");
    for missing in &not_met {
        println!("NEVER MEASURED: {missing}");
    }
    if step < STEP_LIMIT && not_met.is_empty() {
        ExitCode::SUCCESS
    } else {
        ExitCode::FAILURE
    }
}

// All fixed cases, and of every random sort the first ones.
fn of_compare() -> Result<(), Difference> {
    let mut tally = Tally::default();
    for (number, sort) in (0..).zip(&FIXED) {
        for case in 0..sort.cases {
            sort.run(SEED, number, case, &mut tally)?;
        }
    }
    for (number, sort) in (100..).zip(&RANDOM) {
        for case in 0..sort.cases.div_ceil(PART) {
            sort.run(SEED, number, case, &mut tally)?;
        }
    }
    Ok(())
}

// The networks that are calculated, and the records that keep a table busy, with those before them.
fn of_bench() {
    let full = network(64, 32, 8);
    let machine = [network(2, 3, 2), P6.to_vec(), whole_rates(&full), full];
    let growing = (0..8).map(|seed| grown(seed, 64, 32));
    for network in growing.chain([network(16, 12, 3)]).chain(machine.clone()) {
        assert!(calculate(&network).is_ok());
    }
    for busy in machine.map(busy) {
        let mut table = Table::empty();
        for records in busy.before.iter().chain([&busy.records]) {
            assert_eq!(table.run(records).refused, None);
        }
    }
}
