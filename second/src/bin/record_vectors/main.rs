//! Writes the recorded inputs of `crates/vectors/stdin` to standard output, framed as `vectors` reads
//! them: the examples of document 01, every refusal of documents 01 and 02 that a run from the empty
//! table can meet, and random inputs, valid and damaged. The seeds are fixed, so every run writes the
//! same bytes.

use std::io::{self, Write};

use second::machine::run;
use second::texts::{shares, steps};

// The tests' makers of records and random events, so that these are written once.
#[allow(dead_code)]
#[path = "../../../tests/documents/common.rs"]
mod common;
mod random;
mod refused;
#[allow(dead_code)]
#[path = "../../../tests/documents/world.rs"]
mod world;

use common::{leave, link, plain_session, session, taken, Machine};

// 01, "Examples": P1 to P13, of which P12 has two inputs.
const EXAMPLES: [&[u8]; 14] = [
    include_bytes!("../../../../examples/p1.bin"),
    include_bytes!("../../../../examples/p2.bin"),
    include_bytes!("../../../../examples/p3.bin"),
    include_bytes!("../../../../examples/p4.bin"),
    include_bytes!("../../../../examples/p5.bin"),
    include_bytes!("../../../../examples/p6.bin"),
    include_bytes!("../../../../examples/p7.bin"),
    include_bytes!("../../../../examples/p8.bin"),
    include_bytes!("../../../../examples/p9.bin"),
    include_bytes!("../../../../examples/p10.bin"),
    include_bytes!("../../../../examples/p11.bin"),
    include_bytes!("../../../../examples/p12a.bin"),
    include_bytes!("../../../../examples/p12b.bin"),
    include_bytes!("../../../../examples/p13.bin"),
];

// The machine's examples: P2 and P3 with position 0 delivered six times.
const MACHINE_EXAMPLES: [&[u8]; 2] = [
    include_bytes!("../../../../examples/steps/p2.bin"),
    include_bytes!("../../../../examples/steps/p3.bin"),
];

/// The records of one input: for the calculation, or for the machine from the empty table.
pub enum Input {
    Calculation(Vec<u8>),
    Run(Vec<u8>),
}

/// The same records for both.
pub fn for_both(records: Vec<u8>) -> [Input; 2] {
    [Input::Calculation(records.clone()), Input::Run(records)]
}

fn framed(input: &Input) -> Vec<u8> {
    let (sort, records) = match input {
        Input::Calculation(records) => (b'c', records),
        Input::Run(records) => (b'm', records),
    };
    let length = u16::try_from(records.len()).expect("two bytes of length");
    [&[sort][..], &length.to_be_bytes(), records].concat()
}

// P1 to P13 in both, and the machine's own; those that the machine takes also until they are at rest.
fn examples() -> Vec<Input> {
    let both = EXAMPLES.map(|records| for_both(records.to_vec()));
    let mut inputs: Vec<Input> = both.into_iter().flatten().collect();
    inputs.extend(MACHINE_EXAMPLES.map(|records| Input::Run(records.to_vec())));
    for records in EXAMPLES {
        let mut machine = Machine::new();
        if run(&mut machine.table, records).refused.is_none() {
            machine.bytes = records.to_vec();
            machine.drain(|_| true);
            inputs.push(Input::Run(machine.bytes));
        }
    }
    inputs
}

// A session that leaves, and joins again on another path once its packets are gone; others stay.
fn joined_again() -> Vec<Input> {
    let mut machine = taken(&[
        link(0, 10),
        link(1, 3),
        plain_session(0, &[0]),
        plain_session(1, &[0, 1]),
        plain_session(2, &[1, 0]),
    ]);
    machine.drain(|_| true);
    machine.take(leave(1));
    machine.drain(|_| true);
    let left = machine.bytes.clone();
    machine.take(session(1, 100, 1, &[0]));
    machine.drain(|_| true);
    vec![Input::Run(left), Input::Run(machine.bytes)]
}

// The refusals in the last lines of the texts: of the calculation's, and of the machine's.
fn refusals_met(inputs: &[Input]) -> [[bool; 17]; 2] {
    let mut met = [[false; 17]; 2];
    for input in inputs {
        let (sort, text) = match input {
            Input::Calculation(records) => (0, shares(records)),
            Input::Run(records) => (1, steps(records)),
        };
        let last = text.lines().last().expect("every text has a line");
        if let Some(words) = last.strip_prefix("refused ") {
            let number = words.split(' ').next().and_then(|word| word.parse().ok());
            let number: usize = number.expect("a refusal has a number");
            met[sort][number] = true;
        }
    }
    met
}

fn main() -> io::Result<()> {
    let inputs: Vec<Input> = [
        examples(),
        joined_again(),
        refused::by_both(),
        refused::by_one(),
        refused::at_the_limits(),
        refused::above_access(),
        random::calculations(),
        random::runs(),
        refused::too_long(),
    ]
    .into_iter()
    .flatten()
    .collect();
    let [calculation, machine] = refusals_met(&inputs);
    assert!(calculation[1..=8].iter().all(|&met| met), "refusals 1 to 8");
    assert!(machine[1..=13].iter().all(|&met| met), "refusals 1 to 13");
    assert!(calculation[16] && machine[16], "refusal 16");
    let bytes: Vec<u8> = inputs.iter().flat_map(framed).collect();
    io::stdout().write_all(&bytes)
}
