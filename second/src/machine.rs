//! The packet machine (01, "The tasks" and "What is turned away"): a run of records over a table
//! that is lent, the settled question, the records written out (02, §3), and the test of a table
//! handed in.

mod events;
mod handed;
mod parts;
mod settled;
pub mod table;
mod writing;

pub use handed::{passes_14, Fault};
pub use settled::settled;
pub use table::{Entry, Link, Packet, Source, Table};
pub use writing::{write, OUTPUT_BYTES};

use crate::records::{read, Kind, Refusal, Refused, INPUT_BYTES};

/// What a run reports: how many records it took, and the refusal that stopped it, if any.
#[derive(Clone, Copy, Debug, PartialEq, Eq)]
pub struct Ran {
    /// The records taken before the end or the refused one.
    pub taken: u64,
    /// The refusal, after which the table is the one before the refused record.
    pub refused: Option<Refused>,
}

/// Runs the records of `input` over the table. The order of the tests is 14, 1, then each record's
/// 2 to 13 in number order, with 16 directly after 7 in a session record and directly after 9 in a
/// change (02, §1).
pub fn run(table: &mut Table, input: &[u8]) -> Ran {
    let refused_whole = |refusal: Refusal| Ran {
        taken: 0,
        refused: Some(refusal.at(0)),
    };
    if passes_14(table).is_err() {
        return refused_whole(Refusal::TableDamaged);
    }
    if input.len() > INPUT_BYTES {
        return refused_whole(Refusal::InputTooLong);
    }
    let mut taken = 0;
    let mut place = 0;
    while place < input.len() {
        match take_record(table, input, place) {
            Ok(next) => place = next,
            Err(refusal) => {
                return Ran {
                    taken,
                    refused: Some(refusal.at(place)),
                }
            }
        }
        taken += 1;
    }
    Ran {
        taken,
        refused: None,
    }
}

// The record at `place`: the place after it, or its refusal.
fn take_record(table: &mut Table, input: &[u8], place: usize) -> Result<usize, Refusal> {
    let (record, next) = read(input, place, &Kind::MACHINE)?;
    events::take(table, record)?;
    Ok(next)
}
