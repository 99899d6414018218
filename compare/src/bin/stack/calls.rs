//! What is measured where the comparison calls the library.

use compare::stack::{row_of, Deepest, Row};
use compare::words::Words;
use second::making::record_bytes;
use umbraconga::RECORDS_MOST;

use crate::raw;

/// The deepest of all calls so far.
pub static DEEPEST: Deepest = Deepest::new();

/// A calculation.
pub fn calculate(
    records: &[u8],
    nums: &mut [u64],
    dens: &mut [u64],
    places: &mut [u64],
) -> [u64; 4] {
    let (report, depth) = raw::calculate(records, nums, dens, places);
    DEEPEST.note(Row::Calculate, depth);
    report
}

/// A run; before it its records one by one, on a copy of the table, and after it the other calls, on the
/// table that it leaves.
pub fn run(table: &mut Words, records: &[u8]) -> [u64; 3] {
    one_by_one(Box::new(*table), records);
    let (report, depth) = raw::run(table, records);
    DEEPEST.note(Row::Run, depth);
    DEEPEST.note(Row::Settled, raw::settled(table));
    DEEPEST.note(Row::InFlight, raw::in_flight(table));
    for session in [0, 31, 32] {
        DEEPEST.note(Row::Told, raw::told(table, session));
    }
    DEEPEST.note(Row::Records, raw::records(table, &mut [0; RECORDS_MOST]));
    report
}

// No record, and then each in a call of its own, up to the first that is refused.
fn one_by_one(mut table: Box<Words>, records: &[u8]) {
    let ([mut refused, ..], depth) = raw::run(&mut table, &[]);
    DEEPEST.note(Row::NoRecords, depth);
    let mut rest = records;
    while refused == 0 && !rest.is_empty() {
        let (record, after) = rest.split_at(record_bytes(rest[0]).min(rest.len()));
        let row = row_of(&table, record);
        let (report, depth) = raw::run(&mut table, record);
        if let Some(row) = row {
            DEEPEST.note(row, depth);
        }
        (refused, rest) = (report[0], after);
    }
    DEEPEST.note(Row::Empty, raw::empty(&mut table));
}
