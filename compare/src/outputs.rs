//! The cases of the writer (02, §3) that are counted, by its calls: what slice was lent, and what stood in
//! the table that was written.

use second::machine::table::{Source, Table};
use umbraconga::RECORDS_MOST;

use crate::writing::Answer;

/// The cases, each as it is printed.
pub const CASES: [&str; 12] = [
    "slice of exactly the output's length",
    "slice one byte too short",
    "slice longer than the output",
    "empty slice where there is something to write",
    "table with a fault and a slice too short: 14 before 17",
    "session that is leaving, which is not written",
    "session with a maximum of 0",
    "session with a maximum",
    "path of 1 link",
    "path of 8 links",
    "output without a byte",
    "output of 992 bytes",
];

/// How many calls met each of the cases.
pub type Met = [u64; CASES.len()];

/// The cases that a call met, on this table with so many bytes to write and a slice of this length.
pub fn met(table: &Table, size: usize, length: usize, answer: Answer) -> Met {
    let written = answer.is_ok();
    let active = || table.sources.iter().filter(|source| source.is_active());
    let some = |which: fn(&Source) -> bool| written && active().any(which);
    let cases = [
        written && length == size && size > 0,
        answer == Err((17, 0)) && length + 1 == size,
        written && length > size,
        answer == Err((17, 0)) && length == 0,
        answer == Err((14, 0)) && length < size,
        written && has_leaving(table),
        some(|source| source.maximum == 0),
        some(|source| source.maximum > 0),
        some(|source| source.length == 1),
        some(|source| source.length == 8),
        answer == Ok(0),
        answer == Ok(RECORDS_MOST as u64),
    ];
    cases.map(u64::from)
}

// Whether a session is not active and still has a packet in flight or an entry at a link.
fn has_leaving(table: &Table) -> bool {
    let sources = table.sources.iter().enumerate();
    let mut gone = sources.filter(|(_, source)| !source.is_active());
    gone.any(|(session, _)| {
        let mut packets = table.packets.iter();
        packets.any(|packet| packet.session == session as u64)
            || table.links.iter().any(|link| link.holds(session))
    })
}
