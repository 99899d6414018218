//! The rows of the program `stack`: each of the library's calls, those of `run` by the record, with the
//! deepest stack that was measured.

use std::sync::atomic::{AtomicU64, AtomicUsize, Ordering};

use crate::timing::markdown::{count, table};
use crate::words::{packet_at, source_at, Words, COUNT};

/// A step, which is one record in a call of its own, must take fewer bytes than this.
pub const STEP_LIMIT: usize = 16_384;

/// A call that is measured.
#[derive(Clone, Copy, Debug, PartialEq, Eq)]
pub enum Row {
    /// A function that does nothing: its return address.
    Nothing,
    /// The calculation.
    Calculate,
    /// A run of no records.
    NoRecords,
    /// A run of one record of kind 1.
    Declare,
    /// A run of one record of kind 2.
    Join,
    /// A run of one record of kind 3.
    Leave,
    /// A run of one record of kind 4.
    Change,
    /// A run of one record of kind 5, whose packet is about to reach a link.
    AtLink,
    /// The same with a source.
    AtSource,
    /// The same with a destination.
    AtDestination,
    /// A run of all the records of an input.
    Run,
    /// The settled question.
    Settled,
    /// How many packets are in flight.
    InFlight,
    /// What a session was told.
    Told,
    /// The empty table.
    Empty,
    /// The records of a table.
    Records,
}

// Each row as it is printed, in the order of the rows.
const ROWS: [(Row, &str); 16] = [
    (Row::Nothing, "a function that does nothing"),
    (Row::Calculate, "`umbraconga_calculate`"),
    (Row::NoRecords, "`umbraconga_run`, the test of 14 alone"),
    (Row::Declare, "`umbraconga_run`, a link is declared"),
    (Row::Join, "`umbraconga_run`, a session joins"),
    (Row::Leave, "`umbraconga_run`, a session leaves"),
    (Row::Change, "`umbraconga_run`, a session's maximum changes"),
    (Row::AtLink, "`umbraconga_run`, a delivery at a link"),
    (Row::AtSource, "`umbraconga_run`, a delivery at a source"),
    (
        Row::AtDestination,
        "`umbraconga_run`, a delivery at a destination",
    ),
    (Row::Run, "`umbraconga_run`, an input of any records"),
    (Row::Settled, "`umbraconga_settled`"),
    (Row::InFlight, "`umbraconga_in_flight`"),
    (Row::Told, "`umbraconga_told`"),
    (Row::Empty, "`umbraconga_empty`"),
    (Row::Records, "`umbraconga_records`"),
];

const STEPS: [Row; 7] = [
    Row::Declare,
    Row::Join,
    Row::Leave,
    Row::Change,
    Row::AtLink,
    Row::AtSource,
    Row::AtDestination,
];

/// The row of one record that is run on a table that passes 14. None where the record has no kind, or
/// is a delivery and there is no such packet.
pub fn row_of(words: &Words, record: &[u8]) -> Option<Row> {
    match *record {
        [1, ..] => Some(Row::Declare),
        [2, ..] => Some(Row::Join),
        [3, ..] => Some(Row::Leave),
        [4, ..] => Some(Row::Change),
        [5, high, low] => delivery(words, u16::from_be_bytes([high, low]).into()),
        _ => None,
    }
}

// By the packet's hop and the length of its session's path.
fn delivery(words: &Words, position: usize) -> Option<Row> {
    if position as u64 >= words[COUNT] {
        return None;
    }
    let at = packet_at(position);
    let (session, hop) = (words[at] as usize, words[at + 1]);
    let hops = words[source_at(session) + 12];
    Some(match hop {
        0 => Row::AtSource,
        _ if hop > hops => Row::AtDestination,
        _ => Row::AtLink,
    })
}

/// The deepest stack of each row, and over how many calls.
#[derive(Default)]
pub struct Deepest {
    bytes: [AtomicUsize; ROWS.len()],
    calls: [AtomicU64; ROWS.len()],
}

impl Deepest {
    /// Nothing measured yet.
    pub const fn new() -> Deepest {
        Deepest {
            bytes: [const { AtomicUsize::new(0) }; ROWS.len()],
            calls: [const { AtomicU64::new(0) }; ROWS.len()],
        }
    }

    /// One call that took so many bytes.
    pub fn note(&self, row: Row, bytes: usize) {
        self.bytes[row as usize].fetch_max(bytes, Ordering::Relaxed);
        self.calls[row as usize].fetch_add(1, Ordering::Relaxed);
    }

    fn bytes(&self, row: Row) -> usize {
        self.bytes[row as usize].load(Ordering::Relaxed)
    }

    fn calls(&self, row: Row) -> u64 {
        self.calls[row as usize].load(Ordering::Relaxed)
    }

    /// The deepest step.
    pub fn step(&self) -> usize {
        STEPS
            .map(|row| self.bytes(row))
            .into_iter()
            .max()
            .unwrap_or(0)
    }

    /// The names of the rows of which no call was measured.
    pub fn not_met(&self) -> Vec<&'static str> {
        let rows = ROWS.iter().filter(|&&(row, _)| self.calls(row) == 0);
        rows.map(|&(_, name)| name).collect()
    }

    /// All rows in Markdown.
    pub fn table(&self) -> String {
        let rows = ROWS.map(|(row, name)| {
            let (bytes, calls) = (self.bytes(row) as u64, self.calls(row));
            vec![name.to_string(), count(bytes), count(calls)]
        });
        table(&["", "deepest stack, bytes", "calls"], &rows)
    }
}

#[cfg(test)]
mod tests {
    use super::{row_of, Deepest, Row, ROWS};
    use crate::words::zeros;
    use second::making::{change, deliver, leave, link, session};
    use umbraconga::Table;

    #[test]
    fn rows_are_in_their_order() {
        for (place, (row, _)) in ROWS.into_iter().enumerate() {
            assert_eq!(row as usize, place);
        }
    }

    #[test]
    fn the_deepest_counts() {
        let deepest = Deepest::new();
        assert_eq!(deepest.not_met().len(), ROWS.len());
        for (row, bytes) in [(Row::Leave, 48), (Row::AtLink, 16), (Row::Calculate, 64)] {
            deepest.note(row, bytes);
            deepest.note(row, 8);
        }
        assert_eq!(deepest.step(), 48);
        assert_eq!(deepest.not_met().len(), ROWS.len() - 3);
    }

    #[test]
    fn records_have_their_rows() {
        let words = zeros();
        assert_eq!(row_of(&words, &link(1, 10)), Some(Row::Declare));
        assert_eq!(row_of(&words, &session(0, 9, 0, &[1])), Some(Row::Join));
        assert_eq!(row_of(&words, &leave(0)), Some(Row::Leave));
        assert_eq!(row_of(&words, &change(0, 1)), Some(Row::Change));
        assert_eq!(row_of(&words, &deliver(0)), None);
        assert_eq!(row_of(&words, &[5, 0]), None);
        assert_eq!(row_of(&words, &[6, 0, 0]), None);
    }

    // A Join goes over the one link to the destination, and its Response comes back to the source.
    #[test]
    fn deliveries_are_told_apart_by_where_the_packet_goes() {
        let mut table = Table::empty();
        let joined = [link(1, 10), session(0, 9, 0, &[1])].concat();
        assert_eq!(table.run(&joined).refused, None);
        for row in [Row::AtLink, Row::AtDestination, Row::AtLink, Row::AtSource] {
            assert_eq!(row_of(table.words(), &deliver(0)), Some(row));
            assert_eq!(table.run(&deliver(0)).refused, None);
        }
    }
}
