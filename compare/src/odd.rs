//! Two handed tables that pass 14 and that no run from the empty table reaches: one for the order of
//! refusals 12 and 13, one for an entry that is left behind.

use crate::difference::{same, Difference};
use crate::pair::Pair;
use crate::purpose::refuse;
use crate::random::Random;
use crate::tally::Tally;
use crate::words::{entry_at, link_at, packet_at, source_at, zeros, Words, COUNT};
use second::making::{deliver, leave, session};

/// Both of them.
pub fn odd_tables(_: &mut Random, tally: &mut Tally) -> Result<(), Difference> {
    twelve_before_thirteen(tally)?;
    left_behind(tally)
}

// A source over one link with an access rate of 100, a rate of 0/1, and nothing told.
fn put_source(words: &mut Words, session: usize, active: bool) {
    let at = source_at(session);
    words[at] = u64::from(active);
    (words[at + 1], words[at + 9], words[at + 12]) = (100, 1, 1);
}

// The Join of a session about to reach its first link.
fn join_of(session: u64) -> [u64; 8] {
    [session, 1, 1, 0, 100, 1, 64, 0]
}

// Sessions 0 to 2 over link 0 of capacity 1: one in F with this rate, one in R above half of it, and
// one whose Join is about to reach the link; and so many packets more.
fn with_join([num, den]: [u64; 2], more: usize) -> Box<Words> {
    let mut words = zeros();
    words[link_at(0)..link_at(1)].copy_from_slice(&[1, 0b010, 0b001]);
    words[entry_at(0, 0)..entry_at(0, 1)].copy_from_slice(&[0, num, den]);
    words[entry_at(0, 1)..entry_at(0, 2)].copy_from_slice(&[0, 1_048_575, 1_048_576]);
    for number in 0..3 {
        put_source(&mut words, number, true);
    }
    words[packet_at(0)..packet_at(1)].copy_from_slice(&join_of(2));
    for place in 1..=more {
        // An Update of session 0 about to reach its source.
        words[packet_at(place) + 3] = 3;
    }
    words[COUNT] = 1 + more as u64;
    words
}

// The Join makes B too fine (01, "Examples", the handed table), and with the Update that it sends
// besides itself there is one packet too many. With a coarse rate in F only the latter is so.
fn twelve_before_thirteen(tally: &mut Tally) -> Result<(), Difference> {
    let finest = [1, 1_048_576];
    let cases = [
        (finest, 0, 12),
        (finest, 255, 12),
        ([0, 1], 255, 13),
        ([0, 1], 254, 0),
    ];
    for (rate, more, number) in cases {
        let mut pair = Pair::handed(with_join(rate, more));
        refuse(&mut pair, &deliver(0), number, tally)?;
    }
    Ok(())
}

// Session 0 has left, and its Join is about to reach link 0 with no Leave behind it; session 1 is alone
// in R of that link. The Join puts an entry there that nothing takes out.
fn with_late_join() -> Box<Words> {
    let mut words = zeros();
    words[link_at(0)..link_at(1)].copy_from_slice(&[10, 0b010, 0]);
    words[link_at(1)] = 10;
    words[entry_at(0, 1)..entry_at(0, 2)].copy_from_slice(&[0, 10, 1]);
    put_source(&mut words, 0, false);
    put_source(&mut words, 1, true);
    words[packet_at(0)..packet_at(1)].copy_from_slice(&join_of(0));
    words[COUNT] = 1;
    words
}

// All packets are delivered; then session 0 joins over link 1, and when session 1 leaves, link 0 has
// an Update for an entry that is off its session's path. All in one call: between calls such a table
// is refused 14.
fn left_behind(tally: &mut Tally) -> Result<(), Difference> {
    let mut records = drained(Vec::new(), tally)?;
    records.extend(session(0, 100, 0, &[1]));
    records = drained(records, tally)?;
    records.extend(leave(1));
    records = drained(records, tally)?;
    let mut pair = Pair::handed(with_late_join());
    refuse(&mut pair, &records, 0, tally)?;
    let words = pair.words();
    let entry = [words[link_at(0) + 1], words[entry_at(0, 0)], words[COUNT]];
    same(
        "the entry left behind waits for a probe",
        &records,
        entry,
        [1, 1, 0],
    )?;
    refuse(&mut pair, &[], 14, tally)
}

// These records, and deliveries of the packet sent first until none is left.
fn drained(mut records: Vec<u8>, tally: &mut Tally) -> Result<Vec<u8>, Difference> {
    loop {
        let mut pair = Pair::handed(with_late_join());
        refuse(&mut pair, &records, 0, tally)?;
        if pair.second().packets.is_empty() {
            return Ok(records);
        }
        records.extend(deliver(0));
    }
}
