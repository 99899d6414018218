//! Runs from the empty table that meet each of the refusals 1 to 13, built on purpose.

use second::machine::table::{Packet, BOTTLENECK};

use crate::difference::{same, Difference};
use crate::networks::INPUT_BYTES;
use crate::pair::Pair;
use crate::random::Random;
use crate::tally::Tally;
use second::making::{change, deliver, is_in_turn, leave, link, session};

/// The largest rate.
pub const MOST: u32 = 1_000_000;

/// All of them.
pub fn every_refusal(_: &mut Random, tally: &mut Tally) -> Result<(), Difference> {
    for (number, records) in short_runs() {
        let mut pair = Pair::empty();
        let refused = pair.run(&records, tally)?.refused;
        let met = refused.map_or(0, |refused| refused.number);
        same("the refusal that was meant", &records, met, number)?;
    }
    too_fine(tally)?;
    too_many_packets(tally)
}

// The refusal that each run should end in.
fn short_runs() -> Vec<(u64, Vec<u8>)> {
    let declared = link(0, 10);
    let joined = [declared.clone(), session(0, 100, 0, &[0])].concat();
    let left = [joined.clone(), leave(0)].concat();
    let after = |start: &[u8], record: &[u8]| [start, record].concat();
    vec![
        (1, change(0, 1).repeat(INPUT_BYTES / 6 + 1)),
        (2, after(&joined, &[0])),
        (2, after(&joined, &[6; 40])),
        (3, after(&joined, &[1])),
        (3, after(&joined, &[2, 0, 0])),
        (3, after(&joined, &[3])),
        (3, after(&joined, &[4, 0, 0, 0, 0])),
        (3, after(&joined, &[5, 0])),
        (4, after(&joined, &link(64, 0))),
        (4, after(&joined, &session(32, 0, 0, &[]))),
        (4, after(&joined, &leave(32))),
        (4, after(&joined, &change(32, MOST + 1))),
        (5, after(&joined, &link(0, 0))),
        (5, after(&joined, &link(1, MOST + 1))),
        (5, after(&joined, &session(0, 0, 0, &[]))),
        (5, after(&joined, &session(1, MOST + 1, 0, &[0]))),
        (5, after(&joined, &session(1, 1, MOST + 1, &[0]))),
        (5, after(&joined, &change(5, MOST + 1))),
        (6, after(&joined, &session(0, 1, 0, &[]))),
        (6, after(&joined, &session(1, 1, 0, &[0; 9]))),
        (6, after(&joined, &session(1, 1, 0, &[0, 64]))),
        (6, after(&joined, &session(1, 1, 0, &[0, 0]))),
        (7, after(&joined, &declared)),
        (7, after(&joined, &session(0, 1, 0, &[1]))),
        (8, after(&joined, &session(1, 1, 0, &[0, 1]))),
        (8, after(&left, &session(0, 1, 0, &[1]))),
        (9, after(&declared, &leave(0))),
        (9, after(&declared, &change(0, 0))),
        (9, after(&left, &leave(0))),
        (9, after(&left, &change(0, 0))),
        (10, after(&left, &session(0, 1, 0, &[0]))),
        (11, after(&declared, &deliver(0))),
        (11, after(&joined, &deliver(1))),
        (11, after(&joined, &deliver(65_535))),
        (11, after(&left, &deliver(1))),
    ]
}

/// Runs records that both sides take.
pub fn take(pair: &mut Pair, records: &[u8], tally: &mut Tally) -> Result<(), Difference> {
    let refused = pair.run(records, tally)?.refused;
    same("records that should be taken", records, refused, None)
}

/// Runs one record that should meet this refusal, or none where it is 0.
pub fn refuse(
    pair: &mut Pair,
    record: &[u8],
    number: u64,
    tally: &mut Tally,
) -> Result<(), Difference> {
    let refused = pair.run(record, tally)?.refused;
    let met = refused.map_or(0, |refused| refused.number);
    same("the refusal that was meant", record, met, number)
}

// The position of the first chosen packet that is in turn.
fn first(pair: &Pair, chosen: &impl Fn(&Packet) -> bool) -> Option<usize> {
    let packets = &pair.second().packets;
    (0..packets.len()).find(|&position| chosen(&packets[position]) && is_in_turn(packets, position))
}

/// Delivers chosen packets, the earliest sent first, until none is left.
pub fn drain(
    pair: &mut Pair,
    chosen: impl Fn(&Packet) -> bool,
    tally: &mut Tally,
) -> Result<(), Difference> {
    while let Some(position) = first(pair, &chosen) {
        take(pair, &deliver(position), tally)?;
    }
    Ok(())
}

const FILLER: u8 = 31;

// Session k crosses links k and k+1. It shares link k with a filler and with session k-1, which is in
// F there, so it gets half of what that one leaves, and is then in F at link k+1. The filler leaves,
// and the Update that this means for session k is never delivered. So each session's rate is twice
// as fine as that of the one before, and after 20 of them a second member of R makes B too fine.
fn too_fine(tally: &mut Tally) -> Result<(), Difference> {
    let capacity = |link: u8| 4 * u32::from(link) + 1;
    let of = |number: u8| move |packet: &Packet| packet.session == u64::from(number);
    let mut pair = Pair::empty();
    take(&mut pair, &link(0, capacity(0)), tally)?;
    for number in 0..20 {
        let with_filler = |packet: &Packet| of(number)(packet) || of(FILLER)(packet);
        take(&mut pair, &link(number + 1, capacity(number + 1)), tally)?;
        take(
            &mut pair,
            &session(number, MOST, 0, &[number, number + 1]),
            tally,
        )?;
        drain(&mut pair, with_filler, tally)?;
        take(&mut pair, &session(FILLER, MOST, 0, &[number]), tally)?;
        drain(&mut pair, with_filler, tally)?;
        take(&mut pair, &leave(FILLER), tally)?;
        drain(&mut pair, of(FILLER), tally)?;
    }
    take(&mut pair, &session(20, MOST, 0, &[20]), tally)?;
    drain(&mut pair, of(20), tally)?;
    take(&mut pair, &session(FILLER, MOST, 0, &[20]), tally)?;
    // The Join of the filler is the packet sent last.
    let last = pair.second().packets.len() - 1;
    refuse(&mut pair, &deliver(last), 12, tally)?;
    pair.again(&[], tally)
}

// 32 sessions at rest on one link. Session 0 asks for its rate again and again; each time the link
// finds itself a bottleneck and tells the 31 others, whose packets are left in flight.
fn too_many_packets(tally: &mut Tally) -> Result<(), Difference> {
    let mut pair = Pair::empty();
    take(&mut pair, &link(0, 32), tally)?;
    for number in 0..32 {
        take(&mut pair, &session(number, 100, 0, &[0]), tally)?;
    }
    drain(&mut pair, |_| true, tally)?;
    for _ in 0..8 {
        take(&mut pair, &change(0, 0), tally)?;
        drain(&mut pair, |packet| packet.session == 0, tally)?;
    }
    // The Response of a ninth time would make 31 packets more than the 248 in flight.
    let mut ninth = Pair::handed(Box::new(*pair.words()));
    take(&mut ninth, &change(0, 0), tally)?;
    take(&mut ninth, &deliver(248), tally)?;
    take(&mut ninth, &deliver(248), tally)?;
    refuse(&mut ninth, &deliver(248), 13, tally)?;
    // Eight Leaves more fill the list, which is allowed; one more is not, nor is anything that sends.
    for number in 1..=8 {
        take(&mut pair, &leave(number), tally)?;
    }
    refuse(&mut pair, &leave(9), 13, tally)?;
    refuse(&mut pair, &change(0, 0), 13, tally)?;
    let a_leave = |packet: &Packet| packet.session == 1 && packet.kind != BOTTLENECK;
    let at = first(&pair, &a_leave).expect("session 1 has left, and its Leave is in flight");
    refuse(&mut pair, &deliver(at), 13, tally)?;
    refuse(&mut pair, &leave(8), 9, tally)?;
    refuse(&mut pair, &session(8, 100, 0, &[0]), 10, tally)?;
    refuse(&mut pair, &deliver(256), 11, tally)?;
    // The first Bottleneck reaches a source that has left and is dropped: its place is free again.
    take(&mut pair, &deliver(0), tally)?;
    take(&mut pair, &leave(9), tally)?;
    pair.again(&[], tally)
}
