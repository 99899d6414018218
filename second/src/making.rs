//! Records as bytes (01, "Records"), the choice of the packet to deliver, and numbers at the limits: what all share that try
//! this implementation or compare with it.

use crate::machine::table::{Packet, Table};
use crate::records::RATE_LIMIT;

/// Numbers at the limits of the fields, and next to them.
pub const ODD_NUMBERS: [u64; 24] = [
    0,
    1,
    2,
    3,
    4,
    5,
    6,
    7,
    8,
    9,
    10,
    31,
    32,
    63,
    64,
    255,
    256,
    1_000_000,
    1_000_001,
    1_048_576,
    1_048_577,
    1 << 32,
    u64::MAX - 1,
    u64::MAX,
];

/// How many bytes a record of this kind has.
pub fn record_bytes(kind: u8) -> usize {
    match kind {
        1 | 4 => 6,
        2 => 19,
        3 => 2,
        _ => 3,
    }
}

/// Kind 1: declare a link.
pub fn link(number: u8, capacity: u32) -> Vec<u8> {
    [&[1, number][..], &capacity.to_be_bytes()].concat()
}

/// Kind 2: a session, with the unused link bytes 255. A path longer than eight is cut in the record,
/// not in its length byte.
pub fn session(number: u8, access: u32, maximum: u32, path: &[u8]) -> Vec<u8> {
    let mut links = [255; 8];
    for (place, &on) in links.iter_mut().zip(path) {
        *place = on;
    }
    let mut bytes = vec![2, number];
    bytes.extend(access.to_be_bytes());
    bytes.extend(maximum.to_be_bytes());
    bytes.push(path.len() as u8);
    bytes.extend(links);
    bytes
}

/// Kind 3: leave.
pub fn leave(number: u8) -> Vec<u8> {
    vec![3, number]
}

/// Kind 4: change.
pub fn change(number: u8, maximum: u32) -> Vec<u8> {
    [&[4, number][..], &maximum.to_be_bytes()].concat()
}

/// Kind 5: deliver.
pub fn deliver(position: usize) -> Vec<u8> {
    [&[5][..], &(position as u16).to_be_bytes()].concat()
}

/// The access rate that the table holds of a session, within the limits also where the table's field is
/// not: what a change's maximum is held to (02, §1).
pub fn held_access(table: &Table, number: u8) -> u32 {
    let access = table.sources[usize::from(number)].access;
    access.clamp(1, RATE_LIMIT) as u32
}

/// A maximum above this access rate, which is refused 16 (02, §1), or 5 where it is past the limit as
/// well: one above it, with a zero too many, or any larger one. `under` gives a number under another.
pub fn maximum_above(access: u32, mut under: impl FnMut(usize) -> usize) -> u32 {
    let above_limit = RATE_LIMIT as usize + 1;
    match under(3) {
        0 => access + 1,
        1 => access * 10,
        _ => access + 1 + under(above_limit - access as usize) as u32,
    }
}

/// Whether no earlier packet has the same session, hop and direction (01, "Added here").
pub fn is_in_turn(packets: &[Packet], position: usize) -> bool {
    let whereabouts = |packet: &Packet| (packet.session, packet.hop, packet.direction);
    let here = whereabouts(&packets[position]);
    packets[..position]
        .iter()
        .all(|earlier| whereabouts(earlier) != here)
}

/// How the next packet to deliver is chosen, one way for a whole run.
#[derive(Clone, Copy)]
pub enum Turn {
    /// Any packet that is in turn.
    Random,
    /// The one that was sent first.
    EarliestSent,
    /// The one that was sent last.
    LatestSent,
    /// Packets of one session wait until there are no others.
    Starving(u64),
    /// Packets on one way wait until there are no others.
    OneWayLast(u64),
}

impl Turn {
    /// The position of a packet that is in turn, if there is one; `pick` chooses where the turn leaves
    /// a choice.
    pub fn position(
        self,
        packets: &[Packet],
        pick: impl FnOnce(&[usize]) -> usize,
    ) -> Option<usize> {
        let waits = |&position: &usize| match self {
            Turn::Starving(session) => packets[position].session == session,
            Turn::OneWayLast(direction) => packets[position].direction == direction,
            _ => false,
        };
        let in_turn = (0..packets.len()).filter(|&position| is_in_turn(packets, position));
        let (last, first): (Vec<usize>, Vec<usize>) = in_turn.partition(waits);
        let choices = if first.is_empty() { last } else { first };
        match (self, choices.as_slice()) {
            (_, []) => None,
            (Turn::EarliestSent, choices) => Some(choices[0]),
            (Turn::LatestSent, choices) => Some(choices[choices.len() - 1]),
            (_, choices) => Some(pick(choices)),
        }
    }
}
