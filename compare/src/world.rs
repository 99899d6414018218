//! Random events over a few links and sessions: joins, changes, leaves, declarations, deliveries in
//! and out of turn, maxima above the access rate, and damaged records.

use second::machine::table::{Packet, Table};

use crate::networks::damage;
use crate::random::Random;
use second::making::{change, deliver, held_access, leave, link, maximum_above, session, Turn};

/// The links and sessions of a run.
pub struct World {
    links: Vec<u8>,
    sessions: Vec<u8>,
    turn: Turn,
    largest_rate: usize,
}

impl World {
    /// A world of at most this many links and sessions.
    pub fn new(random: &mut Random, most_links: usize, most_sessions: usize) -> World {
        let all: Vec<u8> = (0..64).collect();
        let links = random.between(1, most_links);
        let links = random.some_of(&all, links);
        let sessions = random.between(1, most_sessions);
        let sessions = random.some_of(&all[..32], sessions);
        let turn = match random.under(6) {
            0 | 1 => Turn::Random,
            2 => Turn::EarliestSent,
            3 => Turn::LatestSent,
            4 => Turn::Starving(u64::from(random.one_of(&sessions))),
            _ => Turn::OneWayLast(random.number() % 2),
        };
        let largest_rate = random.one_of(&[3, 6, 30, 1_000, 1_000_000]);
        World {
            links,
            sessions,
            turn,
            largest_rate,
        }
    }

    /// The records that declare most of the links; the others may be declared later.
    pub fn declarations(&self, random: &mut Random) -> Vec<u8> {
        let mut bytes = Vec::new();
        for &number in &self.links {
            if random.chance(90) {
                bytes.extend(link(number, self.rate(random)));
            }
        }
        bytes
    }

    fn rate(&self, random: &mut Random) -> u32 {
        random.between(1, self.largest_rate) as u32
    }

    // None, or one up to the access rate; of every twelve one is above it (02, §1).
    fn maximum(&self, random: &mut Random, access: u32) -> u32 {
        match random.under(12) {
            0 => maximum_above(access, |count| random.under(count)),
            1..=5 => 0,
            _ => self.rate(random).min(access),
        }
    }

    fn join(&self, random: &mut Random) -> Vec<u8> {
        let number = random.one_of(&self.sessions);
        let path = random.path(&self.links);
        let access = self.rate(random);
        let maximum = self.maximum(random, access);
        session(number, access, maximum, &path)
    }

    fn change(&self, random: &mut Random, table: &Table) -> Vec<u8> {
        let number = random.one_of(&self.sessions);
        change(number, self.maximum(random, held_access(table, number)))
    }

    /// A delivery that is in turn, if there is a packet.
    pub fn delivery(&self, random: &mut Random, packets: &[Packet]) -> Option<Vec<u8>> {
        self.turn
            .position(packets, |choices| random.one_of(choices))
            .map(deliver)
    }

    fn damaged(&self, random: &mut Random, table: &Table) -> Vec<u8> {
        let mut bytes = match random.under(4) {
            0 => self.join(random),
            1 => self.change(random, table),
            2 => leave(random.one_of(&self.sessions)),
            _ => self.delivery(random, &table.packets).unwrap_or_default(),
        };
        damage(&mut bytes, random);
        if random.chance(20) {
            bytes.truncate(random.under(bytes.len() + 1));
        }
        bytes
    }

    /// The next event on this table.
    pub fn event(&self, random: &mut Random, table: &Table) -> Vec<u8> {
        let packets = &table.packets;
        match random.under(100) {
            0..=11 => self.join(random),
            12..=19 => self.change(random, table),
            20..=25 => leave(random.one_of(&self.sessions)),
            26 => {
                let number = random.one_of(&self.links);
                link(number, self.rate(random))
            }
            27..=29 => deliver(random.under(packets.len() + 2)),
            30..=33 => self.damaged(random, table),
            _ => match self.delivery(random, packets) {
                Some(record) => record,
                None => self.join(random),
            },
        }
    }
}
