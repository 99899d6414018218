//! Random events over a few links and sessions: joins, changes, leaves, deliveries in and out of turn,
//! maxima above the access rate, and damaged bytes.

use crate::common::{change, deliver, leave, link, session, Random};
use second::machine::table::{Packet, Table};
use second::making::{held_access, maximum_above, Turn};

/// The links and sessions of a run, and what it has met.
pub struct World {
    pub random: Random,
    pub links: Vec<u8>,
    sessions: Vec<u8>,
    turn: Turn,
    largest_rate: u32,
}

pub fn world(mut random: Random, most_links: usize, most_sessions: usize) -> World {
    let mut numbers: Vec<u8> = (0..64).collect();
    let links = (0..1 + random.under(most_links))
        .map(|_| numbers.swap_remove(random.under(numbers.len())))
        .collect();
    let mut numbers: Vec<u8> = (0..32).collect();
    let sessions: Vec<u8> = (0..1 + random.under(most_sessions))
        .map(|_| numbers.swap_remove(random.under(numbers.len())))
        .collect();
    let turn = match random.under(6) {
        0 | 1 => Turn::Random,
        2 => Turn::EarliestSent,
        3 => Turn::LatestSent,
        4 => Turn::Starving(u64::from(random.one_of(&sessions))),
        _ => Turn::OneWayLast(random.next() % 2),
    };
    World {
        largest_rate: random.one_of(&[6, 30, 1_000_000]),
        random,
        links,
        sessions,
        turn,
    }
}

impl World {
    pub fn rate(&mut self) -> u32 {
        1 + self.random.under(self.largest_rate as usize) as u32
    }

    // None, or one of at most the access rate.
    fn maximum(&mut self, access: u32) -> u32 {
        match self.random.chance(40) {
            true => 0,
            false => self.rate().min(access),
        }
    }

    // 02, §1: this is refused.
    fn above(&mut self, access: u32) -> u32 {
        maximum_above(access, |count| self.random.under(count))
    }

    fn join(&mut self) -> Vec<u8> {
        self.join_with(World::maximum)
    }

    fn join_with(&mut self, maximum: fn(&mut World, u32) -> u32) -> Vec<u8> {
        let number = self.random.one_of(&self.sessions);
        let path = self.random.path(&self.links);
        let access = self.rate();
        session(number, access, maximum(self, access), &path)
    }

    // A new link may be declared at any time; a link twice is refused.
    fn declaration(&mut self) -> Vec<u8> {
        let number = self.random.one_of(&self.links);
        link(number, self.rate())
    }

    fn change(&mut self, table: &Table) -> Vec<u8> {
        self.change_to(World::maximum, table)
    }

    fn change_to(&mut self, maximum: fn(&mut World, u32) -> u32, table: &Table) -> Vec<u8> {
        let number = self.random.one_of(&self.sessions);
        change(number, maximum(self, held_access(table, number)))
    }

    // A position that is in turn, if there is a packet.
    pub fn delivery(&mut self, packets: &[Packet]) -> Option<Vec<u8>> {
        let turn = self.turn;
        turn.position(packets, |choices| self.random.one_of(choices))
            .map(deliver)
    }

    // Any record with a few bytes overwritten, cut off, or followed by others.
    fn damaged(&mut self, table: &Table) -> Vec<u8> {
        let mut bytes = match self.random.under(3) {
            0 => self.join(),
            1 => self.change(table),
            _ => self.delivery(&table.packets).unwrap_or_default(),
        };
        for _ in 0..self.random.under(3) {
            if !bytes.is_empty() {
                let place = self.random.under(bytes.len());
                bytes[place] = self.random.one_of(&[0, 1, 2, 5, 8, 31, 32, 63, 64, 255]);
            }
        }
        if self.random.chance(20) {
            bytes.truncate(self.random.under(bytes.len() + 1));
        }
        bytes
    }

    pub fn event(&mut self, table: &Table) -> Vec<u8> {
        let packets = &table.packets;
        match self.random.under(100) {
            0..=10 => self.join(),
            11 => self.join_with(World::above),
            12..=18 => self.change(table),
            19 => self.change_to(World::above, table),
            20..=25 => leave(self.random.one_of(&self.sessions)),
            26 => self.declaration(),
            27..=29 => deliver(self.random.under(packets.len() + 2)),
            30..=33 => self.damaged(table),
            _ => self.delivery(packets).unwrap_or_else(|| self.join()),
        }
    }
}
