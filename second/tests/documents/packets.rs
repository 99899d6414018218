//! Packets and handed tables for the tests of single steps.

use crate::common::{deliver, Machine};
use second::machine::passes_14;
use second::machine::table::{
    Packet, Table, ACTIVE, DOWN, JOIN, LEAVE, LEFT, PROBE, RESPONSE, SET_BOTTLENECK, UP, YES,
};

pub const OWN: u64 = 64;

pub fn packet(kind: u64, session: u64, hop: u64) -> Packet {
    let direction = match kind {
        JOIN | PROBE | SET_BOTTLENECK | LEAVE => DOWN,
        _ => UP,
    };
    Packet {
        kind,
        session,
        hop,
        direction,
        ..Packet::BLANK
    }
}

pub fn with_rate(kind: u64, session: u64, hop: u64, (num, den): (u64, u64), named: u64) -> Packet {
    Packet {
        num,
        den,
        named,
        ..packet(kind, session, hop)
    }
}

pub fn response(tau: u64, session: u64, hop: u64, rate: (u64, u64), named: u64) -> Packet {
    Packet {
        tau,
        ..with_rate(RESPONSE, session, hop, rate, named)
    }
}

pub fn set_bottleneck(session: u64, hop: u64, beta: u64) -> Packet {
    Packet {
        beta,
        ..packet(SET_BOTTLENECK, session, hop)
    }
}

// A table with active sessions 0 and on over link 0 of this capacity, each with a place there.
pub enum Held {
    R(u64, (u64, u64)),
    F(u64, (u64, u64)),
    Nowhere,
}

pub fn holding(capacity: u64, held: &[Held]) -> Table {
    let mut table = Table::empty();
    table.links[0].declared = YES;
    table.links[0].capacity = capacity;
    for (number, place) in held.iter().enumerate() {
        let source = &mut table.sources[number];
        source.standing = ACTIVE;
        source.access = 100;
        source.length = 1;
        source.path[0] = 0;
        let link = &mut table.links[0];
        let (word, state, rate) = match *place {
            Held::R(state, rate) => (&mut link.r, state, rate),
            Held::F(state, rate) => (&mut link.f, state, rate),
            Held::Nowhere => continue,
        };
        *word |= 1 << number;
        link.entries[number].state = state;
        (link.entries[number].num, link.entries[number].den) = rate;
    }
    table
}

// Such a table that passes 14.
pub fn handed(capacity: u64, held: &[Held]) -> Table {
    let table = holding(capacity, held);
    assert_eq!(passes_14(&table), Ok(()));
    table
}

// Such a table, which this session has then left.
pub fn leaving(capacity: u64, held: &[Held], session: usize) -> Table {
    let mut table = handed(capacity, held);
    table.sources[session].standing = LEFT;
    table
}

// A machine with this table and one packet in flight.
pub fn with_packet(mut table: Table, packet: Packet) -> Machine {
    table.packets.push(packet);
    Machine::with(table)
}

pub fn sent_by(table: Table, packet: Packet) -> Vec<Packet> {
    delivered(table, packet).table.packets
}

pub fn delivered(table: Table, packet: Packet) -> Machine {
    let mut machine = with_packet(table, packet);
    machine.take(deliver(0));
    machine
}
