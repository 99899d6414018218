//! Between the table's numbers and the values on which the tasks work. Only for tables that passed
//! the clauses of 14 on ranges: a number outside its range is read as the last case.

use super::table::{
    Entry, Packet, Source, Table, ACTIVE, BOTTLENECK, DOWN, IDLE, IN_F, JOIN, LEAVE, NO, NOT_IN_F,
    PROBE, RESPONSE, SET_BOTTLENECK, TAU_BOTTLENECK, TAU_RESPONSE, TAU_UPDATE, UP, UPDATE,
    WAITING_PROBE, WAITING_RESPONSE, YES,
};
use crate::fraction::Fraction;
use crate::records::{OWN, PATH_LINKS, SESSIONS, UNUSED};
use crate::tasks::{self, Message, Named, Set, State, Tau, Way};

/// The link task's view of a link.
pub fn link_of(table: &Table, number: usize) -> tasks::link::Link {
    let link = &table.links[number];
    let held = (0..SESSIONS)
        .filter(|&session| link.holds(session))
        .map(|session| {
            let entry = &link.entries[session];
            let held = tasks::link::Entry {
                set: if link.f >> session & 1 == 1 {
                    Set::F
                } else {
                    Set::R
                },
                state: state_of(entry.state),
                rate: rate_of(entry.num, entry.den),
            };
            (session, held)
        })
        .collect();
    tasks::link::Link {
        number,
        capacity: link.capacity,
        held,
    }
}

/// Puts a link back. An entry that was taken out becomes blank; places that held none before and
/// hold none now stay as they were.
pub fn put_link(table: &mut Table, link: &tasks::link::Link) {
    let place = &mut table.links[link.number];
    for session in 0..SESSIONS {
        let held = link.held.get(&session);
        if let Some(entry) = held {
            place.entries[session] = entry_numbers(entry);
        } else if place.holds(session) {
            place.entries[session] = Entry::BLANK;
        }
    }
    place.r = word_of(link, Set::R);
    place.f = word_of(link, Set::F);
}

/// The source task's view of an active session's source.
pub fn source_of(source: &Source) -> tasks::source::Source {
    tasks::source::Source {
        access: source.access,
        maximum: source.maximum,
        set: if source.set == NOT_IN_F {
            Set::R
        } else {
            Set::F
        },
        state: state_of(source.state),
        upd_rcv: source.upd_rcv == YES,
        bneck_rcv: source.bneck_rcv == YES,
        rate: rate_of(source.num, source.den),
        told: (source.told == YES).then(|| rate_of(source.told_num, source.told_den)),
    }
}

/// The numbers of an active source with this path. Where no rate was told, its place is 0/1.
pub fn source_numbers(source: &tasks::source::Source, path: &[u64]) -> Source {
    let told = source.told.unwrap_or(Fraction::ZERO);
    let mut places = [u64::from(UNUSED); PATH_LINKS];
    places[..path.len()].copy_from_slice(path);
    Source {
        standing: ACTIVE,
        access: source.access,
        maximum: source.maximum,
        length: path.len() as u64,
        path: places,
        set: match source.set {
            Set::R => NOT_IN_F,
            Set::F => IN_F,
        },
        state: state_number(source.state),
        upd_rcv: flag(source.upd_rcv),
        bneck_rcv: flag(source.bneck_rcv),
        num: part(source.rate.num()),
        den: part(source.rate.den()),
        told: flag(source.told.is_some()),
        told_num: part(told.num()),
        told_den: part(told.den()),
    }
}

/// What a packet says: the fields that its kind carries, and no others.
pub fn message_of(packet: &Packet) -> Message {
    match packet.kind {
        JOIN => {
            let (rate, named) = carried_rate(packet);
            Message::Join { rate, named }
        }
        PROBE => {
            let (rate, named) = carried_rate(packet);
            Message::Probe { rate, named }
        }
        RESPONSE => {
            let (rate, named) = carried_rate(packet);
            let tau = match packet.tau {
                TAU_RESPONSE => Tau::Response,
                TAU_UPDATE => Tau::Update,
                _ => Tau::Bottleneck,
            };
            Message::Response { tau, rate, named }
        }
        UPDATE => Message::Update,
        BOTTLENECK => Message::Bottleneck,
        SET_BOTTLENECK => Message::SetBottleneck {
            beta: packet.beta == YES,
        },
        _ => Message::Leave,
    }
}

fn carried_rate(packet: &Packet) -> (Fraction, Named) {
    let named = if packet.named == OWN {
        Named::Own
    } else {
        Named::Link(packet.named as usize)
    };
    (rate_of(packet.num, packet.den), named)
}

/// A packet that says this and is about to reach `hop`, the fields that it does not need blank.
pub fn packet_of(session: usize, hop: u64, message: Message) -> Packet {
    let mut packet = Packet {
        session: session as u64,
        hop,
        direction: match message.way() {
            Way::Down => DOWN,
            Way::Up => UP,
        },
        ..Packet::BLANK
    };
    match message {
        Message::Join { rate, named } => {
            packet.kind = JOIN;
            put_rate(&mut packet, rate, named);
        }
        Message::Probe { rate, named } => {
            packet.kind = PROBE;
            put_rate(&mut packet, rate, named);
        }
        Message::Response { tau, rate, named } => {
            packet.kind = RESPONSE;
            put_rate(&mut packet, rate, named);
            packet.tau = match tau {
                Tau::Response => TAU_RESPONSE,
                Tau::Update => TAU_UPDATE,
                Tau::Bottleneck => TAU_BOTTLENECK,
            };
        }
        Message::Update => packet.kind = UPDATE,
        Message::Bottleneck => packet.kind = BOTTLENECK,
        Message::SetBottleneck { beta } => {
            packet.kind = SET_BOTTLENECK;
            packet.beta = flag(beta);
        }
        Message::Leave => packet.kind = LEAVE,
    }
    packet
}

fn put_rate(packet: &mut Packet, rate: Fraction, named: Named) {
    packet.num = part(rate.num());
    packet.den = part(rate.den());
    packet.named = match named {
        Named::Own => OWN,
        Named::Link(link) => link as u64,
    };
}

fn entry_numbers(entry: &tasks::link::Entry) -> Entry {
    Entry {
        state: state_number(entry.state),
        num: part(entry.rate.num()),
        den: part(entry.rate.den()),
    }
}

fn word_of(link: &tasks::link::Link, set: Set) -> u64 {
    let members = link.held.iter().filter(|(_, entry)| entry.set == set);
    members.fold(0, |word, (&session, _)| word | 1 << session)
}

fn state_of(number: u64) -> State {
    match number {
        IDLE => State::Idle,
        WAITING_PROBE => State::WaitingProbe,
        _ => State::WaitingResponse,
    }
}

fn state_number(state: State) -> u64 {
    match state {
        State::Idle => IDLE,
        State::WaitingProbe => WAITING_PROBE,
        State::WaitingResponse => WAITING_RESPONSE,
    }
}

fn flag(value: bool) -> u64 {
    if value {
        YES
    } else {
        NO
    }
}

fn rate_of(num: u64, den: u64) -> Fraction {
    Fraction::new(u128::from(num), u128::from(den)).expect("14 shuts out a denominator of 0")
}

// A rate of the table is at most 1,000,000 with a denominator of at most 1,048,576.
fn part(part: u128) -> u64 {
    u64::try_from(part).expect("both parts of a rate are below 2 to the 40th")
}
