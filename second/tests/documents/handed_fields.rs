//! Refusal 14, the first two clauses: fields outside their range, rates not in lowest terms; and
//! what is not looked at.

use crate::common::{deliver, link, session, Machine};
use crate::handed::{damaged, each_fails, fails, sound};
use crate::packets::packet;
use second::machine::table::{
    Packet, Table, BOTTLENECK, JOIN, LEAVE, PROBE, RESPONSE, SET_BOTTLENECK, UPDATE,
};
use second::machine::{passes_14, settled, Fault};

#[test]
fn fields_of_links_outside_their_range() {
    let damages: [fn(&mut Table); 9] = [
        |table| table.links[0].declared = 2,
        |table| table.links[63].declared = u64::MAX,
        |table| table.links[0].capacity = 0,
        |table| table.links[0].capacity = 1_000_001,
        |table| table.links[0].r |= 1 << 32,
        |table| table.links[0].f |= 1 << 63,
        |table| table.links[40].r = 1 << 32,
        |table| table.links[0].entries[0].state = 3,
        |table| table.links[1].entries[0].state = 7,
    ];
    each_fails(&damages, Fault::FieldOutsideRange);
}

#[test]
fn fields_of_sources_outside_their_range() {
    let damages: [fn(&mut Table); 17] = [
        |table| table.sources[0].standing = 3,
        |table| table.sources[31].standing = 99,
        |table| table.sources[0].access = 0,
        |table| table.sources[0].access = 1_000_001,
        |table| table.sources[0].maximum = 1_000_001,
        |table| table.sources[0].length = 0,
        |table| table.sources[0].length = 9,
        |table| table.sources[0].length = u64::MAX,
        |table| table.sources[0].path[1] = 64,
        |table| table.sources[0].path[0] = 200,
        |table| table.sources[0].set = 2,
        |table| table.sources[0].state = 3,
        |table| table.sources[0].upd_rcv = 2,
        |table| table.sources[0].bneck_rcv = 2,
        |table| table.sources[0].told = 2,
        // A source that has left is looked at like an active one.
        |table| table.sources[2].access = 0,
        |table| table.sources[2].path[0] = 255,
    ];
    each_fails(&damages, Fault::FieldOutsideRange);
}

#[test]
fn fields_of_packets_outside_their_range() {
    let damages: [fn(&mut Table); 12] = [
        |table| table.packets[0].kind = 7,
        |table| table.packets[0].session = 32,
        |table| table.packets[0].hop = 10,
        |table| table.packets[0].hop = 99,
        |table| table.packets[0].direction = 5,
        // What the second packet carries as a Join, and as the other kinds that carry something.
        |table| table.packets[1].named = 65,
        |table| table.packets[1] = odd(PROBE, |packet| packet.named = 65),
        |table| table.packets[1] = odd(PROBE, |packet| packet.den = 0),
        |table| table.packets[1] = odd(RESPONSE, |packet| packet.named = 65),
        |table| table.packets[1] = odd(RESPONSE, |packet| packet.tau = 3),
        |table| table.packets[1] = odd(RESPONSE, |packet| packet.den = 0),
        |table| table.packets[1] = odd(SET_BOTTLENECK, |packet| packet.beta = 2),
    ];
    each_fails(&damages, Fault::FieldOutsideRange);
}

// A packet of session 1 about to reach its link, with one field as it should not be.
fn odd(kind: u64, damage: fn(&mut Packet)) -> Packet {
    let mut odd = packet(kind, 1, 1);
    damage(&mut odd);
    odd
}

// The fields that a kind does not carry are not looked at: such a packet is delivered like a blank one.
#[test]
fn nothing_is_asked_of_what_a_kind_does_not_carry() {
    let no_rate = |packet: &mut Packet| (packet.num, packet.den, packet.named) = (6, 0, 65);
    for kind in [
        JOIN,
        PROBE,
        RESPONSE,
        UPDATE,
        BOTTLENECK,
        SET_BOTTLENECK,
        LEAVE,
    ] {
        let blank = packet(kind, 1, 1);
        let mut odd = blank;
        if !blank.carries_rate() {
            no_rate(&mut odd);
        }
        if kind != RESPONSE {
            odd.tau = 9;
        }
        if kind != SET_BOTTLENECK {
            odd.beta = 9;
        }
        let deliver_last = |last: Packet| {
            let table = damaged(|table| table.packets[1] = last);
            assert_eq!(passes_14(&table), Ok(()));
            let mut machine = Machine::with(table);
            machine.take(deliver(1));
            machine.table
        };
        assert!(deliver_last(odd) == deliver_last(blank), "kind {kind}");
    }
}

#[test]
fn more_than_256_packets() {
    let with_packets = |count: usize| {
        let mut table = sound();
        while table.packets.len() < count {
            table.packets.push(Packet::BLANK);
        }
        table
    };
    assert_eq!(passes_14(&with_packets(256)), Ok(()));
    fails(with_packets(257), Fault::FieldOutsideRange);
}

// Writes one rate in each place where a table has one.
fn with_rate_everywhere(num: u64, den: u64) -> [Table; 4] {
    let write: [fn(&mut Table, u64, u64); 4] = [
        |table, num, den| {
            let entry = &mut table.links[1].entries[0];
            (entry.num, entry.den) = (num, den);
        },
        |table, num, den| {
            let source = &mut table.sources[0];
            (source.num, source.den) = (num, den);
        },
        |table, num, den| {
            let source = &mut table.sources[0];
            (source.told_num, source.told_den) = (num, den);
        },
        |table, num, den| {
            let packet = &mut table.packets[1];
            (packet.num, packet.den) = (num, den);
        },
    ];
    write.map(|write| damaged(|table| write(table, num, den)))
}

#[test]
fn rates_outside_their_range() {
    let rates = [
        (1, 0),
        (0, 0),
        (1, 1_048_577),
        (1_000_001, 1),
        (2_000_001, 2),
        (u64::MAX, 1),
        (1, u64::MAX),
    ];
    for (num, den) in rates {
        for table in with_rate_everywhere(num, den) {
            fails(table, Fault::FieldOutsideRange);
        }
    }
}

#[test]
fn rates_not_in_lowest_terms() {
    for (num, den) in [(2, 4), (0, 2), (1_048_576, 1_048_576)] {
        for table in with_rate_everywhere(num, den) {
            fails(table, Fault::RateNotInLowestTerms);
        }
    }
}

// Session 0 is in F of link 1 (C = 20), so that only a rate of at most 20 fits there; the other
// places take the largest and the finest rate.
#[test]
fn rates_at_their_limits_pass() {
    for table in &with_rate_everywhere(1_000_000, 1)[1..] {
        assert_eq!(passes_14(table), Ok(()));
    }
    for table in &with_rate_everywhere(1, 1_048_576)[1..] {
        assert_eq!(passes_14(table), Ok(()));
    }
}

// What does not exist is not looked at: the same events give the same packets.
#[test]
fn nothing_is_asked_of_what_does_not_exist() {
    let table = damaged(|table| {
        table.links[40].capacity = u64::MAX;
        table.links[40].entries[3].den = 0;
        table.links[0].entries[9].state = 7;
        table.sources[9].access = u64::MAX;
        table.sources[9].length = 99;
        table.sources[9].path = [200; 8];
        table.sources[9].den = 0;
        table.sources[0].path[7] = 3;
        table.sources[1].told_den = 0;
    });
    assert_eq!(passes_14(&table), Ok(()));
    let (mut plain, mut odd) = (Machine::with(sound()), Machine::with(table));
    for machine in [&mut plain, &mut odd] {
        machine.take(link(40, 5));
        machine.take(session(9, 100, 0, &[40, 0]));
        machine.drain(|_| true);
    }
    assert_eq!(plain.bytes, odd.bytes);
    assert_eq!(settled(&odd.table), Ok(true));
    assert_eq!(plain.table.sources[9], odd.table.sources[9]);
}
