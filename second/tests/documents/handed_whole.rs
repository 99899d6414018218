//! Refusal 14, the clauses on paths, packets, entries and sums.

use crate::common::{deliver, Machine};
use crate::handed::{damaged, each_fails, fails};
use crate::packets::{holding, Held};
use second::machine::table::{
    Packet, Table, BOTTLENECK, DOWN, IDLE, JOIN, LEAVE, PROBE, RESPONSE, SET_BOTTLENECK, UP, UPDATE,
};
use second::machine::{passes_14, Fault};

#[test]
fn path_over_an_undeclared_link() {
    // Unused by entries: session 1 is joining, over link 0 and now also over link 5.
    let table = damaged(|table| {
        table.sources[1].length = 2;
        table.sources[1].path[1] = 5;
    });
    fails(table, Fault::PathOverUndeclaredLink);
    let table = damaged(|table| table.links[1].declared = 0);
    fails(table, Fault::PathOverUndeclaredLink);
}

#[test]
fn path_over_a_link_twice() {
    let table = damaged(|table| {
        table.sources[1].length = 3;
        table.sources[1].path[1] = 1;
        table.sources[1].path[2] = 0;
    });
    fails(table, Fault::PathOverLinkTwice);
}

#[test]
fn packet_off_its_path() {
    let damages: [fn(&mut Table); 5] = [
        // Session 1 has one link: hop 2 is its destination.
        |table| table.packets[1].hop = 3,
        // On the way down the source is not reached.
        |table| table.packets[1].hop = 0,
        // On the way up the destination is not reached.
        |table| {
            table.packets[1].kind = UPDATE;
            table.packets[1].direction = UP;
            table.packets[1].hop = 2;
        },
        // Session 9 never joined.
        |table| table.packets[1].session = 9,
        |table| table.packets[0].hop = 9,
    ];
    each_fails(&damages, Fault::PacketOffItsPath);
}

#[test]
fn packet_going_the_wrong_way() {
    for kind in [JOIN, PROBE, SET_BOTTLENECK, LEAVE] {
        let table = damaged(|table| {
            table.packets[1].kind = kind;
            table.packets[1].direction = UP;
        });
        fails(table, Fault::PacketGoingTheWrongWay);
    }
    for kind in [RESPONSE, UPDATE, BOTTLENECK] {
        let table = damaged(|table| {
            table.packets[1].kind = kind;
            table.packets[1].direction = DOWN;
        });
        fails(table, Fault::PacketGoingTheWrongWay);
    }
}

#[test]
fn session_in_both_sets() {
    let table = damaged(|table| table.links[0].f |= table.links[0].r);
    fails(table, Fault::SessionInBothSets);
}

#[test]
fn entry_off_its_path() {
    // Session 1 crosses link 0 alone; session 9 never joined and has no path.
    for (number, held) in [(1, 1), (0, 9), (40, 0)] {
        let table = damaged(|table| table.links[number].r |= 1 << held);
        fails(table, Fault::EntryOffItsPath);
    }
}

#[test]
fn entry_of_a_gone_session() {
    // The Leave of session 2 is past link 0, so an entry there is left behind.
    let table = damaged(|table| table.links[0].r |= 1 << 2);
    fails(table, Fault::EntryOfAGoneSession);
    // And past link 1 as well, once it is about to reach the destination.
    let table = damaged(|table| table.packets[0].hop = 3);
    fails(table, Fault::EntryOfAGoneSession);
    // Another session's Leave does not count.
    let table = damaged(|table| table.packets[0].session = 0);
    fails(table, Fault::EntryOfAGoneSession);
    // At an earlier hop than the link's it is still to reach it.
    let table = damaged(|table| table.packets[0].hop = 1);
    assert_eq!(passes_14(&table), Ok(()));
}

#[test]
fn sum_past_capacity() {
    let table = |rate| {
        let held = [Held::F(IDLE, (5, 1)), Held::F(IDLE, rate), Held::Nowhere];
        holding(10, &held)
    };
    assert_eq!(passes_14(&table((5, 1))), Ok(()));
    fails(table((16, 3)), Fault::SumPastCapacity);
}

// Members of R may have any rate: only F is summed.
#[test]
fn rates_in_r_do_not_count() {
    let held = [
        Held::R(IDLE, (1_000_000, 1)),
        Held::R(IDLE, (1, 1_048_576)),
        Held::Nowhere,
    ];
    assert_eq!(passes_14(&holding(10, &held)), Ok(()));
}

// 1/1,048,576 + 1/3 has a denominator of 3,145,728; adding 2/3 makes a sum that is fine again, but
// the partial sum by rising session number is not.
#[test]
fn partial_sums_too_fine() {
    let finest = || Held::F(IDLE, (1, 1_048_576));
    let thirds = |num| Held::F(IDLE, (num, 3));
    let table = holding(10, &[finest(), thirds(1), Held::Nowhere]);
    fails(table, Fault::SumsTooFine);
    let table = holding(10, &[finest(), thirds(1), thirds(2)]);
    fails(table, Fault::SumsTooFine);
    // 1/3 + 2/3 = 1 first, and then 1 + 1/1,048,576.
    let table = holding(10, &[thirds(1), thirds(2), finest()]);
    assert_eq!(passes_14(&table), Ok(()));
}

// B = (1 - 1/1,048,576) / 2.
#[test]
fn b_too_fine() {
    let table = |third| {
        let finest = Held::F(IDLE, (1, 1_048_576));
        holding(1, &[finest, Held::R(IDLE, (0, 1)), third])
    };
    assert_eq!(passes_14(&table(Held::Nowhere)), Ok(()));
    fails(table(Held::R(IDLE, (0, 1))), Fault::SumsTooFine);
}

// 12 is tested before 13: the Join makes B too fine, and with its Update one packet too many.
#[test]
fn twelve_before_thirteen() {
    let join = Packet {
        kind: JOIN,
        session: 2,
        hop: 1,
        direction: DOWN,
        num: 100,
        ..Packet::BLANK
    };
    let machine = |rate| {
        let above = Held::R(IDLE, (1_048_575, 1_048_576));
        let mut table = holding(1, &[Held::F(IDLE, rate), above, Held::Nowhere]);
        table.packets = vec![Packet::BLANK; 255];
        table.packets.insert(0, join);
        Machine::with(table)
    };
    machine((1, 1_048_576)).refuse(deliver(0), 12);
    // With a coarse rate in F the same delivery meets 13: B = 1/2, and session 1 is above it.
    machine((0, 1)).refuse(deliver(0), 13);
}
