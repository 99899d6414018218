//! 02, §1: a nonzero maximum larger than the session's access rate is refused 16, directly after 7 in a
//! session record and directly after 9 in a change, and a table handed in with one meets 14.

use crate::common::{
    at_rest, calculated, change, deliver, leave, link, plain_session, refused, session, taken,
    Machine,
};
use crate::handed::{damaged, each_fails};
use second::machine::table::{Packet, Table, LEFT, NEVER_JOINED};
use second::machine::{passes_14, settled, Fault};
use second::texts::{shares, steps};

// Access is 100: with a zero too many, the maximum of 90 became 900.
const ACCESS: u32 = 100;
const ABOVE: u32 = 900;

// The refusal of the calculation of this record after links 0 and 1, which take 12 bytes.
fn calculation_refuses(record: Vec<u8>, number: u64) {
    let input = [link(0, 10), link(1, 20), record].concat();
    assert_eq!(calculated(&input).err(), refused(number, 12));
}

// Calculation and machine refuse this record, which declares a session, in the same way.
fn both_refuse(record: Vec<u8>, number: u64) {
    calculation_refuses(record.clone(), number);
    taken(&[link(0, 10), link(1, 20)]).refuse(record, number);
}

// Equal to the access rate, below it, and none; the rate is D, the smaller of both.
#[test]
fn up_to_the_access_rate() {
    for (access, maximum, own_limit) in [
        (100, 100, 100),
        (100, 99, 99),
        (100, 1, 1),
        (100, 0, 100),
        (1, 1, 1),
        (1, 0, 1),
        (1_000_000, 1_000_000, 1_000_000),
    ] {
        let records = [link(0, 1_000_000), session(0, access, maximum, &[0])];
        let text = format!("links 1 sessions 1\n0 {own_limit}/1 own\n");
        assert_eq!(shares(&records.concat()), text);
        let machine = at_rest(&records);
        assert_eq!(machine.rate_at(0, 0), (own_limit, 1));
        assert_eq!(settled(&machine.table), Ok(true));
    }
}

#[test]
fn above_the_access_rate_in_a_session_record() {
    for (access, maximum) in [
        (100, 101),
        (100, 1_000),
        (100, 1_000_000),
        (1, 2),
        (1, 1_000_000),
        (999_999, 1_000_000),
    ] {
        both_refuse(session(0, access, maximum, &[0]), 16);
    }
    // The largest access rate has no maximum above it that is not past the limit.
    both_refuse(session(0, 1_000_000, 1_000_001, &[0]), 5);
}

#[test]
fn a_change_up_to_the_access_rate_and_above() {
    let mut machine = at_rest(&[link(0, 200), plain_session(0, &[0])]);
    machine.refuse(change(0, 101), 16);
    machine.refuse(change(0, 1_000_000), 16);
    // Each is held to the access rate, not to the maximum before.
    for (maximum, own_limit) in [(100, 100), (99, 99), (0, 100), (1, 1), (100, 100)] {
        machine.take(change(0, maximum));
        // Also while the Probe of the change is on its way.
        machine.refuse(change(0, 101), 16);
        machine.drain(|_| true);
        assert_eq!(machine.rate_at(0, 0), (own_limit, 1));
        machine.refuse(change(0, 101), 16);
    }
    // A session that joins again is held to its new access rate.
    machine.take(leave(0));
    machine.drain(|_| true);
    machine.take(session(0, 50, 50, &[0]));
    machine.refuse(change(0, 51), 16);
    machine.refuse(change(0, 100), 16);
    machine.take(change(0, 50));
    // The others are held to theirs.
    machine.take(session(1, 200, 0, &[0]));
    machine.take(change(1, 200));
    machine.refuse(change(1, 201), 16);
}

// Capacities and the rates that sessions get do not matter: the line is the session's own.
#[test]
fn the_capacity_of_a_link_is_no_limit_to_a_maximum() {
    let records = [link(0, 10), session(0, 100, 100, &[0])].concat();
    assert_eq!(shares(&records), "links 1 sessions 1\n0 10/1 link 0\n");
}

// 2 to 5 of the record are tried before: above 1,000,000, or an access rate of 0.
#[test]
fn five_and_sixteen() {
    both_refuse(session(0, ACCESS, 1_000_001, &[0]), 5);
    both_refuse(session(0, 0, ABOVE, &[0]), 5);
    let mut machine = taken(&[link(0, 10), plain_session(0, &[0])]);
    machine.refuse(change(0, 1_000_001), 5);
}

#[test]
fn six_and_sixteen() {
    both_refuse(session(0, ACCESS, ABOVE, &[]), 6);
    both_refuse(session(0, ACCESS, ABOVE, &[0, 0]), 6);
    both_refuse(session(0, ACCESS, ABOVE, &[64]), 6);
}

#[test]
fn seven_and_sixteen() {
    let first = [link(0, 10), plain_session(0, &[0])];
    let above = session(0, ACCESS, ABOVE, &[0]);
    let input = [first.concat(), above.clone()].concat();
    assert_eq!(calculated(&input).err(), refused(7, 25));
    taken(&first).refuse(above, 7);
}

#[test]
fn sixteen_and_eight() {
    both_refuse(session(0, ACCESS, ABOVE, &[5]), 16);
    both_refuse(session(0, ACCESS, ABOVE, &[0, 5]), 16);
    both_refuse(session(0, ACCESS, ACCESS, &[0, 5]), 8);
}

// The session has left, and its Join and Leave are in flight.
#[test]
fn sixteen_and_ten() {
    let mut machine = taken(&[link(0, 10), plain_session(0, &[0]), leave(0)]);
    machine.refuse(session(0, ACCESS, ABOVE, &[0]), 16);
    // With 8 as well.
    machine.refuse(session(0, ACCESS, ABOVE, &[5]), 16);
    machine.refuse(session(0, ACCESS, ACCESS, &[0]), 10);
    machine.drain(|_| true);
    machine.refuse(session(0, ACCESS, ABOVE, &[0]), 16);
    machine.take(session(0, ACCESS, ACCESS, &[0]));
}

// A change of a session that never joined, and of one that has left, above the access rate that its
// source still holds.
#[test]
fn nine_and_sixteen() {
    let mut machine = taken(&[link(0, 10)]);
    machine.refuse(change(0, ABOVE), 9);
    machine.take(plain_session(0, &[0]));
    machine.refuse(change(0, ABOVE), 16);
    machine.take(leave(0));
    assert_eq!(machine.table.sources[0].access, u64::from(ACCESS));
    machine.refuse(change(0, ABOVE), 9);
    machine.drain(|_| true);
    machine.refuse(change(0, ABOVE), 9);
}

// 31 sessions at rest on one link. Session 0 asks for its rate eight times, each time the link tells
// the 30 others, whose packets are left in flight; with 16 Leaves there are 256. Session 31 never
// joined, session 1 has left with packets in flight.
fn full_list() -> Machine {
    let mut records = vec![link(0, 31)];
    records.extend((0..31).map(|number| plain_session(number, &[0])));
    let mut machine = at_rest(&records);
    for _ in 0..8 {
        machine.take(change(0, 0));
        machine.drain(|packet: &Packet| packet.session == 0);
    }
    for number in 1..=16 {
        machine.take(leave(number));
    }
    assert_eq!(machine.table.packets.len(), 256);
    machine
}

#[test]
fn sixteen_and_thirteen() {
    let mut machine = full_list();
    machine.refuse(session(31, ACCESS, ABOVE, &[0]), 16);
    machine.refuse(session(31, ACCESS, ACCESS, &[0]), 13);
    machine.refuse(change(0, ABOVE), 16);
    machine.refuse(change(0, ACCESS), 13);
    // 10 and 13 as well.
    machine.refuse(session(1, ACCESS, ABOVE, &[0]), 16);
    machine.refuse(session(1, ACCESS, ACCESS, &[0]), 10);
}

// A refusal names its record, and what was taken before it stays.
#[test]
fn texts_of_the_programs() {
    let declared = [link(0, 10), session(0, ACCESS, ABOVE, &[0])].concat();
    assert_eq!(shares(&declared), "refused 16 at 6\n");
    let expected = "taken 1 packets 0 settled yes\nrefused 16 at 6\n";
    assert_eq!(steps(&declared), expected);
    let changed = [
        link(0, 10),
        plain_session(0, &[0]),
        deliver(0).repeat(6),
        change(0, ABOVE),
        leave(0),
    ];
    let expected = "taken 8 packets 0 settled yes\n0 10/1\nrefused 16 at 43\n";
    assert_eq!(steps(&changed.concat()), expected);
}

// Session 0 of the sound table is active and at rest, session 1 is joining, session 2 has left, and
// session 9 never joined; the access rate of the three is 100.
#[test]
fn a_handed_table() {
    let damages: [fn(&mut Table); 7] = [
        |table| table.sources[0].maximum = 101,
        |table| table.sources[0].maximum = 1_000_000,
        |table| table.sources[1].maximum = 101,
        |table| table.sources[2].maximum = 101,
        |table| table.sources[2].maximum = 1_000_000,
        // The access rate below the maximum.
        |table| (table.sources[0].access, table.sources[0].maximum) = (1, 2),
        |table| (table.sources[2].access, table.sources[2].maximum) = (999_999, 1_000_000),
    ];
    each_fails(&damages, Fault::MaximumAboveAccess);
}

#[test]
fn a_handed_table_up_to_the_access_rate() {
    let sound: [fn(&mut Table); 6] = [
        |table| table.sources[0].maximum = 100,
        |table| table.sources[1].maximum = 99,
        |table| table.sources[2].maximum = 100,
        |table| (table.sources[0].access, table.sources[0].maximum) = (1, 1),
        |table| (table.sources[2].access, table.sources[2].maximum) = (1, 0),
        |table| (table.sources[0].access, table.sources[0].maximum) = (1_000_000, 1_000_000),
    ];
    for change in sound {
        assert_eq!(passes_14(&damaged(change)), Ok(()));
    }
}

// Of a session that never joined the words are not in use.
#[test]
fn a_handed_table_with_a_session_that_never_joined() {
    let table = damaged(|table| {
        assert_eq!(table.sources[9].standing, NEVER_JOINED);
        (table.sources[9].access, table.sources[9].maximum) = (1, 2);
        table.sources[31].maximum = u64::MAX;
    });
    assert_eq!(passes_14(&table), Ok(()));
    // It joins with an access rate and a maximum of its own.
    let mut machine = Machine::with(table);
    machine.refuse(change(9, 2), 9);
    machine.take(session(9, 2, 2, &[0]));
    machine.refuse(change(9, 3), 16);
}

// A session that has left keeps the maximum that it had, and is looked at by 14 as long as its source
// has the path, also when nothing of it is left elsewhere.
#[test]
fn a_handed_table_with_a_session_that_is_gone() {
    let mut machine = at_rest(&[link(0, 10), session(0, 100, 100, &[0]), leave(0)]);
    assert_eq!(machine.table.sources[0].standing, LEFT);
    assert_eq!(passes_14(&machine.table), Ok(()));
    machine.table.sources[0].maximum = 101;
    assert_eq!(passes_14(&machine.table), Err(Fault::MaximumAboveAccess));
}
