//! Refusals 2 to 13 by the machine, each met by a run from an empty table.

use crate::common::{
    at_rest, change, deliver, leave, link, plain_session, refused, session, taken, Machine,
};
use second::machine::table::{Packet, BOTTLENECK, DOWN, UP};
use second::machine::{run, Ran, Table};
use second::texts::steps;

#[test]
fn two_unknown_kinds() {
    for kind in [0, 6, 255] {
        Machine::new().refuse(vec![kind; 20], 2);
    }
}

#[test]
fn three_cut_off() {
    let mut machine = taken(&[link(0, 10), plain_session(0, &[0])]);
    let records = [
        link(1, 1),
        plain_session(1, &[0]),
        leave(0),
        change(0, 1),
        deliver(0),
    ];
    for record in records {
        for length in 1..record.len() {
            machine.refuse(record[..length].to_vec(), 3);
        }
    }
}

#[test]
fn four_numbers_too_high() {
    let mut machine = Machine::new();
    machine.refuse(link(64, 10), 4);
    machine.refuse(plain_session(32, &[0]), 4);
    machine.refuse(leave(32), 4);
    machine.refuse(change(32, 2_000_000), 4);
}

#[test]
fn five_rates_outside_their_range() {
    let mut machine = taken(&[link(0, 10), session(0, 1_000_000, 0, &[0])]);
    machine.refuse(link(1, 0), 5);
    machine.refuse(session(1, 0, 0, &[0]), 5);
    machine.refuse(change(0, 1_000_001), 5);
    // Before 9: session 5 is not active.
    machine.refuse(change(5, 1_000_001), 5);
    machine.take(change(0, 1_000_000));
    machine.take(change(0, 0));
}

#[test]
fn six_damaged_paths() {
    let mut machine = taken(&[link(0, 10), plain_session(0, &[0])]);
    // Before 7: session 0 is active.
    machine.refuse(plain_session(0, &[]), 6);
    machine.refuse(plain_session(1, &[0, 0]), 6);
    machine.refuse(plain_session(1, &[0, 64]), 6);
}

#[test]
fn seven_already_there() {
    let mut machine = at_rest(&[link(0, 10), plain_session(0, &[0])]);
    machine.refuse(link(0, 10), 7);
    // Before 8: link 1 is not declared.
    machine.refuse(plain_session(0, &[1]), 7);
    // A new link may be declared at any time.
    machine.take(link(1, 10));
}

#[test]
fn eight_undeclared_link() {
    let mut machine = taken(&[link(0, 10), plain_session(0, &[0])]);
    machine.refuse(plain_session(1, &[0, 7]), 8);
    machine.take(leave(0));
    // Before 10: packets of session 0 are in flight.
    machine.refuse(plain_session(0, &[7]), 8);
}

#[test]
fn nine_not_active() {
    let mut machine = taken(&[link(0, 10)]);
    machine.refuse(leave(0), 9);
    machine.refuse(change(0, 5), 9);
    machine.take(plain_session(0, &[0]));
    machine.take(leave(0));
    machine.refuse(leave(0), 9);
    machine.refuse(change(0, 5), 9);
}

// A number joins again only when the last of its packets is gone; here the Join and the Leave each
// pass one link and the destination, and the Join's Response is dropped at the link, which the Leave
// has passed: five deliveries.
#[test]
fn ten_still_in_flight() {
    let mut machine = taken(&[link(0, 10), plain_session(0, &[0]), leave(0)]);
    let mut deliveries = 0;
    while !machine.table.packets.is_empty() {
        machine.refuse(plain_session(0, &[0]), 10);
        machine.take(deliver(0));
        deliveries += 1;
    }
    assert_eq!(deliveries, 5);
    machine.take(plain_session(0, &[0]));
}

#[test]
fn eleven_past_the_end_or_out_of_turn() {
    let mut machine = taken(&[link(0, 10)]);
    machine.refuse(deliver(0), 11);
    machine.take(plain_session(0, &[0]));
    machine.refuse(deliver(1), 11);
    machine.refuse(deliver(65_535), 11);
    machine.take(leave(0));
    // The Leave stands behind the Join, at the same hop and going the same way.
    machine.refuse(deliver(1), 11);
    machine.take(plain_session(1, &[0]));
    // The Join of another session is in turn.
    machine.take(deliver(2));
    machine.take(deliver(0));
    // The first Join has gone on, so the Leave is the first at its hop.
    machine.take(deliver(0));
}

// Out of turn is only what stands behind the same session, hop and direction.
#[test]
fn eleven_by_session_hop_and_direction() {
    let links = [link(0, 10), link(1, 20)];
    let mut machine = taken(&links);
    machine.take(plain_session(0, &[1, 0]));
    machine.take(deliver(0));
    machine.take(leave(0));
    // The Join is about to reach hop 2, the Leave hop 1.
    machine.take(deliver(1));
    // Both are about to reach hop 2 now.
    machine.refuse(deliver(1), 11);

    let mut machine = taken(&links);
    machine.take(plain_session(0, &[1, 0]));
    machine.drain(|_| true);
    machine.take(plain_session(1, &[0]));
    machine.take(deliver(0));
    machine.take(leave(0));
    // An Update of session 0 goes up to hop 1, its Leave goes down to hop 1.
    let whereabouts = |packet: &Packet| (packet.session, packet.hop, packet.direction);
    let packets: Vec<_> = machine.table.packets.iter().map(whereabouts).collect();
    assert_eq!(packets, [(0, 1, UP), (1, 2, DOWN), (0, 1, DOWN)]);
    machine.take(deliver(2));
}

const FILLER: u8 = 31;

// The capacity of the link of generation `number`. It rises enough that the rate of each
// generation, which is about a third of it, stays below the next one's.
fn generation_capacity(number: u64) -> u64 {
    4 * number + 1
}

// Session k crosses links k and k+1. It shares link k with a filler and with session k-1, which is
// in F there, so it gets x(k) = (C(k) - x(k-1)) / 2, and is then in F at link k+1. The filler
// leaves, and the Update that this means for session k is never delivered: x(k) stays in F at link
// k+1 while the filler joins again one link further. With x(0) = 1/2 the denominator of x(k) is 2
// to the (k+1)th.
fn generation(machine: &mut Machine, number: u64) {
    let chain = number as u8;
    let of_this = |packet: &Packet| packet.session == number || packet.session == u64::from(FILLER);
    let of_filler = |packet: &Packet| packet.session == u64::from(FILLER);
    let next = generation_capacity(number + 1) as u32;
    machine.take(link(chain + 1, next));
    machine.take(session(chain, 1_000_000, 0, &[chain, chain + 1]));
    machine.drain(of_this);
    machine.take(session(FILLER, 1_000_000, 0, &[chain]));
    machine.drain(of_this);
    machine.take(leave(FILLER));
    machine.drain(of_filler);
}

// x(k) by hand: numerator C(k) * 2^k - the numerator before, which is odd; denominator 2^(k+1).
fn generation_rate(number: u64) -> (u64, u64) {
    let num = (1..=number).fold(1, |before, k| (generation_capacity(k) << k) - before);
    (num, 2 << number)
}

// Twenty generations bring F of link 20 to a denominator of exactly 1,048,576, which is allowed;
// a second member of R there would halve it once more.
fn run_up_to_the_finest_rate() -> Machine {
    let mut machine = taken(&[link(0, 1)]);
    for number in 0..20 {
        generation(&mut machine, number);
        let place = number as usize;
        let expected = generation_rate(number);
        assert_eq!(machine.rate_at(place + 1, place), expected);
        assert_eq!(machine.table.links[place + 1].f, 1 << place);
    }
    machine
}

#[test]
fn twelve_from_an_empty_table() {
    let mut machine = run_up_to_the_finest_rate();
    assert_eq!(machine.rate_at(20, 19).1, 1_048_576);
    machine.take(session(20, 1_000_000, 0, &[20]));
    machine.drain(|packet| packet.session == 20);
    // Alone in R, session 20 gets C - x(19): as fine as F, and still allowed.
    assert_eq!(machine.rate_at(20, 20).1, 1_048_576);
    machine.take(session(FILLER, 1_000_000, 0, &[20]));
    let position = machine.first(|packet| packet.session == u64::from(FILLER));
    machine.refuse(deliver(position.unwrap()), 12);
}

// The same run as one input: the refusal names the place of its record.
#[test]
fn twelve_in_one_input() {
    let mut machine = run_up_to_the_finest_rate();
    machine.take(session(20, 1_000_000, 0, &[20]));
    machine.drain(|packet| packet.session == 20);
    machine.take(session(FILLER, 1_000_000, 0, &[20]));
    let position = machine.first(|packet| packet.session == u64::from(FILLER));
    let place = machine.bytes.len() as u64;
    let input = [machine.bytes, deliver(position.unwrap())].concat();
    let mut table = Table::empty();
    let ran = run(&mut table, &input);
    assert_eq!(ran.refused, refused(12, place));
    assert!(table == machine.table);
    assert!(steps(&input).ends_with(&format!("refused 12 at {place}\n")));
}

// 32 sessions at rest on one link. Session 0 then asks for a rate again and again; each time the
// link finds itself a bottleneck and tells the 31 others, whose packets are left in flight.
fn told_again(machine: &mut Machine) {
    machine.take(change(0, 0));
    machine.drain(|packet| packet.session == 0);
}

fn eight_times_told() -> Machine {
    let mut records = vec![link(0, 32)];
    records.extend((0..32).map(|number| plain_session(number, &[0])));
    let mut machine = at_rest(&records);
    for round in 1..=8 {
        told_again(&mut machine);
        assert_eq!(machine.table.packets.len(), 31 * round);
    }
    let all_bottlenecks = |packet: &Packet| packet.kind == BOTTLENECK;
    assert!(machine.table.packets.iter().all(all_bottlenecks));
    machine
}

// 248 in flight and the Probe: it goes to the link and the destination, and its Response at the
// link would make 31 Bottlenecks more, 280 packets in all.
#[test]
fn thirteen_from_an_empty_table() {
    let mut machine = eight_times_told();
    machine.take(change(0, 0));
    machine.take(deliver(248));
    machine.take(deliver(248));
    machine.refuse(deliver(248), 13);
    assert_eq!(machine.table.packets.len(), 249);
}

// Exactly 256 packets are allowed: eight Leaves on top of the 248.
#[test]
fn thirteen_at_its_limit() {
    let mut machine = eight_times_told();
    for number in 1..=8 {
        machine.take(leave(number));
    }
    assert_eq!(machine.table.packets.len(), 256);
    machine.refuse(leave(9), 13);
    machine.refuse(change(0, 0), 13);
    // A Leave delivered at the link updates the idle members at B, which is more than one packet.
    let of_first = machine.first(|packet| packet.session == 1 && packet.kind != BOTTLENECK);
    machine.refuse(deliver(of_first.unwrap()), 13);
    // The first Bottleneck reaches a source that has left and is dropped; its place is free again.
    machine.take(deliver(0));
    machine.take(leave(9));
    assert_eq!(machine.table.packets.len(), 256);
}

// 9 is tested before 13, and so is 10.
#[test]
fn number_order_with_a_full_list() {
    let mut machine = eight_times_told();
    for number in 1..=8 {
        machine.take(leave(number));
    }
    machine.refuse(leave(8), 9);
    machine.refuse(plain_session(8, &[0]), 10);
    machine.refuse(deliver(256), 11);
}

// A run stops at the refused record and keeps what it took before.
#[test]
fn a_run_reports_what_it_took() {
    let first = [link(0, 10), plain_session(0, &[0]), deliver(0)].concat();
    let input = [first.clone(), deliver(9), deliver(0)].concat();
    let (mut table, mut expected) = (Table::empty(), Table::empty());
    let ran = run(&mut table, &input);
    let stopped = Ran {
        taken: 3,
        refused: refused(11, 28),
    };
    assert_eq!(ran, stopped);
    assert_eq!(run(&mut expected, &first).taken, 3);
    assert!(table == expected);
}

#[test]
fn one_after_fourteen() {
    let long = vec![1; 32_769];
    let mut table = Table::empty();
    assert_eq!(run(&mut table, &long).refused, refused(1, 0));
    table.links[0].declared = 2;
    assert_eq!(run(&mut table, &long).refused, refused(14, 0));
}
