//! Whole ways of packets over a path, hop by hop.

use crate::common::{at_rest, deliver, leave, link, plain_session, session, taken, Machine};
use crate::packets::{handed, packet, response, set_bottleneck, with_rate, Held, OWN};
use second::machine::table::{
    Packet, IN_F, JOIN, LEAVE, LEFT, NO, NOT_IN_F, RESPONSE, SET_BOTTLENECK, TAU_BOTTLENECK,
    TAU_RESPONSE, WAITING_PROBE, YES,
};
use second::machine::{passes_14, settled, Fault};

// Delivers these packets one by one, each alone in flight, the first before any delivery and every
// other after the delivery of the one before; after the last one none is left.
fn goes(machine: &mut Machine, expected: [Packet; 6]) {
    for packet in expected {
        assert_eq!(machine.table.packets, [packet]);
        machine.take(deliver(0));
    }
    assert_eq!(machine.table.packets, []);
}

// The six steps of P2, each with what it sends (Figures 2 to 4, all three tasks).
#[test]
fn p2_step_by_step() {
    let mut machine = taken(&[link(0, 10), plain_session(0, &[0])]);
    let expected = [
        with_rate(JOIN, 0, 1, (100, 1), OWN),
        with_rate(JOIN, 0, 2, (10, 1), 0),
        response(TAU_RESPONSE, 0, 1, (10, 1), 0),
        response(TAU_BOTTLENECK, 0, 0, (10, 1), 0),
        set_bottleneck(0, 1, NO),
        set_bottleneck(0, 2, YES),
    ];
    goes(&mut machine, expected);
    // D = 100 is above the rate, so the source has its session in F (Figure 3, line 41).
    assert_eq!(machine.table.sources[0].set, IN_F);
}

// P3: line 48 moves the session to F, and it comes to the source by lines 43 to 47.
#[test]
fn p3_step_by_step() {
    let mut machine = taken(&[link(0, 10), session(0, 7, 0, &[0])]);
    let expected = [
        with_rate(JOIN, 0, 1, (7, 1), OWN),
        with_rate(JOIN, 0, 2, (7, 1), OWN),
        response(TAU_RESPONSE, 0, 1, (7, 1), OWN),
        response(TAU_RESPONSE, 0, 0, (7, 1), OWN),
        set_bottleneck(0, 1, YES),
        set_bottleneck(0, 2, YES),
    ];
    goes(&mut machine, expected);
    assert_eq!(machine.table.sources[0].set, NOT_IN_F);
}

// 01, "Slips to guard against": a leave takes the entries out link by link.
#[test]
fn leave_goes_link_by_link() {
    let mut machine = at_rest(&[link(0, 10), link(1, 20), plain_session(0, &[1, 0])]);
    machine.take(leave(0));
    let held = |machine: &Machine| [1, 0].map(|number: usize| machine.table.links[number].holds(0));
    assert_eq!(held(&machine), [true, true]);
    machine.take(deliver(0));
    assert_eq!(held(&machine), [false, true]);
    machine.take(deliver(0));
    assert_eq!(held(&machine), [false, false]);
    assert_eq!(machine.table.packets, [packet(LEAVE, 0, 3)]);
}

// Packets up and down a path of three links pass every hop in its order.
#[test]
fn hops_of_a_path() {
    let mut machine = taken(&[
        link(8, 30),
        link(5, 20),
        link(7, 10),
        plain_session(0, &[8, 5, 7]),
    ]);
    let mut seen = Vec::new();
    while let Some(packet) = machine.table.packets.first() {
        seen.push((packet.kind, packet.hop, packet.num, packet.named));
        machine.take(deliver(0));
    }
    let expected = [
        (JOIN, 1, 100, OWN),
        (JOIN, 2, 30, 8),
        (JOIN, 3, 20, 5),
        (JOIN, 4, 10, 7),
        (RESPONSE, 3, 10, 7),
        (RESPONSE, 2, 10, 7),
        (RESPONSE, 1, 10, 7),
        (RESPONSE, 0, 10, 7),
        (SET_BOTTLENECK, 1, 0, OWN),
        (SET_BOTTLENECK, 2, 0, OWN),
        (SET_BOTTLENECK, 3, 0, OWN),
        (SET_BOTTLENECK, 4, 0, OWN),
    ];
    assert_eq!(seen, expected);
    assert_eq!(settled(&machine.table), Ok(true));
}

// An entry left behind by a Join without a Leave (only from a table handed in), past which the
// session joins anew elsewhere: a burst for it has no hop to go to, and nothing is sent. It takes
// one run, since the table between would not pass 14.
#[test]
fn burst_to_an_entry_left_behind() {
    let mut table = handed(10, &[Held::Nowhere]);
    table.links[1].declared = YES;
    table.links[1].capacity = 10;
    table.sources[0].standing = LEFT;
    table.packets.push(with_rate(JOIN, 0, 1, (4, 1), OWN));
    assert_eq!(passes_14(&table), Ok(()));
    let input = [
        // Join to link and destination, Response to link, where the session gets 4, and source.
        vec![deliver(0); 4].concat(),
        plain_session(0, &[1]),
        plain_session(1, &[0]),
        plain_session(2, &[0]),
        // B of link 0 is 10 / 2 = 5, then 10 / 3, below the 4 of the entry left behind.
        deliver(1),
        deliver(1),
    ]
    .concat();
    let ran = second::machine::run(&mut table, &input);
    assert_eq!((ran.taken, ran.refused), (9, None));
    assert_eq!(table.links[0].entries[0].state, WAITING_PROBE);
    let expected = [
        with_rate(JOIN, 0, 1, (100, 1), OWN),
        with_rate(JOIN, 1, 2, (5, 1), 0),
        with_rate(JOIN, 2, 2, (10, 3), 0),
    ];
    assert_eq!(table.packets, expected);
    assert_eq!(passes_14(&table), Err(Fault::EntryOffItsPath));
}
