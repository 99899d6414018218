//! 001, Figures 3 and 4, rule by rule: what a step at a source or destination sends and leaves
//! behind, worked out by hand.

use crate::common::{change, leave, Machine};
use crate::packets::{
    delivered, handed, leaving, packet, response, sent_by, set_bottleneck, with_rate, Held, OWN,
};
use second::machine::table::{
    Source, Table, BOTTLENECK, IDLE, IN_F, JOIN, LEAVE, LEFT, NO, NOT_IN_F, PROBE, TAU_BOTTLENECK,
    TAU_RESPONSE, TAU_UPDATE, UPDATE, WAITING_RESPONSE, YES,
};

// 01, "Added here": any packet that reaches a source which has left is dropped.
#[test]
fn dropped_at_a_source() {
    let kinds = [
        packet(UPDATE, 0, 0),
        packet(BOTTLENECK, 0, 0),
        response(TAU_BOTTLENECK, 0, 0, (9, 1), 0),
    ];
    for dropped in kinds {
        let table = leaving(10, &[Held::Nowhere], 0);
        let machine = delivered(table.clone(), dropped);
        assert!(machine.table == table);
    }
}

// Figure 4.
#[test]
fn destination_answers() {
    let table = || handed(10, &[Held::R(WAITING_RESPONSE, (0, 1))]);
    let answered = |packet| sent_by(table(), packet);
    let expected = [response(TAU_RESPONSE, 0, 1, (7, 2), 5)];
    assert_eq!(answered(with_rate(JOIN, 0, 2, (7, 2), 5)), expected);
    assert_eq!(answered(with_rate(PROBE, 0, 2, (7, 2), 5)), expected);
    assert_eq!(answered(set_bottleneck(0, 2, NO)), [packet(UPDATE, 0, 1)]);
    assert_eq!(answered(set_bottleneck(0, 2, YES)), []);
}

// A source with rate 7 held, told 6, and D = 100 unless a maximum is set.
fn source_table(state: u64, maximum: u64) -> Table {
    let mut table = handed(10, &[Held::R(IDLE, (7, 1))]);
    let source = &mut table.sources[0];
    source.maximum = maximum;
    source.state = state;
    source.set = IN_F;
    (source.num, source.den) = (7, 1);
    source.told = YES;
    (source.told_num, source.told_den) = (6, 1);
    table
}

// Figure 3, lines 8 and 9: F is empty then. The rates and the path stay.
#[test]
fn leave_at_a_source() {
    let before = source_table(IDLE, 0);
    let mut machine = Machine::with(before.clone());
    machine.take(leave(0));
    assert_eq!(machine.table.packets, [packet(LEAVE, 0, 1)]);
    let left = Source {
        standing: LEFT,
        set: NOT_IN_F,
        ..before.sources[0]
    };
    assert_eq!(machine.table.sources[0], left);
}

// Figure 3, lines 11 to 18: idle, or noted for later. The rates held and told stay.
#[test]
fn change_at_a_source() {
    let mut machine = Machine::with(source_table(IDLE, 0));
    machine.table.sources[0].bneck_rcv = YES;
    machine.table.sources[0].upd_rcv = YES;
    machine.take(change(0, 3));
    assert_eq!(machine.table.packets, [with_rate(PROBE, 0, 1, (3, 1), OWN)]);
    let source = machine.table.sources[0];
    assert_eq!((source.set, source.state), (NOT_IN_F, WAITING_RESPONSE));
    assert_eq!((source.upd_rcv, source.bneck_rcv), (NO, NO));
    assert_eq!((source.num, source.told, source.told_num), (7, YES, 6));

    let mut machine = Machine::with(source_table(WAITING_RESPONSE, 0));
    machine.take(change(0, 3));
    assert_eq!(machine.table.packets, []);
    let source = machine.table.sources[0];
    assert_eq!((source.maximum, source.upd_rcv, source.set), (3, YES, IN_F));
}

// Figure 3, lines 20 to 25. Unlike a change, an Update leaves a noted update noted (line 23).
#[test]
fn update_at_a_source() {
    let mut table = source_table(IDLE, 0);
    table.sources[0].bneck_rcv = YES;
    table.sources[0].upd_rcv = YES;
    let machine = delivered(table, packet(UPDATE, 0, 0));
    assert_eq!(
        machine.table.packets,
        [with_rate(PROBE, 0, 1, (100, 1), OWN)]
    );
    let source = machine.table.sources[0];
    assert_eq!((source.set, source.state), (NOT_IN_F, WAITING_RESPONSE));
    assert_eq!((source.upd_rcv, source.bneck_rcv), (YES, NO));

    let machine = delivered(source_table(WAITING_RESPONSE, 0), packet(UPDATE, 0, 0));
    assert_eq!(machine.table.packets, []);
    assert_eq!(machine.table.sources[0].upd_rcv, YES);
}

// Figure 3, lines 27 to 31, with the rate that the source holds.
#[test]
fn bottleneck_at_a_source() {
    let mut table = source_table(IDLE, 0);
    table.sources[0].set = NOT_IN_F;
    let machine = delivered(table, packet(BOTTLENECK, 0, 0));
    assert_eq!(machine.table.packets, [set_bottleneck(0, 1, NO)]);
    let source = machine.table.sources[0];
    assert_eq!(
        (source.told_num, source.bneck_rcv, source.set),
        (7, YES, IN_F)
    );
    // D = 7: the session stays in R of its own line, and the packet says so.
    let mut table = source_table(IDLE, 7);
    table.sources[0].set = NOT_IN_F;
    let machine = delivered(table, packet(BOTTLENECK, 0, 0));
    assert_eq!(machine.table.packets, [set_bottleneck(0, 1, YES)]);
    assert_eq!(machine.table.sources[0].set, NOT_IN_F);
    // Told already, or not idle: nothing.
    let mut table = source_table(IDLE, 0);
    table.sources[0].bneck_rcv = YES;
    assert_eq!(sent_by(table, packet(BOTTLENECK, 0, 0)), []);
    let table = source_table(WAITING_RESPONSE, 0);
    assert_eq!(sent_by(table, packet(BOTTLENECK, 0, 0)), []);
}

// Figure 3, lines 34 to 37.
#[test]
fn response_starts_a_new_cycle() {
    let probe = [with_rate(PROBE, 0, 1, (100, 1), OWN)];
    let table = source_table(WAITING_RESPONSE, 0);
    let machine = delivered(table, response(TAU_UPDATE, 0, 0, (5, 1), 0));
    assert_eq!(machine.table.packets, probe);
    assert_eq!(machine.table.sources[0].num, 7);
    // A noted update does the same, and is then no longer noted.
    let mut table = source_table(WAITING_RESPONSE, 0);
    table.sources[0].upd_rcv = YES;
    let machine = delivered(table, response(TAU_BOTTLENECK, 0, 0, (5, 1), 0));
    assert_eq!(machine.table.packets, probe);
    let source = machine.table.sources[0];
    assert_eq!((source.upd_rcv, source.told_num), (NO, 6));
}

// Figure 3, lines 38 to 42.
#[test]
fn bottleneck_response_at_a_source() {
    let mut table = source_table(WAITING_RESPONSE, 0);
    table.sources[0].set = NOT_IN_F;
    let machine = delivered(table, response(TAU_BOTTLENECK, 0, 0, (5, 2), 0));
    assert_eq!(machine.table.packets, [set_bottleneck(0, 1, NO)]);
    let source = machine.table.sources[0];
    assert_eq!((source.num, source.den, source.state), (5, 2, IDLE));
    assert_eq!((source.told_num, source.told_den), (5, 2));
    assert_eq!((source.set, source.bneck_rcv), (IN_F, YES));
}

// Figure 3, lines 43 to 47: below D nothing is told and nothing sent.
#[test]
fn plain_response_at_a_source() {
    let machine = delivered(
        source_table(WAITING_RESPONSE, 0),
        response(TAU_RESPONSE, 0, 0, (5, 1), 0),
    );
    assert_eq!(machine.table.packets, []);
    let source = machine.table.sources[0];
    assert_eq!((source.num, source.state, source.told_num), (5, IDLE, 6));
    assert_eq!(source.bneck_rcv, NO);
    // D = 5.
    let machine = delivered(
        source_table(WAITING_RESPONSE, 5),
        response(TAU_RESPONSE, 0, 0, (5, 1), OWN),
    );
    assert_eq!(machine.table.packets, [set_bottleneck(0, 1, YES)]);
    let source = machine.table.sources[0];
    assert_eq!((source.told_num, source.bneck_rcv), (5, YES));
}
