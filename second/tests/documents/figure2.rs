//! 001, Figure 2, and 01, "Added here", rule by rule: what a step at a link sends and leaves behind,
//! worked out by hand.

use crate::packets::{
    delivered, handed, leaving, packet, response, sent_by, set_bottleneck, with_rate, Held, OWN,
};
use second::machine::table::{
    BOTTLENECK, IDLE, JOIN, LEAVE, NO, PROBE, TAU_BOTTLENECK, TAU_RESPONSE, TAU_UPDATE, UPDATE,
    WAITING_PROBE, WAITING_RESPONSE, YES,
};

// Figure 2, lines 9 and 10, before line 16: the burst by rising number first, then the Join.
#[test]
fn join_updates_idle_members_above_b() {
    let held = [
        Held::R(IDLE, (4, 1)),
        Held::R(WAITING_RESPONSE, (9, 1)),
        Held::R(IDLE, (3, 1)),
        Held::Nowhere,
    ];
    let table = handed(12, &held);
    // B = 12 / 4 = 3: session 0 is above, session 1 is not idle, session 2 has exactly B.
    let machine = delivered(table, with_rate(JOIN, 3, 1, (100, 1), OWN));
    let expected = [packet(UPDATE, 0, 0), with_rate(JOIN, 3, 2, (3, 1), 0)];
    assert_eq!(machine.table.packets, expected);
    assert_eq!(machine.table.links[0].r, 0b1111);
    let states = machine.table.links[0].entries.map(|entry| entry.state);
    let expected = [WAITING_PROBE, WAITING_RESPONSE, IDLE, WAITING_RESPONSE];
    assert_eq!(states[..4], expected);
    // An entry starts with rate 0/1.
    assert_eq!(machine.rate_at(0, 3), (0, 1));
}

// Figure 2, line 5 says "at least": a member of F with exactly B returns to R.
#[test]
fn f_check_takes_a_member_with_exactly_b() {
    let table = handed(10, &[Held::F(IDLE, (5, 1)), Held::Nowhere]);
    // B = (10 - 5) / 1 = 5, then 10 / 2 = 5: nobody is above it.
    let machine = delivered(table, with_rate(JOIN, 1, 1, (100, 1), OWN));
    assert_eq!(machine.table.links[0].r, 0b11);
    assert_eq!(machine.table.links[0].f, 0);
    assert_eq!(machine.table.packets, [with_rate(JOIN, 1, 2, (5, 1), 0)]);
}

// Figure 2, lines 5 to 8: the highest first, B anew each time. B is 0, then (12 - 6) / 2 = 3, then
// 11/3, which the last member of F with its 1 is below; all at once would take it as well.
#[test]
fn f_check_goes_from_the_highest() {
    let held = [
        Held::F(IDLE, (1, 1)),
        Held::F(IDLE, (5, 1)),
        Held::F(IDLE, (6, 1)),
        Held::Nowhere,
    ];
    let machine = delivered(handed(12, &held), with_rate(JOIN, 3, 1, (100, 1), OWN));
    assert_eq!(machine.table.links[0].r, 0b1110);
    assert_eq!(machine.table.links[0].f, 0b0001);
    let expected = [
        packet(UPDATE, 1, 0),
        packet(UPDATE, 2, 0),
        with_rate(JOIN, 3, 2, (11, 3), 0),
    ];
    assert_eq!(machine.table.packets, expected);
}

// Figure 2, lines 32 to 34: a Probe does the F check only if the session was in F.
#[test]
fn probe_checks_f_only_from_f() {
    // B = (10 - 6) / 1 = 4 is below the 6 in F, and yet nothing moves.
    let held = [Held::R(IDLE, (9, 1)), Held::F(IDLE, (6, 1))];
    let machine = delivered(handed(10, &held), with_rate(PROBE, 0, 1, (100, 1), OWN));
    assert_eq!(machine.table.links[0].f, 0b10);
    assert_eq!(machine.table.packets, [with_rate(PROBE, 0, 2, (4, 1), 0)]);
    assert_eq!(machine.table.links[0].entries[0].state, WAITING_RESPONSE);
    // From F: B = (10 - 6) / 1 = 4, so session 1 returns; B = 10 / 2 = 5, below session 1's 6.
    let held = [Held::F(IDLE, (2, 1)), Held::F(IDLE, (6, 1))];
    let machine = delivered(handed(10, &held), with_rate(PROBE, 0, 1, (3, 1), OWN));
    assert_eq!(machine.table.links[0].r, 0b11);
    let expected = [packet(UPDATE, 1, 0), with_rate(PROBE, 0, 2, (3, 1), OWN)];
    assert_eq!(machine.table.packets, expected);
}

// Figure 2, lines 15 and 35 say "above": a rate of exactly B keeps the name that it came with.
#[test]
fn a_rate_of_exactly_b_keeps_its_name() {
    let table = handed(10, &[Held::Nowhere]);
    let sent = sent_by(table, with_rate(JOIN, 0, 1, (10, 1), OWN));
    assert_eq!(sent, [with_rate(JOIN, 0, 2, (10, 1), OWN)]);
}

// Figure 2, line 19 and line 28.
#[test]
fn response_with_update_waits_for_a_probe() {
    let held = [Held::R(WAITING_RESPONSE, (0, 1))];
    let machine = delivered(handed(10, &held), response(TAU_UPDATE, 0, 1, (10, 1), 0));
    // Line 25 is not reached, although the packet's rate is B.
    assert_eq!(
        machine.table.packets,
        [response(TAU_UPDATE, 0, 0, (10, 1), 0)]
    );
    assert_eq!(machine.table.links[0].entries[0].state, WAITING_PROBE);
    assert_eq!(machine.rate_at(0, 0), (0, 1));
}

// Figure 2, lines 21 to 24, with B = 10 / 2 = 5 and another member of R that is not idle.
#[test]
fn response_agrees_or_turns_into_update() {
    let cases = [
        // Names this link: only exactly B agrees.
        ((5, 1), 0, true),
        ((4, 1), 0, false),
        ((6, 1), 0, false),
        // Names another, or the own line: at most B agrees.
        ((5, 1), 9, true),
        ((9, 2), 9, true),
        ((11, 2), 9, false),
        ((1, 3), OWN, true),
        ((16, 3), OWN, false),
    ];
    for (rate, named, agrees) in cases {
        let held = [
            Held::R(WAITING_RESPONSE, (0, 1)),
            Held::R(WAITING_PROBE, (5, 1)),
        ];
        let machine = delivered(handed(10, &held), response(TAU_RESPONSE, 0, 1, rate, named));
        let entry = machine.table.links[0].entries[0];
        let (tau, state, kept) = if agrees {
            (TAU_RESPONSE, IDLE, rate)
        } else {
            (TAU_UPDATE, WAITING_PROBE, (0, 1))
        };
        assert_eq!(machine.table.packets, [response(tau, 0, 0, rate, named)]);
        assert_eq!((entry.state, (entry.num, entry.den)), (state, kept));
    }
}

// Figure 2, lines 25 to 28: a Bottleneck to every other member of R first, then the Response.
#[test]
fn response_makes_a_bottleneck() {
    let held = [
        Held::R(IDLE, (3, 1)),
        Held::R(WAITING_RESPONSE, (0, 1)),
        Held::F(IDLE, (1, 1)),
        Held::R(IDLE, (3, 1)),
    ];
    // B = (10 - 1) / 3 = 3. The packet names link 7 and agrees.
    let sent = sent_by(handed(10, &held), response(TAU_RESPONSE, 1, 1, (3, 1), 7));
    let expected = [
        packet(BOTTLENECK, 0, 0),
        packet(BOTTLENECK, 3, 0),
        response(TAU_BOTTLENECK, 1, 0, (3, 1), 0),
    ];
    assert_eq!(sent, expected);
}

// A Response that another link made a BOTTLENECK is tested here as well (lines 21 to 24).
#[test]
fn a_bottleneck_response_may_turn_into_update() {
    let held = [
        Held::R(WAITING_RESPONSE, (0, 1)),
        Held::R(WAITING_PROBE, (5, 1)),
    ];
    let sent = sent_by(handed(10, &held), response(TAU_BOTTLENECK, 0, 1, (6, 1), 9));
    assert_eq!(sent, [response(TAU_UPDATE, 0, 0, (6, 1), 9)]);
    let sent = sent_by(handed(10, &held), response(TAU_BOTTLENECK, 0, 1, (5, 1), 9));
    assert_eq!(sent, [response(TAU_BOTTLENECK, 0, 0, (5, 1), 9)]);
}

// Figure 2, lines 38 to 40.
#[test]
fn update_at_a_link() {
    let table = handed(10, &[Held::F(IDLE, (2, 1))]);
    let machine = delivered(table, packet(UPDATE, 0, 1));
    assert_eq!(machine.table.packets, [packet(UPDATE, 0, 0)]);
    assert_eq!(machine.table.links[0].entries[0].state, WAITING_PROBE);
    let table = handed(10, &[Held::R(WAITING_RESPONSE, (2, 1))]);
    assert_eq!(sent_by(table, packet(UPDATE, 0, 1)), []);
}

// Figure 2, lines 42 and 43.
#[test]
fn bottleneck_at_a_link() {
    let cases = [
        (Held::R(IDLE, (2, 1)), vec![packet(BOTTLENECK, 0, 0)]),
        (Held::F(IDLE, (2, 1)), vec![]),
        (Held::R(WAITING_PROBE, (2, 1)), vec![]),
    ];
    for (held, expected) in cases {
        let table = handed(10, &[held]);
        assert_eq!(sent_by(table, packet(BOTTLENECK, 0, 1)), expected);
    }
}

// Figure 2, lines 46 and 47: TRUE whatever came in; with R empty "for all r in R" holds.
#[test]
fn set_bottleneck_at_a_bottleneck() {
    let table = handed(10, &[Held::R(IDLE, (10, 1))]);
    assert_eq!(
        sent_by(table, set_bottleneck(0, 1, NO)),
        [set_bottleneck(0, 2, YES)]
    );
    let table = handed(10, &[Held::F(IDLE, (4, 1))]);
    assert_eq!(
        sent_by(table, set_bottleneck(0, 1, NO)),
        [set_bottleneck(0, 2, YES)]
    );
}

// Figure 2, lines 48 to 53. B = 16 / 4 = 4: the idle members at B get an Update, then the packet
// goes on with the beta that it came with.
#[test]
fn set_bottleneck_moves_to_f() {
    let held = [
        Held::R(IDLE, (4, 1)),
        Held::R(IDLE, (3, 1)),
        Held::R(WAITING_RESPONSE, (4, 1)),
        Held::R(IDLE, (4, 1)),
    ];
    let machine = delivered(handed(16, &held), set_bottleneck(1, 1, NO));
    let expected = [
        packet(UPDATE, 0, 0),
        packet(UPDATE, 3, 0),
        set_bottleneck(1, 2, NO),
    ];
    assert_eq!(machine.table.packets, expected);
    assert_eq!(machine.table.links[0].r, 0b1101);
    assert_eq!(machine.table.links[0].f, 0b0010);
    assert_eq!(machine.table.links[0].entries[0].state, WAITING_PROBE);
}

// Figure 2, lines 54 and 55, and the case that no line names.
#[test]
fn set_bottleneck_goes_on_or_ends() {
    let others = || Held::R(WAITING_RESPONSE, (0, 1));
    // B = 10 / 2 = 5.
    let table = handed(10, &[Held::R(IDLE, (5, 1)), others()]);
    assert_eq!(
        sent_by(table, set_bottleneck(0, 1, NO)),
        [set_bottleneck(0, 2, NO)]
    );
    let table = handed(10, &[Held::R(IDLE, (6, 1)), others()]);
    assert_eq!(sent_by(table, set_bottleneck(0, 1, YES)), []);
    let table = handed(10, &[Held::R(WAITING_PROBE, (4, 1)), others()]);
    assert_eq!(sent_by(table, set_bottleneck(0, 1, YES)), []);
}

// Figure 2, lines 57 to 62, B as it is before the session is taken out: 16 / 4 = 4.
#[test]
fn leave_at_a_link() {
    let held = [
        Held::R(IDLE, (4, 1)),
        Held::R(IDLE, (4, 1)),
        Held::R(IDLE, (3, 1)),
        Held::R(IDLE, (4, 1)),
    ];
    let machine = delivered(leaving(16, &held, 1), packet(LEAVE, 1, 1));
    let expected = [
        packet(UPDATE, 0, 0),
        packet(UPDATE, 3, 0),
        packet(LEAVE, 1, 2),
    ];
    assert_eq!(machine.table.packets, expected);
    assert_eq!(machine.table.links[0].r, 0b1101);
    assert_eq!(machine.table.links[0].entries[2].state, IDLE);
}

// A Leave of a member of F reads the same B: (12 - 2) / 1 = 10.
#[test]
fn leave_from_f() {
    let held = [Held::R(IDLE, (10, 1)), Held::F(IDLE, (2, 1))];
    let sent = sent_by(leaving(12, &held, 1), packet(LEAVE, 1, 1));
    assert_eq!(sent, [packet(UPDATE, 0, 0), packet(LEAVE, 1, 2)]);
}

// 01, "Added here": a Leave is passed on even by a link without the entry, and updates nobody.
#[test]
fn leave_without_the_entry() {
    let table = leaving(12, &[Held::R(IDLE, (12, 1)), Held::Nowhere], 1);
    let sent = sent_by(table.clone(), packet(LEAVE, 1, 1));
    assert_eq!(sent, [packet(LEAVE, 1, 2)]);
    // The destination takes it and sends nothing.
    assert_eq!(sent_by(table, packet(LEAVE, 1, 2)), []);
}

// 01, "Added here": what is dropped at a link.
#[test]
fn dropped_at_a_link() {
    let kinds = [
        with_rate(PROBE, 0, 1, (9, 1), OWN),
        response(TAU_RESPONSE, 0, 1, (9, 1), OWN),
        packet(UPDATE, 0, 1),
        packet(BOTTLENECK, 0, 1),
        set_bottleneck(0, 1, NO),
    ];
    for dropped in kinds {
        let table = handed(10, &[Held::Nowhere, Held::R(IDLE, (10, 1))]);
        let machine = delivered(table.clone(), dropped);
        assert!(machine.table == table, "{dropped:?}");
    }
    // A Response where the session is not both in R and waiting for it.
    for held in [Held::F(WAITING_RESPONSE, (2, 1)), Held::R(IDLE, (2, 1))] {
        let table = handed(10, &[held]);
        let machine = delivered(table.clone(), response(TAU_RESPONSE, 0, 1, (9, 1), OWN));
        assert!(machine.table == table);
    }
    // A Join at a link that already holds its session.
    let table = handed(10, &[Held::F(IDLE, (2, 1))]);
    let machine = delivered(table.clone(), with_rate(JOIN, 0, 1, (9, 1), OWN));
    assert!(machine.table == table);
}
