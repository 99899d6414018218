//! 01, "Settled: five conditions": each condition broken alone makes the answer no.

use crate::common::{at_rest, link, plain_session, session, Machine};
use second::machine::table::{Packet, Table, NO, WAITING_PROBE, WAITING_RESPONSE, YES};
use second::machine::{passes_14, settled};

// Session 0 alone on link 0: 10/1, in R.
fn p2() -> Table {
    at_rest(&[link(0, 10), plain_session(0, &[0])]).table
}

// Session 0 with access 7: 7/1, in F.
fn p3() -> Table {
    at_rest(&[link(0, 10), session(0, 7, 0, &[0])]).table
}

// The table passes 14, so that the answer is no and not a refusal.
fn not_settled(table: &Table) {
    assert_eq!(passes_14(table), Ok(()));
    assert_eq!(settled(table), Ok(false));
}

fn set_every_rate(table: &mut Table, session: usize, num: u64) {
    let source = &mut table.sources[session];
    source.num = num;
    source.told_num = num;
    for link in &mut table.links {
        if link.holds(session) {
            link.entries[session].num = num;
        }
    }
}

#[test]
fn settled_tables() {
    assert_eq!(settled(&Table::empty()), Ok(true));
    assert_eq!(settled(&p2()), Ok(true));
    assert_eq!(settled(&p3()), Ok(true));
}

#[test]
fn a_packet_in_flight() {
    let mut table = p2();
    table.packets.push(Packet::BLANK);
    not_settled(&table);
}

#[test]
fn b_idle_at_source_and_links() {
    for state in [WAITING_PROBE, WAITING_RESPONSE] {
        let mut table = p2();
        table.sources[0].state = state;
        not_settled(&table);
        let mut table = p2();
        table.links[0].entries[0].state = state;
        not_settled(&table);
    }
}

// The session holds D = 7 everywhere but at its source, or everywhere but at its link, where it is
// in F and any rate would do for (c).
#[test]
fn b_one_same_rate() {
    let mut table = p3();
    table.sources[0].num = 6;
    table.sources[0].told_num = 6;
    table.sources[0].access = 6;
    not_settled(&table);
    let mut table = p3();
    table.links[0].entries[0].num = 5;
    not_settled(&table);
}

#[test]
fn b_an_entry_at_every_link() {
    let records = [link(0, 10), link(1, 20), plain_session(0, &[0, 1])];
    let mut table = at_rest(&records).table;
    assert_eq!(settled(&table), Ok(true));
    assert_eq!(table.links[1].f, 1);
    table.links[1].f = 0;
    not_settled(&table);
}

#[test]
fn b_no_update_noted() {
    let mut table = p2();
    table.sources[0].upd_rcv = YES;
    not_settled(&table);
}

// 9/1 at source and link, told as well: below the link's B = 10.
#[test]
fn c_members_of_r_have_b() {
    let mut table = p2();
    set_every_rate(&mut table, 0, 9);
    not_settled(&table);
    // With D = 9 only (c) is broken.
    table.sources[0].maximum = 9;
    not_settled(&table);
}

// Link of 10, session 0 with D = 5 in F and session 1 in R with B = 5: 5 is not less than 5.
#[test]
fn c_members_of_f_have_less_than_b() {
    let records = [link(0, 10), session(0, 5, 0, &[0]), plain_session(1, &[0])];
    let mut table = at_rest(&records).table;
    assert_eq!(settled(&table), Ok(true));
    table.links[0].r = 0b10;
    table.links[0].f = 0b01;
    not_settled(&table);
}

// In F at its only link with 7, while D is 8.
#[test]
fn d_restricted_somewhere_or_at_d() {
    let mut table = p3();
    table.sources[0].access = 8;
    not_settled(&table);
}

// In R with B = 10, while D is 9.
#[test]
fn d_no_rate_exceeds_d() {
    let mut table = p2();
    table.sources[0].maximum = 9;
    not_settled(&table);
    table.sources[0].maximum = 10;
    assert_eq!(settled(&table), Ok(true));
}

#[test]
fn e_the_rate_last_told() {
    let mut table = p2();
    table.sources[0].told_num = 9;
    not_settled(&table);
    let mut table = p2();
    table.sources[0].told = NO;
    not_settled(&table);
}

// The own line's R or F is not a link's: it decides nothing.
#[test]
fn the_own_line_is_no_link() {
    let mut table = p3();
    table.sources[0].access = 8;
    for set in [0, 1] {
        table.sources[0].set = set;
        not_settled(&table);
    }
}

// A session that has left, all its packets gone, is no longer asked about.
#[test]
fn sessions_that_left_do_not_count() {
    let mut machine = Machine::with(p2());
    machine.take(crate::common::leave(0));
    assert_eq!(settled(&machine.table), Ok(false));
    machine.drain(|_| true);
    assert_eq!(settled(&machine.table), Ok(true));
}
