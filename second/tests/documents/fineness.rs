//! Refusal 12 where document 01 puts it: at every B and partial sum that a rule reads on its way, and
//! at those that a step leaves behind.

use crate::common::deliver;
use crate::packets::{
    delivered, handed, leaving, packet, set_bottleneck, with_packet, with_rate, Held, OWN,
};
use second::machine::table::{Packet, Table, IDLE, JOIN, LEAVE, NO, WAITING_RESPONSE};

fn refused_12(table: Table, packet: Packet) {
    with_packet(table, packet).refuse(deliver(0), 12);
}

// With the finest rate held in F the Join of session 2 is refused. At half the fineness it is taken:
// all three sessions are then in R, and the Join goes on with this rate.
fn join_at_the_limit(capacity: u64, held: impl Fn(u64, u64) -> [Held; 3], rate: (u64, u64)) {
    let join = with_rate(JOIN, 2, 1, (100, 1), OWN);
    refused_12(handed(capacity, &held(1_048_575, 1_048_576)), join);
    let machine = delivered(handed(capacity, &held(524_287, 524_288)), join);
    assert_eq!(machine.table.links[0].r, 0b111);
    let sent = machine.table.packets.last().unwrap();
    assert_eq!((sent.kind, sent.num, sent.den), (JOIN, rate.0, rate.1));
}

// The Join's first B is (1/1,048,576) / 2. After the turn that it starts F would be empty and B 1/3,
// but the rule has read the finer one.
#[test]
fn a_b_before_a_turn_of_the_f_check() {
    let held = |num, den| {
        [
            Held::F(IDLE, (num, den)),
            Held::R(IDLE, (0, 1)),
            Held::Nowhere,
        ]
    };
    // At half the fineness B is 1/1,048,576, the turn is made, and 1/3 goes on.
    join_at_the_limit(1, held, (1, 3));
}

// With x = 1,048,575/1,048,576 and the Join alone in R, B is 2 - 1 - x = 1/1,048,576. The 1 returns
// to R first, and B is then (2 - x) / 2 = 1,048,577/2,097,152: too fine, although the turn after it
// would empty F and leave 2/3.
#[test]
fn a_b_between_two_turns() {
    let held = |num, den| {
        [
            Held::F(IDLE, (1, 1)),
            Held::F(IDLE, (num, den)),
            Held::Nowhere,
        ]
    };
    join_at_the_limit(2, held, (2, 3));
}

// B = (10 - 1/524,288) / 2 is just fine enough; in F the 1/3 makes a sum over 1,572,864.
#[test]
fn a_sum_after_a_move_to_f() {
    let held = |den| {
        [
            Held::F(IDLE, (1, 524_288)),
            Held::R(IDLE, (1, den)),
            Held::R(WAITING_RESPONSE, (0, 1)),
        ]
    };
    refused_12(handed(10, &held(3)), set_bottleneck(1, 1, NO));
    // 1/2 adds nothing to the fineness of the sum, and B is (10 - 1/2 - 1/524,288) / 1.
    let machine = delivered(handed(10, &held(2)), set_bottleneck(1, 1, NO));
    assert_eq!(machine.table.links[0].f, 0b011);
}

// 1/3 + 2/3 + 1/1,048,576 is fine at every partial sum; without the 2/3 it is not.
#[test]
fn a_sum_after_a_leave() {
    let held = [
        Held::F(IDLE, (1, 3)),
        Held::F(IDLE, (2, 3)),
        Held::F(IDLE, (1, 1_048_576)),
    ];
    refused_12(leaving(10, &held, 1), packet(LEAVE, 1, 1));
    let machine = delivered(leaving(10, &held, 2), packet(LEAVE, 2, 1));
    assert_eq!(machine.table.links[0].f, 0b011);
}

// B after a Leave: (1 - 1/1,048,576) over three members of R was fine by chance, as 3 divides
// 1,048,575; over two it is not.
#[test]
fn a_b_after_a_leave() {
    let held = [
        Held::F(IDLE, (1, 1_048_576)),
        Held::R(WAITING_RESPONSE, (0, 1)),
        Held::R(WAITING_RESPONSE, (0, 1)),
        Held::R(WAITING_RESPONSE, (0, 1)),
    ];
    refused_12(leaving(1, &held, 3), packet(LEAVE, 3, 1));
}
