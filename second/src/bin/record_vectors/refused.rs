//! Inputs that are refused, by refusals 1 to 13 of document 01 and 16 of document 02, and inputs that go
//! up to a limit.

use crate::common::{
    at_rest, change, deliver, leave, link, plain_session, session, taken, Machine,
};
use crate::{for_both, Input};
use second::machine::table::Packet;

// A run whose last record, a delivery, is refused 12, and one whose last delivery is refused 13.
const TOO_FINE: &[u8] = include_bytes!("../../../../examples/steps/refused_12.bin");
const TOO_MANY: &[u8] = include_bytes!("../../../../examples/steps/refused_13.bin");

// The records that are taken before a refused one: links 0 and 1, and session 0 over both.
fn before() -> Vec<u8> {
    taken(&[link(0, 10), link(1, 20), plain_session(0, &[0, 1])]).bytes
}

// One record with one byte overwritten.
fn overwritten(mut record: Vec<u8>, place: usize, byte: u8) -> Vec<u8> {
    record[place] = byte;
    record
}

/// Refusals 2 to 8 of a link or a session record, which the calculation and the machine share.
pub fn by_both() -> Vec<Input> {
    let refused = [
        // 2.
        vec![0],
        vec![6, 0],
        vec![255; 19],
        // 3: the kind alone, and all but the last byte.
        vec![1],
        link(2, 7)[..5].to_vec(),
        plain_session(1, &[0])[..18].to_vec(),
        // 4.
        link(64, 10),
        plain_session(32, &[0]),
        // 5.
        link(2, 0),
        link(2, 1_000_001),
        session(1, 0, 0, &[0]),
        session(1, 1_000_001, 0, &[0]),
        session(1, 100, 1_000_001, &[0]),
        // 6: no link, nine, a link over 63, a link twice, an unused byte that is a link.
        plain_session(1, &[]),
        overwritten(plain_session(1, &[0]), 10, 9),
        plain_session(1, &[0, 64]),
        plain_session(1, &[0, 1, 0]),
        overwritten(plain_session(1, &[0]), 18, 1),
        // 7, the session over a link that 8 would refuse.
        link(1, 20),
        plain_session(0, &[5]),
        // 8.
        plain_session(1, &[0, 5]),
    ];
    let inputs = refused.map(|record| for_both([before(), record].concat()));
    inputs.into_iter().flatten().collect()
}

/// The kinds that the calculation does not take, and what only the machine can refuse.
pub fn by_one() -> Vec<Input> {
    let calculation = [leave(0), change(0, 5), deliver(0)];
    let machine = [
        // 3 to 5 of the machine's own kinds.
        change(0, 5)[..5].to_vec(),
        deliver(0)[..2].to_vec(),
        leave(32),
        change(0, 1_000_001),
        // 8 before 10.
        [leave(0), plain_session(0, &[5])].concat(),
        // 9: never joined, and left.
        leave(1),
        change(1, 5),
        [leave(0), change(0, 5)].concat(),
        // 10.
        [leave(0), plain_session(0, &[0])].concat(),
        // 11: past the end, and out of turn.
        deliver(1),
        deliver(65_535),
        [leave(0), deliver(1)].concat(),
        [deliver(0), leave(0), deliver(1), deliver(1)].concat(),
    ];
    let after = |record: Vec<u8>| [before(), record].concat();
    let mut inputs: Vec<Input> = Vec::new();
    inputs.extend(calculation.map(|record| Input::Calculation(after(record))));
    inputs.extend(machine.map(|records| Input::Run(after(records))));
    inputs
}

// 32 sessions at rest on one link. Each time that session 0 asks for a rate the link tells the 31
// others, whose packets are left in flight; after eight times, and eight leaves, there are 256.
fn full_list() -> Machine {
    let mut records = vec![link(0, 32)];
    records.extend((0..32).map(|number| plain_session(number, &[0])));
    let mut machine = at_rest(&records);
    for _ in 0..8 {
        machine.take(change(0, 0));
        machine.drain(|packet: &Packet| packet.session == 0);
    }
    for number in 1..=8 {
        machine.take(leave(number));
    }
    assert_eq!(machine.table.packets.len(), 256);
    machine
}

/// Refusals 12 and 13, and runs that come to the largest denominator and to 256 packets.
pub fn at_the_limits() -> Vec<Input> {
    let full = full_list().bytes;
    let runs = [
        TOO_FINE.to_vec(),
        TOO_FINE[..TOO_FINE.len() - deliver(0).len()].to_vec(),
        TOO_MANY.to_vec(),
        [full.clone(), leave(9)].concat(),
        [full.clone(), change(0, 0)].concat(),
        // 11 with a full list, and a delivery whose place is used again.
        [full.clone(), deliver(256)].concat(),
        [full, deliver(0), leave(9)].concat(),
    ];
    runs.map(Input::Run).into_iter().collect()
}

/// Refusal 16 (02, §1) alone and beside the others, each refused by the first, and maxima up to the
/// access rate.
pub fn above_access() -> Vec<Input> {
    let session_records = [
        // Equal to the access rate, and none.
        session(1, 7, 7, &[0]),
        session(1, 7, 0, &[0]),
        // 16: one above, and with a zero too many.
        session(1, 7, 8, &[0]),
        session(1, 100, 1_000, &[0]),
        session(1, 1, 1_000_000, &[1]),
        // 5, 6 and 7 before 16, and 16 before 8.
        session(1, 7, 1_000_001, &[0]),
        session(1, 0, 8, &[0]),
        session(1, 7, 8, &[0, 0]),
        session(0, 7, 8, &[0]),
        session(1, 7, 8, &[0, 5]),
    ];
    let changes = [
        change(0, 100),
        change(0, 0),
        // 16, and the change up to the access rate after it is not looked at.
        change(0, 101),
        [change(0, 1_000), change(0, 100)].concat(),
        // 5 before 16, and 9 before 16: never joined, and left.
        change(0, 1_000_001),
        change(1, 101),
        [leave(0), change(0, 101)].concat(),
        // 16 before 10, and before 8 and 10.
        [leave(0), session(0, 7, 8, &[0])].concat(),
        [leave(0), session(0, 7, 8, &[5])].concat(),
        // Held to the access rate of the join, not to the maximum before.
        [
            session(1, 7, 2, &[0]),
            change(1, 1),
            change(1, 7),
            change(1, 8),
        ]
        .concat(),
    ];
    let after = |record: Vec<u8>| [before(), record].concat();
    let full = full_list().bytes;
    let with_full_list = [
        // 16 before 13, and before 10 and 13.
        [full.clone(), change(0, 101)].concat(),
        [full, session(1, 7, 8, &[0])].concat(),
    ];
    let mut inputs: Vec<Input> = Vec::new();
    inputs.extend(session_records.map(after).into_iter().flat_map(for_both));
    inputs.extend(changes.map(after).map(Input::Run));
    inputs.extend(with_full_list.map(Input::Run));
    inputs
}

/// Refusal 1: one byte too many.
pub fn too_long() -> Vec<Input> {
    Vec::from(for_both(vec![0; 32_769]))
}
