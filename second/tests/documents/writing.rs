//! 02, §3: the present set of links and active sessions, written as records of kinds 1 and 2 into a
//! lent slice. 17 where the slice is shorter than the output, after 14.

use crate::common::{
    at_rest, change, deliver, leave, link, plain_session, refused, session, taken, Machine,
};
use crate::handed::{damaged, sound};
use second::machine::table::{Packet, Table, LEFT, NEVER_JOINED};
use second::machine::{passes_14, write, OUTPUT_BYTES};

const MARK: u8 = 0xa5;

// What is written of a table that passes 14. Of every such call: the count is that of the bytes, those
// after it stay, a slice of exactly that length is enough, and one of one byte less is refused and left.
pub fn written(table: &Table) -> Vec<u8> {
    let mut roomy = [MARK; OUTPUT_BYTES + 8];
    let count = write(table, &mut roomy).unwrap();
    let (bytes, after) = roomy.split_at(count as usize);
    assert!(after.iter().all(|&byte| byte == MARK));
    // With another filling, so that a byte that was not written shows.
    let mut exact = vec![!MARK; bytes.len()];
    assert_eq!(write(table, &mut exact), Ok(count));
    assert_eq!(exact, bytes);
    if !bytes.is_empty() {
        refused_17(table, bytes.len() - 1);
    }
    bytes.to_vec()
}

fn refused_17(table: &Table, length: usize) {
    let mut short = vec![MARK; length];
    assert_eq!(write(table, &mut short).err(), refused(17, 0));
    assert_eq!(short, vec![MARK; length]);
}

// 01, "Records", byte for byte: 1,000,000 is 0f4240, 66,051 is 010203 and 258 is 0102.
#[test]
fn every_byte_of_a_record() {
    let records = [
        link(63, 1_000_000),
        link(0, 66_051),
        session(31, 66_051, 258, &[63, 0]),
    ];
    let table = taken(&records).table;
    let expected = [
        &[1, 0, 0, 1, 2, 3][..],
        &[1, 63, 0, 0x0f, 0x42, 0x40],
        &[2, 31, 0, 1, 2, 3, 0, 0, 1, 2, 2, 63, 0],
        &[255; 6],
    ];
    assert_eq!(written(&table), expected.concat());
}

// Declared and joined in another order, with sessions between the links, and none delivered: a session
// whose Join is on its way is active.
#[test]
fn links_then_sessions_by_rising_number() {
    let records = [
        link(40, 7),
        link(3, 9),
        plain_session(31, &[40, 3]),
        link(63, 8),
        plain_session(0, &[63]),
        plain_session(9, &[3, 63]),
        link(0, 10),
        plain_session(2, &[0]),
    ];
    let expected = [
        link(0, 10),
        link(3, 9),
        link(40, 7),
        link(63, 8),
        plain_session(0, &[63]),
        plain_session(2, &[0]),
        plain_session(9, &[3, 63]),
        plain_session(31, &[40, 3]),
    ];
    assert_eq!(written(&taken(&records).table), expected.concat());
    assert_eq!(written(&at_rest(&records).table), expected.concat());
}

// Session 0 leaves from rest; its entries go link by link, and session 1 is told of it.
#[test]
fn a_leaving_session_is_not_written() {
    let links = [link(0, 10), link(1, 20)].concat();
    let [first, second] = [plain_session(0, &[0, 1]), plain_session(1, &[0])];
    let mut machine = at_rest(&[link(0, 10), link(1, 20), first.clone(), second.clone()]);
    let both = [&links[..], &first, &second].concat();
    assert_eq!(written(&machine.table), both);
    machine.take(leave(0));
    assert!(machine.table.links[0].holds(0) && machine.table.links[1].holds(0));
    let one = [&links[..], &second].concat();
    let mut deliveries = 0;
    while let Some(position) = machine.first(|_| true) {
        assert_eq!(written(&machine.table), one);
        machine.take(deliver(position));
        deliveries += 1;
    }
    assert!(deliveries > 3, "{deliveries} deliveries");
    assert_eq!(written(&machine.table), one);
    // It joins anew, with what it has then.
    machine.take(session(0, 50, 7, &[1]));
    let anew = [links, session(0, 50, 7, &[1]), second].concat();
    assert_eq!(written(&machine.table), anew);
}

// Session 0 has left before its Join arrived anywhere, while the Join of session 1 travels too.
#[test]
fn a_session_that_left_at_once() {
    let mut machine = taken(&[link(0, 10), plain_session(0, &[0]), leave(0)]);
    assert_eq!(written(&machine.table), link(0, 10));
    machine.take(plain_session(1, &[0]));
    let one = [link(0, 10), plain_session(1, &[0])].concat();
    assert_eq!(written(&machine.table), one);
    // A refused record changes nothing.
    machine.refuse(plain_session(0, &[0]), 10);
    assert_eq!(written(&machine.table), one);
    machine.drain(|packet: &Packet| packet.session == 0);
    assert_eq!(machine.table.sources[0].standing, LEFT);
    assert_eq!(written(&machine.table), one);
}

// Access is 100 and the link has 10: neither D nor the rate is written, nor the maximum of the join.
#[test]
fn the_present_maximum() {
    let with = |maximum| [link(0, 10), session(3, 100, maximum, &[0])].concat();
    let mut machine = at_rest(&[link(0, 10), session(3, 100, 50, &[0])]);
    assert_eq!(written(&machine.table), with(50));
    for maximum in [4, 100, 0, 1, 99] {
        machine.take(change(3, maximum));
        // The Probe of the change is on its way, and a second change is only noted.
        assert_eq!(written(&machine.table), with(maximum));
        machine.take(change(3, 60));
        assert_eq!(written(&machine.table), with(60));
        machine.take(change(3, maximum));
        machine.drain(|_| true);
        assert_eq!(written(&machine.table), with(maximum));
        machine.refuse(change(3, 101), 16);
        assert_eq!(written(&machine.table), with(maximum));
    }
}

#[test]
fn unused_link_bytes_are_255() {
    let path = [7, 6, 5, 4, 3, 2, 1, 0];
    let links: Vec<Vec<u8>> = (0..8).map(|number| link(number, 10)).collect();
    for length in 1..=8 {
        let mut machine = taken(&links);
        machine.take(plain_session(0, &path[..length]));
        // What stands in the table's places past the length is not looked at (14).
        for place in length..8 {
            machine.table.sources[0].path[place] = [0, 63, u64::MAX][place % 3];
        }
        assert_eq!(passes_14(&machine.table), Ok(()));
        let bytes = written(&machine.table);
        let record = &bytes[8 * 6..];
        assert_eq!(record[10], length as u8);
        assert_eq!(record[11..11 + length], path[..length]);
        assert_eq!(record[11 + length..], vec![255; 8 - length]);
    }
}

// An undeclared link's capacity and all of a session that never joined are not in use either.
#[test]
fn what_is_not_in_use_is_not_written() {
    let mut table = sound();
    let expected = written(&table);
    table.links[5].capacity = 10;
    table.sources[9] = table.sources[0];
    table.sources[9].standing = NEVER_JOINED;
    assert_eq!(passes_14(&table), Ok(()));
    assert_eq!(written(&table), expected);
}

// 6 bytes a link and 19 a session; 992 are the most there can be.
#[test]
fn the_count_is_the_bytes() {
    let mut machine = Machine::new();
    for number in 0..64 {
        assert_eq!(written(&machine.table).len(), 6 * usize::from(number));
        machine.take(link(number, 1_000_000));
    }
    for number in 0..32 {
        assert_eq!(
            written(&machine.table).len(),
            384 + 19 * usize::from(number)
        );
        let path: Vec<u8> = (number..number + 8).collect();
        machine.take(session(number, 1_000_000, 1_000_000, &path));
    }
    assert_eq!(written(&machine.table).len(), 992);
    assert_eq!(OUTPUT_BYTES, 992);
}

#[test]
fn seventeen_for_every_shorter_slice() {
    // Links 0 and 1, and of three sessions the two that are active.
    let table = sound();
    assert_eq!(written(&table).len(), 2 * 6 + 2 * 19);
    for length in 0..50 {
        refused_17(&table, length);
    }
    let expected = [
        link(0, 10),
        link(1, 20),
        plain_session(0, &[0, 1]),
        plain_session(1, &[0]),
    ];
    let expected = expected.concat();
    for length in 50..120 {
        let mut slice = vec![MARK; length];
        assert_eq!(write(&table, &mut slice), Ok(50));
        assert_eq!(slice[..50], expected);
        assert_eq!(slice[50..], vec![MARK; length - 50]);
    }
}

// The sound table with one maximum above its access rate (02, §1), of the session that is leaving.
#[test]
fn fourteen_before_seventeen() {
    let table = damaged(|table| table.sources[2].maximum = 101);
    for length in [0, 1, 49, 50, 992] {
        let mut slice = vec![MARK; length];
        assert_eq!(write(&table, &mut slice).err(), refused(14, 0));
        assert_eq!(slice, vec![MARK; length]);
    }
}

#[test]
fn an_empty_table() {
    assert_eq!(write(&Table::empty(), &mut []), Ok(0));
    assert_eq!(written(&Table::empty()), []);
    // And one that is empty but for a link.
    assert_eq!(
        write(&taken(&[link(0, 1)]).table, &mut []).err(),
        refused(17, 0)
    );
}
